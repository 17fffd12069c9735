# Part of command.sh: the command line.
a=$room/a.y4m
film y4m 16 16 420 50 50 60 60 > "$a"

command_run --help
[ "$status" = 0 ] && grep -q 'decide FILM.y4m' "$room/out" && [ ! -s "$room/err" ]
verdict "--help" $?
command_run decide --help
[ "$status" = 0 ] && grep -q 'decide FILM.y4m' "$room/out"
verdict "decide --help" $?
for option in mode lookahead min max inter log first strips cuts bars dump times purge csv; do
    [ "$(grep -c -- "--$option\b" "$room/out")" -ge 2 ] && grep -q "^ *--$option  *[a-z]" "$room/out"
    verdict "decide --help: --$option" $?
done
for words in '-h' 'decide -h' 'log --help' 'measure --help' 'demo -h' 'decide --min 3 --help'; do
    cp "$room/out" "$room/help"
    # shellcheck disable=SC2086 # words
    command_run $words
    [ "$status" = 0 ] && cmp -s "$room/help" "$room/out" && [ ! -s "$room/err" ]
    verdict "$words" $?
done
command_run --version
[ "$status" = 0 ] && grep -Eq '^brinepulley [0-9]+\.[0-9]+\.[0-9]+$' "$room/out"
verdict "--version" $?

ends "no command" 2 "which command"
ends "an unknown command" 2 "no command 'dance'" dance
ends "an unknown option" 2 "decide has no option '--fast'" decide "$a" --fast
ends "an unknown letter" 2 "decide has no option '-x'" decide "$a" -x
ends "an unknown letter of another alphabet" 2 "decide has no option '-.xC3'" decide "$a" -é
ends "an unknown option with a value" 2 "decide has no option '--speed=9'" decide "$a" --speed=9
ends "the beginning of several options" 2 "'--m' is the beginning of more than one option" decide "$a" --m 3
ends "the beginning of several options, with =" 2 "'--m=3' is the beginning of more than one option" decide "$a" --m=3
ends "a film without a name" 2 "decide wants a film" decide ''
ends "costs without a name" 2 "--inter wants the name of a file, not ''" decide "$a" --mode standard --inter=
ends "costs from the standard input" 2 "--inter wants the name of a file, not '-'" decide "$a" --mode standard --inter -
ends "a log without a name" 2 "log wants a file" log ''
ends "a switch with a value" 2 "'--csv=1': this option takes no value" decide "$a" --csv=1
ends "help with a value" 2 "'--help=1': this option takes no value" decide "$a" --help=1
ends "an option that is nearly --purge" 2 "no option '--purged'" decide "$a" --purged
ends "--purge takes no value" 2 "one film, not '$a' and '1'" decide "$a" --purge 1
ends "log has no --purge" 2 "no option '--purge'" log "$a" --purge
ends "no film" 2 "wants a film" decide --csv
ends "no film, and --purge" 2 "wants a film" decide --purge
ends "two films" 2 "one film" decide "$a" "$a"
ends "an option without its value" 2 "--min wants a value" decide "$a" --min
ends "an unknown mode" 2 "--mode wants" decide "$a" --mode slow
ends "lookahead 0" 2 "at least 1" decide "$a" --lookahead 0
for bad in '' x 1x -1 +1 ' 1' 1.5 18446744073709551616; do
    ends "a bad number '$bad'" 2 "--max wants a whole number below 2^64, not" decide "$a" --max "$bad"
done
for words in '--cuts --bars' '--bars --cuts' '--bars --csv' '--cuts --purge' '--bars --purge' '--dump --purge' '--dump --purge --csv'; do
    # shellcheck disable=SC2086 # words
    ends "$words do not go together" 2 "--\(cuts\|bars\|purge\) " decide "$a" $words
done
for words in '--dump --cuts' '--cuts --dump' '--dump --bars' '--bars --dump' '--cuts --dump --csv'; do
    # shellcheck disable=SC2086 # words
    ends "$words do not go together" 2 "--cuts, --bars and --dump are three ways to show a film: ask for one" decide "$a" $words
done
ends "log has no --dump" 2 "no option '--dump'" log "$a" --dump
ends "a number of 2^32 for the first frame" 2 "--first wants a number below 2^32" decide "$a" --first 4294967296
ends "a number of 2^64 - 1 for the first frame" 2 "--first wants a number below 2^32" decide "$a" --first 18446744073709551615
ends "standard mode without costs" 2 "--inter FILE" decide "$a" --mode standard
ends "costs in fast mode" 2 "--mode standard alone" decide "$a" --inter "$a"
ends "measure with one picture" 2 "two pictures" measure "$a"
ends "measure with three pictures" 2 "two pictures" measure "$a" "$a" "$a"
ends "measure in none mode" 2 "--mode wants fast or standard, not 'none'" measure "$a" "$a" --mode none
ends "measure has no --csv" 2 "measure has no option '--csv'" measure "$a" "$a" --csv
ends "demo with a word" 2 "demo takes no file: 'now'" demo now
ends "demo with an option" 2 "demo has no option '--csv'" demo --csv

# Habits: a value behind '=', words in any order, an option by its beginning, '--' before names that look like options.
command_run decide "$a" --mode fast --csv --min 2
cp "$room/out" "$room/want"
gives "a value behind =" "$room/want" decide --mode=fast --min=2 --csv "$a"
gives "an option by its beginning" "$room/want" decide --mo fast --mi 2 "$a" --cs
cp "$a" "$room/--csv"
program=$(realpath "$COMMAND")
(cd "$room" && $RUN "$program" decide --csv --min=2 -- --csv > "$room/out" 2> "$room/err")
cmp -s "$room/want" "$room/out"
verdict "-- before a film named --csv" $?
