# Part of command.sh: logs, and the numbers that --first gives. FLAT is the film of command-answers.sh: 16 frames, a cut at 6,
# and scores at the frames 1 to 11.
log=$room/scores.log
kept=$room/kept.log
flat=$room/flat.y4m

# The command refuses or fails as `ends` says, and the log stays as it was, byte for byte.
spares() { # NAME STATUS WORDS ARGUMENTS..
    cp "$log" "$kept"
    ends "$@"
    cmp -s "$log" "$kept"
    verdict "$1: the log is left alone" $?
}

# The command ends so, and makes no log.
makes_none() { # NAME STATUS WORDS ARGUMENTS..
    rm -f "$log"
    ends "$@" --log "$log"
    [ ! -e "$log" ]
    verdict "$1: no log is made" $?
}

# Numbers from 100 on: those of lines, calls and keyframes.
command_run decide "$flat" --csv
awk -F, -v OFS=, 'NR > 1 { $1 += 100; if ($1 > 100) $8 += 100; if ($10 != "") $10 += 100 } { print }' "$room/out" > "$expected"
gives "--first 100, every line" "$expected" decide "$flat" --csv --first 100
command_run decide "$flat" --first 100
grep -Eq '^ +100 first ' "$room/out" && [ "$(tail -n 1 "$room/out")" = "16 frames, 1 cut" ]
verdict "--first 100, lines for people" $?
cuts_at "--first 100, distances begin there" "100 103 106 109" "$flat" --max 3 --first 100
ends "--first wants a number" 2 "--first wants a whole number" decide "$flat" --first 1x

# What is logged is what the lines say, for the frames that have a score.
command_run decide "$flat" --csv
cp "$room/out" "$expected"
gives "a log is made, and the lines are as without" "$expected" decide "$flat" --csv --log "$log"
awk -F, -v OFS=, 'NR == 1 || $3 != "" { print $1, $2, $3, $4, $5, $6, $7 }' "$expected" > "$room/scored"
[ "$(wc -l < "$room/scored")" = 12 ] && [ "$(wc -c < "$log")" = $((11 * 47)) ]
verdict "a record for each score" $?
gives "log --csv gives the lines again" "$room/scored" log --csv "$log"
$RUN "$COMMAND" log - --csv < "$log" > "$room/out" 2> "$room/err"
cmp -s "$room/scored" "$room/out"
verdict "a log from the standard input" $?
cat "$log" | $RUN "$COMMAND" log --csv - > "$room/out" 2> "$room/err"
cmp -s "$room/scored" "$room/out"
verdict "a log from a pipe" $?
command_run log "$log"
[ "$status" = 0 ] && [ ! -s "$room/err" ] && [ "$(wc -l < "$room/out")" = 13 ] &&
    [ "$(tail -n 1 "$room/out")" = "11 records, 1 cut" ] && grep -Eq '^ +6 +cut +40 ' "$room/out" &&
    awk 'length($0) > 80 { exit 1 }' "$room/out"
verdict "log, lines for people" $?

# The record that docs/FORMATS.md shows.
printf 'SC\170\126\064\022\000\000\000\000\000\000\004\100\232\231\231\231\231\231\271\077' > "$log"
printf '\377\377\377\377\377\377\357\177\000\000\000\000\000\000\370\177\000\000\000\000\000\000\062\100\001' >> "$log"
printf 'frame,cut,inter,importance,backward,forward,threshold\n%s\n' \
    '305419896,1,2.5,0.1,1.7976931348623157e+308,nan,18' > "$expected"
gives "a record, byte by byte" "$expected" log "$log" --csv
for rest in 1 2 46; do
    head -c "$rest" "$log" > "$kept"
    cat "$kept" >> "$log"
    command_run log "$log" --csv
    [ "$status" = 0 ] && cmp -s "$expected" "$room/out" && grep -q "a torn rest of $rest byte" "$room/err"
    verdict "log with a torn rest of $rest" $?
    head -c 47 "$log" > "$kept"
    cp "$kept" "$log"
done
: > "$log"
head -n 1 "$expected" > "$kept"
gives "log of an empty file" "$kept" log "$log" --csv

# A record from before a plane without a block was refused: 2, a NaN, 0, 0, a NaN. It is shown, and a night goes on behind it.
printf 'SC\001\000\000\000\000\000\000\000\000\000\000\100\000\000\000\000\000\000\370\177' > "$log"
printf '\000\000\000\000\000\000\000\000\000\000\000\000\000\000\000\000\000\000\000\000\000\000\370\177\000' >> "$log"
cp "$log" "$kept"
printf 'frame,cut,inter,importance,backward,forward,threshold\n1,0,2,nan,0,0,nan\n' > "$expected"
gives "NaNs in an old record" "$expected" log "$log" --csv
command_run log "$log"
[ "$status" = 0 ] && [ "$(grep -o nan "$room/out" | wc -l)" = 2 ]
verdict "NaNs in an old record, for people" $?
command_run decide "$flat" --csv --log "$log" --first 1
[ "$status" = 0 ] && head -c 47 "$log" | cmp -s - "$kept" && [ "$(wc -c < "$log")" -gt 47 ]
verdict "a night behind an old record" $?
awk -F, -v OFS=, 'NR > 1 && $3 != "" { print $1, $2, $3, $4, $5, $6, $7 }' "$room/out" >> "$expected"
gives "an old record and a night" "$expected" log "$log" --csv
rm -f "$log"
command_run decide "$flat" --mode none --log "$log"
[ "$status" = 0 ] && [ -f "$log" ] && [ ! -s "$log" ]
verdict "none mode has no score, and the log is empty" $?

# Two nights in one log: the second film's frames go on where the first one's ended.
rm -f "$log"
command_run decide "$flat" --csv --log "$log"
awk -F, -v OFS=, '$3 != "" { print $1, $2, $3, $4, $5, $6, $7 }' "$room/out" > "$expected"
command_run decide "$flat" --csv --log "$log" --first 16
awk -F, -v OFS=, 'NR > 1 && $3 != "" { print $1, $2, $3, $4, $5, $6, $7 }' "$room/out" >> "$expected"
gives "two nights in one log" "$expected" log --csv "$log"
spares "a number that is in the log" 1 "frame 27 cannot follow its last record, frame 27 (refusal 14)" \
    decide "$flat" --log "$log" --first 26
spares "a number below the log's" 1 "frame 1 cannot follow its last record, frame 27 (refusal 14)" decide "$flat" --log "$log"
command_run decide "$flat" --log "$log" --first 27
[ "$status" = 0 ] && [ "$(wc -c < "$log")" = $((33 * 47)) ]
verdict "the number behind the log's last" $?

# The end of the numbers: the step refuses 2^32, and what was decided before stays in the log.
past='would have the number 4294967296, and the largest is 4294967295 (refusal 7)'
rm -f "$log"
breaks "frame 2^32" 1 "flat.y4m: frame 1 of the film $past" 1 decide "$flat" --first 4294967295 --log "$log"
[ ! -e "$log" ]
verdict "frame 2^32: no log is made" $?
breaks "frame 2^32 on the way" 1 "flat.y4m: frame 6 of the film $past" 6 decide "$flat" --first 4294967290 --log "$log"
[ "$(wc -c < "$log")" = $((5 * 47)) ]
verdict "frame 2^32 on the way: the log has what was decided before" $?
spares "behind the last number" 1 "frame 1 cannot follow its last record, frame 4294967295 (refusal 14)" decide "$flat" --log "$log"

# Films that are refused or broken.
printf 'YUV4MPEG2 W16 H16 C420p9\nFRAME\n' > "$bad"
makes_none "a film of 9 bits" 1 "(refusal 5)" decide "$bad"
printf 'YUV4MPEG2 W0 H16\nFRAME\n' > "$bad"
makes_none "a film without width" 1 "(refusal 6)" decide "$bad"
printf 'YUV4MPEG2 W16 H16\n' > "$bad"
makes_none "a film without a frame" 2 "no frame" decide "$bad"
printf 'YUV4MPEG2 W16 H16\nFRAME\n' > "$bad"
makes_none "a first frame cut short" 2 "frame 0 (at byte 18): it is cut short" decide "$bad"
makes_none "a missing film" 2 "No such file" decide "$room/none.y4m"
makes_none "missing costs" 2 "No such file" decide "$flat" --mode standard --inter "$room/none"

# A log that is a file which the command reads, or its answer, under any of its names. Each is shorter than a record, so as a
# log it would be all rest, and be written over.
tiny=$room/tiny.y4m
printf 'YUV4MPEG2 W1 H1 Cmono\nFRAME\naFRAME\nbFRAME\nc' > "$tiny"
printf '1\n2\n' > "$costs"
cp "$tiny" "$kept"
cp "$costs" "$room/kept.costs"
ln "$tiny" "$room/hard"
ln -s "$tiny" "$room/soft"
for other in "$tiny" "$room/./tiny.y4m" "$room/hard" "$room/soft"; do
    ends "a log that is the film, as ${other##"$room"/}" 2 "$other: a log must be a file of its own, and this is the film" \
        decide "$tiny" --lookahead 1 --log "$other"
    cmp -s "$tiny" "$kept"
    verdict "a log that is the film, as ${other##"$room"/}: the film stays" $?
    cp "$kept" "$tiny"
done
$RUN "$COMMAND" decide - --lookahead 1 --log "$tiny" < "$tiny" > "$room/out" 2> "$room/err"
[ $? = 2 ] && grep -q "and this is the film" "$room/err" && cmp -s "$tiny" "$kept"
verdict "a log that is the film on the standard input" $?
cp "$kept" "$tiny"
ends "a log that is the costs" 2 "and this is the file of inter costs" \
    decide "$flat" --lookahead 1 --mode standard --inter "$costs" --log "$room/./costs"
cmp -s "$costs" "$room/kept.costs"
verdict "a log that is the costs: they stay" $?
$RUN "$COMMAND" decide "$tiny" --lookahead 1 --log "$log" > "$log" 2> "$room/err"
[ $? = 2 ] && grep -q "and this is the standard output" "$room/err" && [ ! -s "$log" ]
verdict "a log that is the standard output" $?

rm -f "$log"
$RUN "$COMMAND" decide "$flat" --log "$log" > "$room/out" 2> "$log"
[ $? = 2 ] && [ ! -s "$log" ] && [ ! -s "$room/out" ]
verdict "a log that is the standard error" $?
$RUN "$COMMAND" log - <&- > "$room/out" 2> "$room/err"
[ $? = 2 ] && [ ! -s "$room/out" ] && grep -q 'standard input: ' "$room/err"
verdict "a log from a standard input that is closed" $?

# Files that cannot be a log.
ends "--log without its value" 2 "--log wants a value" decide "$flat" --log
for other in - ''; do
    ends "a log named '$other'" 2 "--log wants the name of a file, not '$other'" decide "$flat" --log "$other"
    grep -q -- '--help' "$room/err"
    verdict "a log named '$other' is a wrong command line" $?
done
ends "a log in a missing folder" 2 "No such file" decide "$flat" --log "$room/none/log"
ends "a folder for a log" 2 "Is a directory" decide "$flat" --log "$room"
ends "a device for a log" 2 "regular file" decide "$flat" --log /dev/null
mkfifo "$room/fifo"
ends "a pipe for a log" 2 "regular file" decide "$flat" --log "$room/fifo"
ends "log without a file" 2 "log wants a file" log --csv
ends "log with two files" 2 "one file" log "$log" "$log"
ends "log with an unknown option" 2 "no option '--json'" log "$log" --json
ends "log of a missing file" 2 "No such file" log "$room/none"
ends "log of a folder" 2 "Is a directory" log "$room"

# Files that are no log: the message names the record at fault. The places lie around those where a piece of a log ends.
echo 'a text file, and longer than one record of a log would be' > "$log"
spares "a text for a log" 1 "record 0 at byte 0: it does not begin with the mark SC (refusal 12)" decide "$flat" --log "$log" --first 1000
ends "log of a text" 1 "record 0 at byte 0: it does not begin with the mark SC (refusal 12)" log "$log"
put() { printf "$3" | dd of="$1" bs=1 seek="$2" conv=notrunc 2> /dev/null; } # FILE BYTE TEXT
count_up() { awk -v again="$1" 'BEGIN { for (n = 0; n < 600; n++) print n == again ? n - 1 : n }'; }
film log $(count_up -1) > "$kept"
for record in 0 1 254 255 256 257 509 510 511 512 599; do
    place="record $record at byte $((47 * record))"
    cp "$kept" "$log"
    put "$log" $((47 * record + 46)) '\002'
    ends "a bad cut in record $record" 1 "$place: its cut is above 1 (refusal 13)" log "$log"
    put "$log" $((47 * record + 1)) 'c'
    ends "a bad mark in record $record, before its cut" 1 "$place: it does not begin with the mark SC (refusal 12)" log "$log"
    [ "$record" = 0 ] || film log $(count_up "$record") > "$log"
    [ "$record" = 0 ] || ends "a number in record $record" 1 "$place: its number is not above that of the record before (refusal 14)" log "$log"
done
cp "$kept" "$log"
put "$log" $((47 * 300 + 46)) '\377'
put "$log" $((47 * 400)) 'X'
ends "the earliest record at fault" 1 "record 300 at byte 14100: its cut is above 1 (refusal 13)" log "$log"
spares "the earliest record at fault, in decide" 1 "record 300 at byte 14100: its cut is above 1 (refusal 13)" decide "$flat" --log "$log" --first 600
head -c $((47 * 300)) "$log" > "$kept"
command_run decide "$flat" --log "$kept" --first 299
[ "$status" = 0 ] && [ "$(wc -c < "$kept")" = $((47 * 311)) ]
verdict "cut back to its good records it is a log" $?
command_run log "$kept" --csv
[ "$status" = 0 ] && [ "$(wc -l < "$room/out")" = 312 ] && [ "$(sed -n 257,259p "$room/out" | cut -d, -f1 | tr '\n' ' ')" = "255 256 257 " ]
verdict "a long log, every record once" $?
