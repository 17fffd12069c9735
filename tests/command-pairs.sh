# Part of command.sh: which pair a line's score is of, and --dump.
six=$room/six.y4m
six_film > "$six"
lines=$room/pair.lines

# Pair n of this film has the difference n, and Standard's inter cost is 20 times that: so each score says by itself which pair it is of,
# and the column must say the same. Where a score is, and where none is, the column is filled or not.
says_its_pair() { # FACTOR
    [ "$status" = 0 ] && awk -F, -v factor="$1" 'NR == 1 { for (i = 1; i <= NF; i++) if ($i == "pair") at = i }
        NR > 1 && $3 != factor * $at "" && !($3 == "" && $at == "") { wrong = 1 }
        NR > 1 && $3 != "" && $at != $1 && $at != $1 + 1 { wrong = 1 }
        END { exit !(at == 10 && !wrong) }' "$room/out"
}
failing=
for frames in 2 3 5 6 7 8 13 19; do
    # shellcheck disable=SC2046 # words
    sea_of $(awk -v n="$frames" 'BEGIN { while (++i < n) print i }')
    for ahead in 1 2 4 5 6 14; do
        command_run decide --csv "$sea" --lookahead $ahead
        says_its_pair 1 || failing="$failing $frames:$ahead:fast"
        command_run decide --csv "$sea" --lookahead $ahead --mode standard --inter "$sea_costs"
        says_its_pair 20 || failing="$failing $frames:$ahead:standard"
    done
done
echo "frames:lookahead:mode$failing" > "$room/log"
[ -z "$failing" ]
verdict "each line says which pair its score is of" $?
rm -f "$room/log"

# The film of six frames: its first set is short, and the score of frame 1 is that of pair 2. For people and for machines.
cat > "$expected" << 'END'
  frame   cut     inter importance  backward   forward threshold   pair release
      0 first         -          -         -         -         -      -       0
      1   cut        40         40        40        40        18      2       0
      2 large         -          -         -         -         -      -       0
      3     .         -          -         -         -         -      -       0
      4     .         -          -         -         -         -      -       0
      5     .         -          -         -         -         -      -       0
6 frames, 1 cut, 1 large change that is no cut
END
gives "six frames, lines for people" "$expected" decide "$six"
command_run decide "$six" --csv
printf '%s\n' frame,cut,inter,importance,backward,forward,threshold,release,large,pair 0,1,,,,,,0,0, 1,1,40,40,40,40,18,0,0,2 \
    2,0,,,,,,0,1, 3,0,,,,,,0,0, 4,0,,,,,,0,0, 5,0,,,,,,0,0, | cmp -s - "$room/out"
verdict "six frames, for machines" $?

# The same with the deque below each call's line. Nothing stands below the first frame, which is no call.
deque() { # MARKED
    for entry in '0 4 5' '1 4 5' '2 3 4' '3 1 3' '4 40 2' '5 2 1'; do
        # shellcheck disable=SC2086 # words
        set -- "$1" $entry
        [ "$2" = "$1" ] && mark='> entry' || mark='  entry'
        printf '%s %5d %9s %10s %9s %9s %9s %6s\n' "$mark" "$2" "$3" "$3" "$3" "$3" 18 "$4"
    done
}
cp "$expected" "$lines"
{
    sed -n 1,3p "$lines"
    deque 4
    for line in 4 5 6 7; do
        sed -n ${line}p "$lines"
        echo '  no score: no entry was decided on, and the deque stays'
        deque none
    done
    sed -n 8p "$lines"
} > "$expected"
gives "--dump, six frames" "$expected" decide "$six" --dump
gives "--dump, lookahead 14" "$expected" decide --dump "$six" --lookahead 14
cat > "$room/head" << 'END'
frame,cut,entry,pair,inter,importance,backward,forward,threshold,decided
0,1,,,,,,,,0
1,1,0,5,4,4,4,4,18,0
1,1,1,5,4,4,4,4,18,0
1,1,2,4,3,3,3,3,18,0
1,1,3,3,1,1,1,1,18,0
1,1,4,2,40,40,40,40,18,1
1,1,5,1,2,2,2,2,18,0
END
{
    cat "$room/head"
    for frame in 2 3 4 5; do awk -F, -v OFS=, -v frame=$frame 'NR > 2 { $1 = frame; $2 = $NF = 0; print }' "$room/head"; done
} > "$expected"
command_run decide "$six" --dump --csv
[ "$status" = 0 ] && cmp -s "$expected" "$room/out" &&
    [ "$(cat "$room/err")" = "brinepulley: $six: 1 frame is a large change and no cut" ]
verdict "--dump --csv, six frames" $?
awk -F, -v OFS=, '{ print $0, NR == 1 ? "time" : 600 * $1 }' "$expected" > "$lines"
command_run decide "$six" --dump --csv --times
[ "$status" = 0 ] && cmp -s "$lines" "$room/out"
verdict "--dump --csv --times" $?
command_run decide "$six" --dump --times
grep -Eqx ' +1 +cut( +40){4} +18 +2 +0 +0:10:00.000' "$room/out" && grep -Eqx '> entry +4( +40){4} +18 +2' "$room/out"
verdict "--dump --times, for people" $?

# A call without a score where the deque is empty: none mode, and a film that is too short for any.
cat > "$expected" << 'END'
  frame   cut     inter importance  backward   forward threshold   pair release
      7 first         -          -         -         -         -      -       0
      8     .         -          -         -         -         -      -       7
  no score: the deque is empty
      9   cut         -          -         -         -         -      -       7
  no score: the deque is empty
END
command_run decide "$six" --dump --mode none --max 2 --lookahead 1 --first 7
[ "$status" = 0 ] && head -n 6 "$room/out" | cmp -s "$expected" - && [ "$(grep -c 'the deque is empty' "$room/out")" = 5 ]
verdict "--dump, none mode" $?
printf '%s\n' frame,cut,entry,pair,inter,importance,backward,forward,threshold,decided 0,1,,,,,,,,0 1,0,,,,,,,,0 > "$expected"
film y4m 16 16 mono 50 51 > "$room/pair.y4m"
gives "--dump --csv, two frames" "$expected" decide "$room/pair.y4m" --dump --csv
film y4m 16 16 mono 50 > "$room/pair.y4m"
head -n 2 "$expected" > "$lines"
gives "--dump --csv, one frame" "$lines" decide "$room/pair.y4m" --dump --csv
command_run decide "$room/pair.y4m" --dump
[ "$status" = 0 ] && [ "$(wc -l < "$room/out")" = 3 ]
verdict "--dump, one frame" $?

# Every call of a longer film, beside the lines that it has without --dump: each frame is there, with the same cut, its entries are
# counted from 0, their pairs fall by one save for one repeat at most, and the entry that was decided on is the line's score and pair, or
# there is none. Numbers of entries with a score lie as far before the front as their places say.
agrees() { # LINES DUMP
    awk -F, 'BEGIN { frame = "none" }
        function end_frame() { if (frame in cut && decided != (score[frame] != "")) wrong = "decided " frame }
        NR == FNR { if (FNR > 1) { cut[$1] = $2; score[$1] = $3 == "" ? "" : $3 "," $4 "," $5 "," $6 "," $7 "," $10; frames++ } next }
        FNR == 1 { next }
        $1 != frame { end_frame(); frame = $1; entries = decided = repeats = 0; seen++ }
        $2 != cut[$1] || NF != 10 || $10 !~ /^[01]$/ { wrong = "line " FNR }
        $3 == "" { if ($0 != $1 "," $2 ",,,,,,,,0" || entries++ > 0) wrong = "empty " FNR; next }
        $3 != entries++ { wrong = "place " FNR }
        $3 > 0 && $4 == before { repeats++ }
        $3 > 0 && $4 != before && $4 != before - 1 || repeats > 1 { wrong = "pair " FNR }
        { before = $4 }
        $3 == 0 { front = $4 }
        $10 == 1 { decided++; if ($5 "," $6 "," $7 "," $8 "," $9 "," $4 != score[$1] || front != $1 + $3) wrong = "score " FNR }
        END { end_frame(); print wrong, seen, frames; exit wrong != "" || seen != frames }' "$1" "$2" > "$room/log"
}
failing=
sea_of 1 2 40 3 4 5 30 6 7 8 9 60 1 2 3 4 5 6 7 20 21 22 3 2 1
for ahead in 1 2 3 4 5 9 14; do
    for mode in fast "standard --inter $sea_costs" 'none --max 3'; do
        for words in '' '--first 1000'; do
            # shellcheck disable=SC2086 # words
            $RUN "$COMMAND" decide "$sea" --csv --lookahead $ahead --mode $mode $words > "$lines" 2> /dev/null
            # shellcheck disable=SC2086 # words
            command_run decide "$sea" --dump --csv --lookahead $ahead --mode $mode $words
            [ "$status" = 0 ] && agrees "$lines" "$room/out" || failing="$failing; $ahead ${mode%% *} $words: $(cat "$room/log")"
        done
    done
done
echo "$failing" > "$room/log"
[ -z "$failing" ]
verdict "--dump beside the lines" $?
rm -f "$room/log"

# For people: without what stands below them the lines are those that there are without --dump.
$RUN "$COMMAND" decide "$sea" > "$lines"
command_run decide "$sea" --dump
grep -v -e entry -e 'no score' "$room/out" | cmp -s "$lines" - && [ "$(grep -c '^> entry  *5 ' "$room/out")" = 20 ] &&
    awk 'length($0) > 80 { exit 1 }' "$room/out"
verdict "--dump, the lines stay" $?

# With a log, which has the same bytes with and without. A film that breaks off keeps what was decided, whole.
rm -f "$room/pair.log" "$room/pair2.log"
command_run decide "$sea" --log "$room/pair.log"
command_run decide "$sea" --dump --csv --log "$room/pair2.log"
[ "$status" = 0 ] && [ -s "$room/pair.log" ] && cmp -s "$room/pair.log" "$room/pair2.log"
verdict "--dump with a log" $?
cp "$room/out" "$expected"
head -c $(($(wc -c < "$sea") - 1)) "$sea" > "$room/pair.y4m"
command_run decide "$room/pair.y4m" --dump --csv
[ "$status" = 2 ] && grep -q 'frame 25 (at byte [0-9]*): it is cut short' "$room/err" &&
    awk -F, 'NR == 1 || $1 < 20' "$expected" | cmp -s - "$room/out"
verdict "--dump, a film that breaks off" $?

# Pairs may have numbers that no call may have.
command_run decide "$flat" --dump --csv --first 4294967290
[ "$status" = 1 ] && grep -q '^4294967295,0,0,4294967300,' "$room/out" && grep -q '^4294967295,0,5,4294967295,0,0,0,0,18,1$' "$room/out"
verdict "--dump, pairs past 2^32" $?

# For people a number from 100,000 on is whole as long as the column holds it, so that the columns stay where they are.
printf '%s\n' 99999.4 99999.6 149990 999999999 1e9 > "$room/large.costs"
command_run decide "$six" --mode standard --inter "$room/large.costs" --dump
printf '%s\n' 1e+09 1e+09 999999999 149990 100000 99999 > "$expected"
sed -n '4,9s/^..entry *[0-9]* *\([^ ]*\).*/\1/p' "$room/out" | cmp -s - "$expected"
verdict "large costs are whole where they fit" $?
