# Part of command.sh: answers, each worked out by hand from films with flat frames.
flat=$room/flat.y4m
expected=$room/expected
luma='50 50 50 50 50 50 90 90 90 90 90 90 90 90 90 90'

# Fast: the difference is 40 at frame 6 and 0 elsewhere. The last four frames have sets of at most 5.
film y4m 64 48 420jpeg $luma > "$flat"
awk 'BEGIN {
    print "frame,cut,inter,importance,backward,forward,threshold,release,large,pair"
    print "0,1,,,,,,0,0,"
    for (n = 1; n <= 15; n++) {
        d = n == 6 ? 40 : 0
        if (n <= 11) printf "%d,%d,%d,%d,%d,%d,18,0,0,%d\n", n, n == 6, d, d, d, d, n
        else printf "%d,0,,,,,,0,0,\n", n
    }
}' > "$expected"
gives "fast mode, every line" "$expected" decide "$flat" --csv
gives "fast is the default, words in any order" "$expected" decide --csv --mode fast --lookahead 5 --min 0 "$flat"
$RUN "$COMMAND" decide - --csv < "$flat" > "$room/out" 2> "$room/err"
cmp -s "$expected" "$room/out"
verdict "a film from the standard input" $?
for colour in - 420 420mpeg2 420paldv 422 444 mono; do
    film y4m 65 47 "$colour" $luma > "$room/odd.y4m"
    gives "colour space $colour, odd sides" "$expected" decide "$room/odd.y4m" --csv
done

# The release number is one less than the larger of 1 and n - 9 while sets have seven frames.
film y4m 16 16 mono $luma $luma > "$room/long.y4m"
command_run decide --csv "$room/long.y4m"
numbers=$(awk -F, 'NR == 21 || NR == 27 || NR == 33 { printf "%s ", $1 ":" $8 }' "$room/out")
[ "$numbers" = "19:9 25:15 31:16 " ]
verdict "release numbers" $?

# --purge on the same film: 32 frames, differences of 40 at 6, 16 and 22. Calls 1 to 26 have sets of seven, 27 one of six. The
# release number is n - 10 from call 11 to call 26, so frame n - 11 goes after each of them, and 16 to 31 stay.
purged() { # FIRST
    awk -v first="$1" 'BEGIN {
        print "frame,cut,inter,importance,backward,forward,threshold,release,large,pair,purge"
        print first ",1,,,,,,0,0,,"
        for (n = 1; n <= 31; n++) {
            d = n == 6 || n == 16 || n == 22 ? 40 : 0
            score = n <= 27 ? d "," d "," d "," d ",18" : ",,,,"
            pair = n <= 27 ? first + n : ""
            release = first + (n <= 10 ? 0 : n <= 26 ? n - 10 : 16)
            print first + n "," (d > 0) "," score "," release ",0," pair "," (n >= 11 && n <= 26 ? first + n - 11 : "")
        }
    }'
}
# The same lines for people, and the last one.
in_words() { # FIRST
    awk -F, -v first="$1" 'function put(text, wide) { line = line sprintf(" %" wide "s", text == "" ? "-" : text) }
    {
        line = sprintf("%7s", $1)
        put(NR == 1 ? $2 : $1 == first ? "first" : $2 ? "cut" : ".", 5)
        for (i = 3; i <= 7; i++) put($i, i == 4 ? 10 : 9)
        put($10, 6)
        put($8, 7)
        put($11, 9)
        print line
    }
    END { print "32 frames, 3 cuts" }'
}
for first in 0 100 1000000; do
    purged "$first" > "$expected"
    gives "--purge --first $first, every line" "$expected" decide --csv --purge --first "$first" "$room/long.y4m"
    in_words "$first" < "$expected" > "$room/words"
    gives "--purge --first $first, lines for people" "$room/words" decide "$room/long.y4m" --first "$first" --purge
done
purged 0 > "$expected"
gives "--purge, longer sets that get short" "$expected" decide --csv --purge --lookahead 14 "$room/long.y4m"
gives "--purge with a log" "$expected" decide --csv --purge "$room/long.y4m" --log "$room/purge.log"
[ "$(wc -c < "$room/purge.log")" = $((27 * 47)) ]
verdict "--purge with a log: a record for each score" $?
cut -d , -f 1-10 "$expected" > "$room/words"
gives "without --purge there is no such column" "$room/words" decide --csv "$room/long.y4m"
goes() { awk -F, 'NR > 1 && $NF != "" { printf "%s ", $NF }' "$room/out"; }
awk 'BEGIN { while (n++ < 31) print n % 5 }' > "$room/purge.costs"
command_run decide --csv --purge --mode standard --inter "$room/purge.costs" "$room/long.y4m"
[ "$status" = 0 ] && [ "$(goes)" = "0 1 2 3 4 5 6 7 8 9 10 11 12 13 14 15 " ]
verdict "--purge in standard mode" $?
for words in '--mode none --max 4' '--lookahead 4'; do
    # shellcheck disable=SC2086 # words
    command_run decide --csv --purge $words "$room/long.y4m"
    [ "$status" = 0 ] && [ "$(awk -F, 'NF == 11 && $11 == ""' "$room/out" | wc -l)" = 32 ] &&
        [ "$(awk -F, 'NR > 1 && $8 != 0' "$room/out")" = "" ]
    verdict "--purge $words: no frame goes" $?
done
command_run decide --purge --mode none "$room/long.y4m"
[ "$status" = 0 ] && [ "$(grep -Ec '^ +[0-9]+ +(first|\.)( +-){6} +0 +-$' "$room/out")" = 32 ]
verdict "--purge --mode none, lines for people" $?
for frames in 1 2 16 17; do
    # shellcheck disable=SC2046 # words
    film y4m 16 16 mono $(awk -v n="$frames" 'BEGIN { while (n-- > 0) print 50 }') > "$room/short.y4m"
    command_run decide --csv --purge "$room/short.y4m"
    [ "$status" = 0 ] && [ "$(goes)" = "$([ "$frames" = 17 ] && echo '0 ')" ]
    verdict "--purge, a film of $frames frames" $?
done

cuts_at "min 7 forbids the cut at 6" "0" "$flat" --min 7
cuts_at "max 3 cuts every third frame" "0 3 6 9" "$flat" --max 3
cuts_at "none mode: every fourth frame, and none in the last four" "0 4 8" "$flat" --mode none --max 4
cuts_at "none mode, lookahead 1: also near the end" "0 4 8 12" "$flat" --mode none --max 4 --lookahead 1
limit=$(size BRINE_SET_LIMIT)
film y4m 16 16 mono $luma $(awk -v n="$limit" 'BEGIN { while (n-- > 0) print 90 }') > "$room/longer.y4m"
cuts_at "a lookahead beyond the longest set" "0 6" "$room/longer.y4m" --lookahead $((limit + 4))
cuts_at "a huge lookahead" "0 6" "$flat" --lookahead 18446744073709551615
film y4m 16 16 420 50 50 50 50 50 50 50 50 120 50 50 50 50 50 50 50 50 > "$room/flash.y4m"
cuts_at "a flash is no cut" "0" "$room/flash.y4m"
film y4m 16 16 420 50 > "$room/one.y4m"
cuts_at "a film of one frame" "0" "$room/one.y4m"
film y4m 16 16 420 50 90 > "$room/two.y4m"
cuts_at "a film of two frames" "0" "$room/two.y4m"

# A film whose sides are halved: columns of 16 and 17 have the mean 16.5, which goes up to 17; so 40 lies 23 above.
film y4m 482 242 mono 16/17 16/17 16/17 16/17 16/17 16/17 40 40 40 40 40 40 40 > "$room/halved.y4m"
command_run decide --csv "$room/halved.y4m"
[ "$(sed -n 8p "$room/out")" = "6,1,23,23,23,23,18,0,0,6" ]
verdict "planes are reduced by the scale rule" $?

# Standard: SATD of flat 90 against 128 is 38 * 64 / 8 = 304, and 304 * (1.0 - 0.7) is the threshold.
awk 'BEGIN { for (n = 1; n <= 15; n++) print n == 6 ? "500" : " 2.5e0\r" }' > "$costs"
command_run decide --csv --mode standard --inter "$costs" "$flat"
[ "$(sed -n 8p "$room/out")" = "6,1,500,40,497.5,497.5,91.20000000000002,0,0,6" ]
verdict "standard mode, the cut's line" $?
[ "$(cuts)" = "0 6" ]
verdict "standard mode, the cuts" $?
command_run decide "$flat"
[ "$status" = 0 ] && [ "$(wc -l < "$room/out")" = 18 ] && [ "$(tail -n 1 "$room/out")" = "16 frames, 1 cut" ] &&
    awk 'length($0) > 80 { exit 1 }' "$room/out" && grep -Eq '^ +6 +cut +40 ' "$room/out"
verdict "lines for people" $?

film pgm 20 9 255 50 > "$p"
film pgm 20 9 255 57/58 > "$q"
# The second picture lies 71 and 70 below 128 by turns: (4512 + 32 + 4) / 8 = 568, and 568 * (1.0 - 0.7).
cat > "$expected" << 'END'
pictures   20 × 9, whole
difference 1350
delta      7.5
importance 8 (total 16 over 2 blocks)
threshold  170.40000000000003 (of the second picture)
END
gives "measure" "$expected" measure "$p" "$q"
gives "measure in standard mode" "$expected" measure --mode standard "$p" "$q"
# Sides of 482 and 242 are halved: the columns of 16 and 17 become 17, and 40 lies 23 above, over 241 × 121 samples.
film pgm 482 242 255 16/17 > "$p"
film pgm 482 242 255 40 > "$q"
printf '%s\n' 'pictures   241 × 121, as fast mode has them: sides divided by 2' "difference $((23 * 241 * 121))" \
    'delta      23' > "$expected"
gives "measure in fast mode" "$expected" measure "$p" "$q" --mode fast

command_run demo
[ "$status" = 0 ] && [ ! -s "$room/err" ] && grep -q 'no cut at 9, no cut at 10' "$room/out" &&
    grep -q 'a cut at 18' "$room/out" && [ "$(grep -c ' CUT ' "$room/out")" = 1 ] &&
    grep -q 'Frames below 14 may be purged' "$room/out" &&
    awk 'length($0) > 80 { exit 1 }' "$room/out"
verdict "demo" $?

if [ -w /dev/full ]; then
    $RUN "$COMMAND" decide "$flat" > /dev/full 2> "$room/err"
    [ $? = 2 ] && [ "$(cat "$room/err")" = "brinepulley: cannot write the answer to the standard output: No space left on device" ]
    verdict "a full disk" $?
fi
