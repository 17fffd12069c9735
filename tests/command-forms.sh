# Part of command.sh: the forms of an answer: large changes marked, --cuts, --bars, --times, and the texts of numbers. STORM is the film
# of the documents: a flash at 8, a change at 12, a squall from 24 to 27, a change in the last frame, 39.
storm=$room/storm.y4m
storm_film > "$storm"

# Each change that reaches 18 and is no cut has its mark, near the film's end too, where no score is. The count stands at the end.
marks() { awk -F, 'NR > 1 && $9 == 1 { printf "%s%s", sep, $1; sep = " " }' "$room/out"; }
command_run decide "$storm" --csv
[ "$status" = 0 ] && [ "$(cuts)" = "0 12" ] && [ "$(marks)" = "8 9 24 27 39" ] &&
    [ "$(cat "$room/err")" = "brinepulley: $storm: 5 frames are large changes and no cut" ]
verdict "large changes, for machines" $?
command_run decide "$storm"
[ "$status" = 0 ] && [ ! -s "$room/err" ] && [ "$(awk '$2 == "large" { printf "%s ", $1 }' "$room/out")" = "8 9 24 27 39 " ] &&
    [ "$(tail -n 1 "$room/out")" = "40 frames, 1 cut, 5 large changes that are no cut" ]
verdict "large changes, for people" $?
for mark in '17 0' '18 1' '19 1'; do
    film y4m 16 16 mono 50 50 50 50 $((50 + ${mark% *})) > "$room/edge.y4m"
    command_run decide "$room/edge.y4m" --csv
    [ "$(tail -n 1 "$room/out" | cut -d , -f 9)" = "${mark#* }" ]
    verdict "a change of ${mark% *}: the mark at the threshold" $?
done
# Standard mode measures the threshold itself: 38 * 64 / 8 * (1.0 - 0.7) is 91.20000000000002 for frames of 90.
film y4m 64 48 mono 90 90 90 90 90 90 90 90 90 90 > "$room/edge.y4m"
printf '%s\n' 1 1 91.20000000000002 1 1 1 1 91.2 95 > "$room/edge.costs"
command_run decide "$room/edge.y4m" --csv --mode standard --inter "$room/edge.costs"
[ "$status" = 0 ] && [ "$(marks)" = "3 9" ]
verdict "large changes in standard mode" $?
command_run decide "$storm" --csv --mode none --max 7
[ "$status" = 0 ] && [ "$(marks)" = "" ] && [ ! -s "$room/err" ]
verdict "none mode marks nothing" $?
rm -f "$room/storm.log"
command_run decide "$storm" --log "$room/storm.log"
command_run log "$room/storm.log"
[ "$(awk '$2 == "large" { printf "%s ", $1 }' "$room/out")" = "8 9 24 27 " ] &&
    [ "$(tail -n 1 "$room/out")" = "35 records, 1 cut, 4 large changes that are no cut" ]
verdict "large changes in a log" $?

# One is told of as one. A cost of 0 is no change, though the threshold of even grey is 0.
film y4m 16 16 mono 50 50 50 50 50 90 > "$room/edge.y4m"
command_run decide "$room/edge.y4m"
[ "$(tail -n 1 "$room/out")" = "6 frames, 0 cuts, 1 large change that is no cut" ]
verdict "one large change, for people" $?
command_run decide "$room/edge.y4m" --csv
[ "$(cat "$room/err")" = "brinepulley: $room/edge.y4m: 1 frame is a large change and no cut" ]
verdict "one large change, for machines" $?
film y4m 16 16 mono 128 128 128 128 128 128 128 128 > "$room/fog.y4m"
printf '%s\n' 0 0 0 0 0 0.5 0 > "$room/fog.costs"
command_run decide "$room/fog.y4m" --csv --mode standard --inter "$room/fog.costs"
[ "$status" = 0 ] && [ "$(marks)" = 6 ]
verdict "even grey: the mark asks for a change" $?

# A lookahead below 5 is told of, and the answer is the same as ever.
for ahead in 1 4 5; do
    command_run decide "$flat" --lookahead "$ahead"
    [ "$status" = 0 ] && [ "$(grep -c 'a lookahead below 5' "$room/err")" = "$((ahead < 5))" ]
    verdict "a note on lookahead $ahead" $?
done
command_run decide "$flat" --lookahead 1 --mode none
[ "$(cat "$room/err")" = "brinepulley: a lookahead below 5: no frame may be purged" ]
verdict "a note on lookahead 1 in none mode" $?

# Scenes.
printf '%s\n' '  first      last    frames          time' '      0        11        12   0:00:00.000' \
    '     12        39        28   2:00:00.000' '40 frames, 1 cut, 5 large changes that are no cut' > "$expected"
gives "--cuts" "$expected" decide --cuts "$storm"
gives "--cuts --times" "$expected" decide --cuts --times "$storm"
printf '%s\n' first,last,frames,time 100,105,6,0 106,115,10,3600 > "$expected"
gives "--cuts --csv, from frame 100 on" "$expected" decide --csv --cuts "$flat" --first 100
printf '%s\n' first,last,frames,time 0,0,1,0 > "$expected"
gives "--cuts, a film of one frame" "$expected" decide --csv --cuts "$room/one.y4m"
head -c 50000 "$storm" > "$room/broken.y4m"
command_run decide "$room/broken.y4m" --cuts --csv
[ "$status" = 2 ] && grep -q 'it is cut short' "$room/err" && [ "$(cat "$room/out")" = "first,last,frames,time
0,,,0" ]
verdict "--cuts, a film that breaks off: a scene without an end" $?
sed 's/F1:600/F0:0/' "$flat" > "$room/timeless.y4m"
printf '%s\n' first,last,frames,time 0,5,6, 6,15,10, > "$expected"
gives "--cuts, a film without a rate" "$expected" decide --csv --cuts "$room/timeless.y4m"
command_run decide --cuts "$room/timeless.y4m"
[ "$status" = 0 ] && grep -q '^      6        15        10             -$' "$room/out"
verdict "--cuts, a film without a rate, for people" $?

# Times. A rate of 30000:1001 has 1001 / 30000 of a second for each frame; thousandths are rounded down.
ends "--times, a film without a rate" 2 "names no frame rate" decide "$room/timeless.y4m" --times
for rate in F25 F25: F:1 F0:1 F25:0 Fx:1 F25:1x F4294967296:1 F1:4294967296; do
    sed "s/F1:600/$rate/" "$flat" > "$room/timeless.y4m"
    ends "--times, a rate of $rate" 2 "names no frame rate" decide "$room/timeless.y4m" --times
done
while read -r rate people machine; do
    sed "s/F1:600/F$rate/" "$flat" > "$room/rate.y4m"
    command_run decide "$room/rate.y4m" --times --csv --first 7
    seconds=$(awk -F, '$1 == 14 { print $10 }' "$room/out")
    command_run decide "$room/rate.y4m" --times --first 7
    [ "$seconds" = "$machine" ] && [ "$(awk '$1 == 14 { print $NF }' "$room/out")" = "$people" ]
    verdict "times at $rate" $?
done << 'END'
1:600 1:10:00.000 4200
25:1 0:00:00.280 0.28
30000:1001 0:00:00.233 0.23356666666666667
24000:1001 0:00:00.291 0.2919583333333333
1:4294967295 8351325:17:45.000 30064771065
4294967295:1 0:00:00.000 1.6298145059565582e-09
END
command_run decide "$storm" --times --purge --csv
head -n 1 "$room/out" | grep -q ',release,large,time,pair,purge$' && grep -q '^12,1,40,40,40,40,18,2,0,7200,12,1$' "$room/out"
verdict "the columns' order" $?

# Bars: nine letters are the threshold.
command_run decide "$storm" --bars
grep -qF '      8 #########|#########################        70        18 large         0' "$room/out" &&
    grep -qF '     12 #########|##########                       40        18 CUT           2' "$room/out" &&
    grep -qF "     39 too near the film's end to tell           109        18 large        24" "$room/out" &&
    awk 'length($0) > 80 { exit 1 }' "$room/out" && [ "$(wc -l < "$room/out")" = 42 ]
verdict "--bars" $?
film y4m 16 16 mono 50 50 50 122 50 50 50 123 50 50 50 50 > "$room/edge.y4m"
command_run decide "$room/edge.y4m" --bars
grep -qF '      3 #########|##########################       72        18 large' "$room/out" &&
    grep -qF '      7 #########|#########################>       73        18 large' "$room/out"
verdict "--bars, the longest bar" $?
printf '%s\n' 0 0.5 0 0 0 0 0 > "$room/fog.costs"
command_run decide "$room/fog.y4m" --bars --mode standard --inter "$room/fog.costs"
grep -qF '      1          |                                  0         0 no cut' "$room/out" &&
    grep -qF '      2 #########|#########################>      0.5         0 large' "$room/out"
verdict "--bars, a threshold of 0" $?
film y4m 64 48 mono 90 90 90 90 90 90 90 90 90 90 > "$room/edge.y4m"
printf '%s\n' 45.6 0 1 1 1000 1 1 1 91.20000000000002 > "$room/edge.costs"
command_run decide "$room/edge.y4m" --bars --times --mode standard --inter "$room/edge.costs"
grep -qF '      1 #####    |                               45.6      91.2 no cut        0   0:10:00.000' "$room/out" &&
    grep -qF '      2          |                                  0      91.2 no cut        0   0:20:00.000' "$room/out" &&
    grep -qF '      5 #########|#########################>     1000      91.2 large         0   0:50:00.000' "$room/out"
verdict "--bars in standard mode" $?
command_run decide "$storm" --bars --mode none --max 9
grep -qE '^ +9 none mode measures nothing +- +- CUT +0$' "$room/out"
verdict "--bars in none mode" $?

# Numbers have the fewest digits that read back.
printf '%s\n' 5e-324 1e-310 2.2250738585072014e-308 0.1 1e+22 1.2345678901234568e+17 0.30000000000000004 1e+300 7 > "$room/edge.costs"
command_run decide "$room/edge.y4m" --csv --mode standard --inter "$room/edge.costs" --lookahead 1
awk -F, 'NR > 2 { print $3 }' "$room/out" > "$room/shown"
for number in 1e-310 2.2250738585072014e-308 0.1 1e+22 1.2345678901234568e+17 0.30000000000000004 1e+300 7; do
    grep -qxF "$number" "$room/shown"
    verdict "the text of $number" $?
done
printf '%s\n' 5e-324 5e-324 5e-324 5e-324 5e-324 5e-324 5e-324 5e-324 5e-324 > "$room/edge.costs"
command_run decide "$room/edge.y4m" --csv --mode standard --inter "$room/edge.costs"
[ "$(sed -n 3p "$room/out" | cut -d , -f 3)" = 5e-324 ]
verdict "the text of the least number" $?
