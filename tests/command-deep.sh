# Part of command.sh: films and pictures of 10 and 12 bits, with two bytes a sample. Each answer is worked out by hand.
deep=$room/deep.y4m
still='50 50 50 50 50 50 50 50 50 50 50 50 50 50'

# Fast: the difference is 300 at frame 6 and 0 elsewhere. 600 and 900 have unlike high bytes, and chroma has samples that are too large,
# which are not looked at. The threshold is the depth's.
for bits in 10 12; do
    threshold=$([ $bits = 10 ] && echo 22.5 || echo 27)
    awk -v threshold="$threshold" 'BEGIN {
        print "frame,cut,inter,importance,backward,forward,threshold,release,large,pair"
        print "0,1,,,,,,0,0,"
        for (n = 1; n <= 15; n++) {
            d = n == 6 ? 300 : 0
            if (n <= 11) printf "%d,%d,%d,%d,%d,%d,%s,0,0,%d\n", n, n == 6, d, d, d, d, threshold, n
            else printf "%d,0,,,,,,0,0,\n", n
        }
    }' > "$expected"
    for colour in 420p 422p 444p mono; do
        film y4m 65 47 $colour$bits 600 600 600 600 600 600 900 900 900 900 900 900 900 900 900 900 > "$deep"
        gives "$colour$bits, every line" "$expected" decide "$deep" --csv
    done
    $RUN "$COMMAND" decide - --csv < "$deep" > "$room/out" 2> "$room/err"
    cmp -s "$expected" "$room/out"
    verdict "a film of $bits bits from the standard input" $?
    cuts_at "$bits bits, none mode: every fourth frame" "0 4 8" "$deep" --mode none --max 4
done

# The cut and the mark at the threshold; columns by turns give 22.5 and 26.5. The largest samples are taken.
while read -r bits luma cut mark; do
    # shellcheck disable=SC2086 # a number for each frame
    film y4m 16 16 "mono$bits" $still $luma $luma $luma $luma $luma $luma > "$deep"
    cuts_at "$bits bits, 50 and then $luma" "$(echo "$cut" | tr , ' ')" "$deep"
    # shellcheck disable=SC2086 # a number for each frame
    film y4m 16 16 "mono$bits" $still $luma > "$deep"
    command_run decide "$deep" --csv
    [ "$status" = 0 ] && [ "$(tail -n 1 "$room/out" | cut -d , -f 9)" = "$mark" ]
    verdict "$bits bits, 50 and then $luma: the mark" $?
done << 'END'
10 72 0 0
10 72/73 0,14 1
10 1023 0,14 1
12 76/77 0 0
12 77 0,14 1
12 4095 0,14 1
END
film y4m 16 16 mono10 50 50 50 50 50 72/73 > "$deep"
command_run decide "$deep" --bars
grep -qF "      5 too near the film's end to tell          22.5      22.5 large         0" "$room/out"
verdict "a bar of 10 bits" $?

# Sides that are halved: columns of 990 and 991 have the mean 990.5, which goes up to 991; so 1014 lies 23 above.
while read -r bits low high line; do
    film y4m 482 242 "mono$bits" "$low" "$low" "$low" "$low" "$low" "$low" "$high" "$high" "$high" "$high" "$high" "$high" "$high" > "$deep"
    command_run decide --csv "$deep"
    [ "$(sed -n 8p "$room/out")" = "$line" ]
    verdict "planes of $bits bits are reduced by the scale rule" $?
done << 'END'
10 990/991 1014 6,1,23,23,23,23,22.5,0,0,6
12 3000/3001 3028 6,1,27,27,27,27,27,0,0,6
END

# Standard: the flat prediction is 512 or 2048. SATD of flat 500 against 512 is 12 * 64 / 8 = 96, of 2000 against 2048 it is 384, and
# (1.0 - 0.7) of it is the threshold. An importance of 8.75 or 10.5 is asked for.
awk 'BEGIN { for (n = 1; n <= 15; n++) print n == 6 ? 500 : 2.5 }' > "$costs"
while read -r bits first second line; do
    film y4m 64 48 "mono$bits" "$first" "$first" "$first" "$first" "$first" "$first" "$second" "$second" "$second" "$second" "$second" \
        "$second" "$second" "$second" "$second" "$second" > "$deep"
    command_run decide --csv --mode standard --inter "$costs" "$deep"
    [ "$status" = 0 ] && [ "$(sed -n 8p "$room/out")" = "$line" ]
    verdict "standard mode, $bits bits, $first and then $second" $?
done << 'END'
10 540 500 6,1,500,40,497.5,497.5,28.800000000000004,0,0,6
10 509 500 6,1,500,9,497.5,497.5,28.800000000000004,0,0,6
10 508 500 6,0,500,8,497.5,497.5,28.800000000000004,0,1,6
12 2040 2000 6,1,500,40,497.5,497.5,115.20000000000002,0,0,6
12 2011 2000 6,1,500,11,497.5,497.5,115.20000000000002,0,0,6
12 2010 2000 6,0,500,10,497.5,497.5,115.20000000000002,0,1,6
END

# A sample that is too large for its bits is refused as soon as its frame is there, in each mode, and the frame is named. Here it is a
# frame's last sample, which lies in no whole block; frames have 20 × 9 samples, and the film's header 25 bytes.
too_large() { # FRAME: makes the film
    # shellcheck disable=SC2086 # a number for each frame
    film header 'W20 H9 Cmono10' FRAME $still > "$deep"
    printf '\000\004' | dd of="$deep" bs=1 seek=$((25 + 366 * $1 + 6 + 2 * (20 * 9 - 1))) conv=notrunc 2> "$room/log"
}
refusal='its sample (19, 8) is 1024, and the largest of 10 bits is 1023 (refusal 16)'
awk 'BEGIN { while (n++ < 13) print 1 }' > "$costs"
for mode in fast none "standard --inter $costs"; do
    too_large 9
    # shellcheck disable=SC2086 # words
    breaks "a sample that is too large, mode $mode" 1 "deep.y4m: frame 9 (at byte 3319): $refusal" 4 decide "$deep" --mode $mode
    # shellcheck disable=SC2086 # words
    breaks "the same from frame 100 on" 1 "deep.y4m: frame 109 (frame 9 of the film, at byte 3319): $refusal" 4 \
        decide "$deep" --first 100 --mode $mode
    too_large 0
    # shellcheck disable=SC2086 # words
    ends "a sample of the first frame, mode $mode" 1 "deep.y4m: frame 0 (at byte 25): $refusal" decide "$deep" --log "$room/deep.log" \
        --mode $mode
    head -c $((25 + 366)) "$deep" > "$room/only.y4m"
    # shellcheck disable=SC2086 # words
    ends "a sample of the only frame, mode $mode" 1 "only.y4m: frame 0 (at byte 25): $refusal" decide "$room/only.y4m" --mode $mode
done
[ ! -e "$room/deep.log" ]
verdict "a film that is refused so leaves no log" $?
[ "$(tail -c +26 "$deep" | head -c 5)" = FRAME ] && [ "$(wc -c < "$deep")" = $((25 + 366 * 14)) ]
verdict "the place of the refused frame" $?
too_large 9
command_run decide "$deep" --log "$room/deep.log" --cuts
[ "$status" = 1 ] && [ "$(wc -c < "$room/deep.log")" = $((3 * 47)) ] && [ "$(tail -n 1 "$room/out" | tr -s ' ')" = ' 0 - - -' ]
verdict "what was decided before stays" $?

# The same where frames are reduced: the last sample lies in no whole square.
film y4m 243 241 mono12 50 50 4000 4000 > "$deep"
head -c -1 "$deep" > "$room/cut.y4m"
breaks "half a sample is missing" 2 "cut.y4m: frame 3 (at byte [0-9]*): it is cut short" 1 decide "$room/cut.y4m"
printf '\000\020' | dd of="$deep" bs=1 seek=$(($(wc -c < "$deep") - 2)) conv=notrunc 2> "$room/log"
breaks "a sample that is too large, reduced" 1 "frame 3 .*: its sample (242, 240) is 4096, and the largest of 12 bits is 4095 (refusal 16)" \
    1 decide "$deep"

# Pictures. The second lies 58 and 68 above 512 by turns: (4032 + 320 + 4) / 8 = 544, and 544 * (1.0 - 0.7); or 22 and 32 above 2048.
while read -r largest bits one other threshold; do
    film pgm 20 9 "$largest" "$one" > "$p"
    film pgm 20 9 "$largest" "$other" > "$q"
    printf '%s\n' "pictures   20 × 9 of $bits bits, whole" 'difference 13500' 'delta      75' \
        'importance 75 (total 150 over 2 blocks)' "threshold  $threshold (of the second picture)" > "$expected"
    gives "measure, $bits bits" "$expected" measure "$p" "$q"
done << 'END'
1023 10 500 570/580 163.20000000000002
4095 12 2000 2070/2080 76.80000000000001
END
film pgm 482 242 1023 990/991 > "$p"
film pgm 482 242 1023 1014 > "$q"
printf '%s\n' 'pictures   241 × 121 of 10 bits, as fast mode has them: sides divided by 2' "difference $((23 * 241 * 121))" \
    'delta      23' > "$expected"
gives "measure in fast mode, 10 bits" "$expected" measure "$p" "$q" --mode fast

printf 'P5 2 1 1023\n\003\377\003\377' > "$p"
printf 'P5 2 1 1023\n\003\377\004\000' > "$q"
told='its sample (1, 0) is 1024, and the largest of 10 bits is 1023 (refusal 16)'
for mode in fast standard; do
    ends "a sample of the second picture, $mode" 1 "q.pgm: $told" measure "$p" "$q" --mode $mode
    ends "a sample of the first picture, $mode" 1 "q.pgm: $told" measure "$q" "$p" --mode $mode
done
printf 'P5 1 1 1023\n\377\377' > "$p"
ends "unlike sizes come first" 1 "both must have one size (refusal 3)" measure "$p" "$q"
printf 'P5 2 1 1023\n\004\001\377\377' > "$p"
ends "samples of both: the first picture's" 1 "p.pgm: its sample (0, 0) is 1025, and the largest of 10 bits is 1023 (refusal 16)" \
    measure "$p" "$q"
printf 'P5 2 1 4095\n\020\000\377\377' > "$p"
ends "12 and 10 bits" 2 "p.pgm has samples of 12 bits and .*q.pgm of 10: both must have one depth" measure "$p" "$q"
film pgm 2 1 255 50 > "$p"
ends "8 and 10 bits" 2 "p.pgm has samples of 8 bits and .*q.pgm of 10: both must have one depth" measure "$p" "$q" --mode fast
ends "10 and 8 bits" 2 "q.pgm has samples of 10 bits and .*p.pgm of 8: both must have one depth" measure "$q" "$p"
printf 'P5 2 1 1023\n\003\377\003' > "$q"
ends "a picture without its last byte" 2 "q.pgm: cut short, 1 of 2 samples" measure "$q" "$p"
printf 'P5 2 1 1023\n\003\377\003\377\000' > "$q"
ends "a picture with a byte behind it" 2 "q.pgm: bytes behind the last of its 2 samples" measure "$q" "$p"
