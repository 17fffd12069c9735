# Part of command.sh: files that are missing, short or malformed, and films that the library refuses.
bad=$room/bad.y4m
short=$room/short.y4m

ends "a missing film" 2 "No such file" decide "$room/none.y4m"
ends "a folder for a film" 2 "$room: Is a directory" decide "$room"
: > "$bad"
ends "an empty film" 2 "bad.y4m: it is empty" decide "$bad"
$RUN "$COMMAND" decide - < /dev/null > "$room/out" 2> "$room/err"
[ $? = 2 ] && [ ! -s "$room/out" ] && [ "$(cat "$room/err")" = "brinepulley: standard input: it is empty" ]
verdict "an empty standard input" $?
echo 'RIFF and so on' > "$bad"
ends "no Y4M film" 2 "not a Y4M film" decide "$bad"
printf 'YUV4MPEG2 W16 H16' > "$bad"
ends "a header cut short" 2 "header line: it is cut short" decide "$bad"
printf 'YUV4MPEG2 W16 H16\r\nFRAME\r\n' > "$bad"
ends "a film sent as a text" 2 "header line: it ends in CR LF" decide "$bad"
printf 'YUV4MPEG2 W16 \000H16\nFRAME\n' > "$bad"
ends "a zero byte in the header" 2 "header line: it holds a zero byte" decide "$bad"
ends "zeros without end for a film" 2 "not a Y4M film" decide /dev/zero
{ printf YUV4MPEG2; cat /dev/zero; } 2> /dev/null | $RUN "$COMMAND" decide - > "$room/out" 2> "$room/err"
[ $? = 2 ] && grep -q 'standard input: its header line: it holds a zero byte' "$room/err"
verdict "a film that goes on in zeros" $?
printf 'YUV4MPEG22 W16 H16\nFRAME\n' > "$bad"
ends "another word at the begin" 2 "not a Y4M film" decide "$bad"
printf 'YUV4MPEG2 H16\n' > "$bad"
ends "a header without a width" 2 "no width" decide "$bad"
printf 'YUV4MPEG2 W16\n' > "$bad"
ends "a header without a height" 2 "no height" decide "$bad"
printf 'YUV4MPEG2 W16x H16\n' > "$bad"
ends "a width that is no number" 2 "width is no number: W16x" decide "$bad"
printf 'YUV4MPEG2 W16 H-1\n' > "$bad"
ends "a height that is no number" 2 "height is no number: H-1" decide "$bad"
for colour in 411 444alpha 420p 420x 4208 420p0 422jpeg monop10 Mono; do
    printf 'YUV4MPEG2 W16 H16 C%s\n' "$colour" > "$bad"
    ends "colour space $colour" 2 "colour space C$colour" decide "$bad"
done
printf 'YUV4MPEG2 W16 H16\n' > "$bad"
ends "a film without a frame" 2 "no frame" decide "$bad"
for bytes in 1 5 100 300 389; do
    film y4m 16 16 420 50 50 50 50 50 50 50 50 50 90 | tail -c +1 > "$bad"
    whole=$(wc -c < "$bad")
    head -c $((whole - bytes)) "$bad" > "$short"
    breaks "a last frame that lacks $bytes bytes" 2 "frame 9 (at byte 3568): it is cut short" 4 decide "$short"
done
breaks "a broken film from frame 100 on" 2 "frame 109 (frame 9 of the film, at byte 3568): it is cut short" 4 \
    decide "$short" --first 100
[ "$(tail -c +3569 "$bad" | head -c 5)" = FRAME ]
verdict "the place of the broken frame" $?
{ cat "$bad"; echo FRAMES; } > "$short"
breaks "a frame that does not begin with FRAME" 2 "frame 10 (at byte 3958): it does not begin with FRAME" 5 decide "$short"
{ cat "$bad"; echo; } > "$short"
breaks "a line end behind the last frame" 2 "frame 10 (at byte 3958): it does not begin with FRAME" 5 decide "$short"
{ cat "$bad"; printf 'FRAME\r\n'; } > "$short"
breaks "CR LF behind FRAME" 2 "frame 10 (at byte 3958): it ends in CR LF" 5 decide "$short"
{ cat "$bad"; printf 'FRAME I\000p\n'; } > "$short"
breaks "a zero byte behind FRAME" 2 "frame 10 (at byte 3958): it holds a zero byte" 5 decide "$short"

# What a terminal would obey does not reach it. Letters of other alphabets do.
printf 'YUV4MPEG2 W1\033[2J\233\302\233\177 H16\n' > "$bad"
printf 'YUV4MPEG2 W1\340\200\200\355\240\200\360\200\200\200\364\220\200\200\342\202 H1\n' > "$room/wrong.y4m"
ends "bytes that are no letters" 2 \
    'W1\\xE0\\x80\\x80\\xED\\xA0\\x80\\xF0\\x80\\x80\\x80\\xF4\\x90\\x80\\x80\\xE2\\x82$' decide "$room/wrong.y4m"
printf 'YUV4MPEG2 W\357\273\277\342\200\2561\342\200\213\342\201\240 H1\n' > "$room/wrong.y4m"
ends "signs that are not seen" 2 'W\\xEF\\xBB\\xBF\\xE2\\x80\\xAE1\\xE2\\x80\\x8B\\xE2\\x81\\xA0$' decide "$room/wrong.y4m"
ends "bytes that a terminal obeys" 2 'its width is no number: W1\\x1B\[2J\\x9B\\xC2\\x9B\\x7F$' decide "$bad"
cp "$bad" "$room/größe Ж.y4m"
ends "a name in other letters" 2 "größe Ж.y4m: its width" decide "$room/größe Ж.y4m"
cp "$bad" "$room/two
lines"
ends "a name of two lines" 2 'two\\x0Alines: its width' decide "$room/two
lines"

for colour in 420p9 420p11 422p14 444p16 mono9 mono16 mono64; do
    printf 'YUV4MPEG2 W16 H16 C%s\nFRAME\n' "$colour" > "$bad"
    for mode in fast none; do
        ends "depth $colour is refused in $mode mode" 1 \
            "bad.y4m: samples of ${colour##*[op]} bits, and only 8, 10 and 12 are taken (refusal 5)" decide "$bad" --mode $mode
    done
done
while read -r sides told; do
    printf 'YUV4MPEG2 %s\nFRAME\n' "$(echo "$sides" | tr , ' ')" > "$bad"
    ends "sides $sides are refused" 1 "bad.y4m: a $told, and a side is 1 to 8192 (refusal 6)" decide "$bad"
done << 'END'
W0,H16 width of 0
W16,H0 height of 0
W8193,H16 width of 8193
W16,H8193 height of 8193
W12345678901,H16 width of 12345678901
W18446744073709551615,H18446744073709551615 width of 18446744073709551615 or more
W99999999999999999999999,H16 width of 18446744073709551615 or more
END

# The file of inter costs. The film has three pairs.
costs=$room/costs
film y4m 16 16 420 50 50 90 90 > "$bad"
standard="decide $bad --mode standard --inter $costs"
ends "missing costs" 2 "No such file" $standard
printf '1\n2\n' > "$costs"
breaks "a missing line of costs" 2 "costs, line 3 is missing" 1 $standard
: > "$costs"
breaks "no line of costs" 2 "costs, line 1 is missing" 1 $standard
printf '1\n\n3\n' > "$costs"
breaks "an empty line of costs" 2 "costs, line 2: '' is no number" 1 $standard
printf '1\n2 3\n3\n' > "$costs"
breaks "two costs in a line" 2 "costs, line 2: '2 3' is no number" 1 $standard
printf '1\n2\n3x\n' > "$costs"
breaks "a malformed cost" 2 "costs, line 3: '3x' is no number" 1 $standard
printf '1\n\0332\n3\n' > "$costs"
breaks "a cost that a terminal obeys" 2 "costs, line 2: '.x1B2' is no number" 1 $standard
awk 'BEGIN { print 1; while (n++ < 50) printf "word"; print "" }' > "$costs"
breaks "a long line of costs" 2 "costs, line 2: '\(word\)\{10\}[.][.]' is no number" 1 $standard
printf '1\n2\0000\n3\n' > "$costs"
breaks "a zero byte in a cost" 2 "costs, line 2: it holds a zero byte" 1 $standard
breaks "zeros without end for costs" 2 "/dev/zero, line 1: it holds a zero byte" 1 decide "$bad" --mode standard --inter /dev/zero
printf '1\r\n2 \r\n3' > "$costs"
command_run $standard
[ "$status" = 0 ]
verdict "costs with CR LF, and without a last line end" $?
ends "a folder for costs" 2 "$room: Is a directory" decide "$bad" --mode standard --inter "$room"
printf '1\n2\n3\n4\n' > "$costs"
breaks "a line of costs too many" 2 "costs, line 4 is one too many" 4 $standard
for cost in -1 nan inf -inf; do
    printf '1\n%s\n3\n' "$cost" > "$costs"
    breaks "a cost of $cost is refused" 1 "costs, line 2: $cost is no cost (refusal 10)" 1 $standard
done
printf '1\n2\n1e999\n' > "$costs"
breaks "a cost of 1e999 is refused" 1 "costs, line 3: inf is no cost (refusal 10)" 1 $standard --first 100
# The set of frame 9 is the first that holds the cost of the frames 14 and 15.
film y4m 16 16 mono 50 50 50 50 50 50 50 50 50 50 50 50 50 50 50 50 50 50 > "$bad"
awk 'BEGIN { while (n++ < 17) print n == 15 ? "nan" : 1 }' > "$costs"
breaks "a wrong cost far on" 1 "costs, line 15: nan is no cost (refusal 10)" 10 $standard

# Pictures.
p=$room/p.pgm
q=$room/q.pgm
film pgm 16 16 255 50 > "$p"
ends "a missing picture" 2 "No such file" measure "$p" "$room/none.pgm"
echo P2 1 1 255 0 > "$q"
ends "no binary PGM" 2 "not a binary PGM" measure "$q" "$p"
: > "$q"
ends "an empty picture" 2 "q.pgm: it is empty" measure "$p" "$q"
printf 'P5 16' > "$q"
ends "a PGM header cut short" 2 "PGM header" measure "$p" "$q"
printf 'P5 16 x 255\n' > "$q"
ends "a PGM header that is none" 2 "PGM header" measure "$p" "$q"
ends "a folder for a picture" 2 "$room: Is a directory" measure "$p" "$room"
ends "a folder for the first picture" 2 "$room: Is a directory" measure "$room" "$p"
for largest in 0 100 254 256 511 1022 1024 2047 4094 4096 65535 65536; do
    film pgm 16 16 $largest 50 > "$q"
    for pictures in "$p $q" "$q $p"; do
        # shellcheck disable=SC2086 # two words
        ends "a largest value of $largest" 2 "q.pgm: its largest value is $largest, and only 255, 1023 and 4095 are taken" \
            measure $pictures
    done
done
head -c 100 "$p" > "$q"
ends "a picture cut short" 2 "cut short" measure "$p" "$q"
{ cat "$p"; echo; } > "$q"
ends "a picture with bytes behind it" 2 "bytes behind" measure "$p" "$q"
film pgm 16 15 255 50 > "$q"
ends "unlike sizes are refused" 1 "p.pgm is 16 × 16 and .*q.pgm 16 × 15: both must have one size (refusal 3)" measure "$p" "$q"
while read -r sides told; do
    printf 'P5 %s 255\n' "$(echo "$sides" | tr , ' ')" > "$q"
    ends "a picture of $sides is refused" 1 "q.pgm: a $told, and a side is 1 to 8192 (refusal 1)" measure "$p" "$q"
    ends "a first picture of $sides is refused" 1 "q.pgm: a $told, and a side is 1 to 8192 (refusal 1)" measure "$q" "$p" --mode fast
done << 'END'
8193,1 width of 8193
0,1 width of 0
1,0 height of 0
1,8193 height of 8193
12345678901,1 width of 12345678901
99999999999999999999999,1 width of 18446744073709551615 or more
END
