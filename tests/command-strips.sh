# Part of command.sh: decide --strips. What it answers, says and logs is byte for byte what `decide` does without it, also where a film is at
# fault.
strips=$room/strips.y4m

# ROWS may be a list, as 1,5,7.
same() { # NAME ROWS ARGUMENTS..
    name=$1 rows=$2
    shift 2
    $RUN "$COMMAND" decide "$@" > "$room/whole-out" 2> "$room/whole-err"
    whole_status=$?
    for few in $(echo "$rows" | tr , ' '); do
        command_run decide "$@" --strips "$few"
        [ "$status" = "$whole_status" ] && cmp -s "$room/whole-out" "$room/out" && cmp -s "$room/whole-err" "$room/err"
        verdict "$name: --strips $few" $?
    done
}
all=1,5,7,8,13,64

# Sides that are no multiples of 8; below 8, so that no block is whole, which Standard mode refuses; of more than two strips of 64 rows; frames
# that are reduced, with rows and columns in no whole square. The swell's frames are rough, and every block of a frame has a cost of its own.
awk 'BEGIN { while (n++ < 14) print n % 4 == 2 ? 900 : n * 7 }' > "$costs"
while read -r width height depth; do
    film swell "$width" "$height" "$depth" 1 20 24 21 26 22 110 107 112 108 111 60 62 61 64 66 > "$strips"
    what="$width × $height of $depth bits"
    same "$what, fast" $all "$strips" --csv
    [ "$whole_status" = 0 ] && [ "$(wc -l < "$room/whole-out")" -gt 10 ]
    verdict "$what, fast: decided" $?
    same "$what, standard" $all "$strips" --csv --mode standard --inter "$costs"
    if [ "$width" -ge 8 ] && [ "$height" -ge 8 ]; then
        [ "$whole_status" = 0 ] && [ "$(wc -l < "$room/whole-out")" -gt 10 ]
    else
        [ "$whole_status" = 1 ] && [ ! -s "$room/whole-out" ]
    fi
    verdict "$what, standard: decided, or refused" $?
done << 'END'
65 47 8
33 7 8
7 70 8
71 141 8
243 241 8
717 481 8
20 9 10
67 143 10
721 725 10
41 67 12
717 481 12
1 1 12
END

# A frame whose measures are large is seen, so what is compared is not the same nothing in both.
film swell 65 47 8 1 20 24 21 26 22 110 107 112 108 111 60 62 61 64 66 > "$strips"
command_run decide "$strips" --csv --mode standard --inter "$costs" --strips 13
[ "$status" = 0 ] && awk -F, 'NR > 2 && $7 != "" { seen[$4 "," $7] = 1 } END { for (k in seen) n++; exit !(n >= 10) }' "$room/out"
verdict "importances and thresholds differ from frame to frame" $?
for frames in 50 '50 90' '50 90 91 92 93'; do
    # shellcheck disable=SC2086 # frames
    film swell 20 19 8 1 $frames > "$room/short.y4m"
    same "strips, a film of the frames $frames" 1,5,64 "$room/short.y4m" --csv
done
for words in --bars '--dump --csv' --cuts '--times --purge' '--mode none --max 4' '--first 77 --min 3' '--lookahead 2 --csv'; do
    # shellcheck disable=SC2086 # words
    same "strips, $words" 5 "$strips" $words
done
cat "$strips" | $RUN "$COMMAND" decide - --csv --strips=13 > "$room/out" 2> "$room/err"
$RUN "$COMMAND" decide "$strips" --csv 2> /dev/null | cmp -s - "$room/out"
verdict "strips from a pipe" $?
rm -f "$room/whole.log" "$room/strips.log"
command_run decide "$strips" --mode standard --inter "$costs" --log "$room/whole.log"
command_run decide "$strips" --mode standard --inter "$costs" --log "$room/strips.log" --strips 7
[ -s "$room/whole.log" ] && cmp -s "$room/whole.log" "$room/strips.log"
verdict "strips: the log" $?
for colour in 420jpeg 422 444 mono 420p10 422p12 mono12; do
    film y4m 65 47 $colour 50 50 60 60 90 90 90 90 90 90 90 50 > "$strips"
    same "chroma behind strips, $colour" 8,13 "$strips" --csv
done

# Films at fault: cut short in each part of a frame, no frame, a frame that does not begin as one, sides and bits that are refused.
film swell 65 47 10 1 20 24 21 26 22 110 107 112 108 > "$strips"
frame=$((65 * 47 * 2 + 6))
head=$(($(wc -c < "$strips") - 9 * frame))
for bytes in 3 6 7 200 $((frame / 2)) $((frame - 1)) $frame; do
    head -c $((head + 7 * frame + bytes)) "$strips" > "$room/broken.y4m"
    same "strips, a film that ends $bytes bytes into a frame" 5,64 "$room/broken.y4m"
done
head -c "$head" "$strips" > "$room/broken.y4m"
same "strips, a film without a frame" 5 "$room/broken.y4m"
plain=$COMMAND COMMAND=$WATCHED WATCH_BROKEN=$strips
for WATCH_BYTES in 0 $head $((head + 7 * frame + 3)) $((head + 7 * frame + 2000)); do
    export WATCH_BROKEN WATCH_BYTES
    same "strips, a film that cannot be read behind $WATCH_BYTES bytes" 5,64 "$strips"
    grep -q 'Input/output error' "$room/err"
    verdict "strips, the fault is told" $?
done
unset WATCH_BROKEN WATCH_BYTES
COMMAND=$plain
for words in 'W9 H0 Cmono' 'W8193 H9 Cmono' 'W9 H9 C420p14' 'W9 Cmono'; do
    film header "$words" FRAME 50 50 > "$room/broken.y4m"
    same "strips, a film of $words" 5 "$room/broken.y4m"
done
film header 'W20 H9 Cmono' FRAMES 50 50 > "$room/broken.y4m"
same "strips, no FRAME" 5 "$room/broken.y4m"
film y4m 65 47 420 50 50 60 60 90 90 90 > "$room/broken.y4m"
head -c -1 "$room/broken.y4m" > "$room/cut.y4m"
same "strips, chroma that is cut short" 5 "$room/cut.y4m"

# A sample that is too large, in a strip's first row, in its last, in the last row of the frame: named by its place in the frame. A frame
# that is cut short behind it is told of as that.
for row in 0 7 12 46; do
    cp "$strips" "$room/broken.y4m"
    printf '\377\377' | dd of="$room/broken.y4m" bs=1 seek=$((head + 6 * frame + 6 + 2 * (row * 65 + 64))) conv=notrunc 2> "$room/log"
    for mode in fast none "standard --inter $costs"; do
        # shellcheck disable=SC2086 # words
        same "strips, a sample that is too large in row $row, mode $mode" 1,13 "$room/broken.y4m" --mode $mode
    done
    grep -q "frame 6 .*: its sample (64, $row) is 65535, and the largest of 10 bits is 1023 (refusal 16)" "$room/err"
    verdict "strips, the sample in row $row is named" $?
    head -c $((head + 7 * frame - 1)) "$room/broken.y4m" > "$room/cut.y4m"
    same "strips, the same in a frame that is cut short" 13 "$room/cut.y4m"
done
film y4m 243 241 mono12 50 50 4000 4000 > "$room/broken.y4m"
printf '\000\020' | dd of="$room/broken.y4m" bs=1 seek=$(($(wc -c < "$room/broken.y4m") - 2)) conv=notrunc 2> "$room/log"
same "strips, a sample that is too large below the last whole square" 1,64 "$room/broken.y4m"
grep -q 'its sample (242, 240) is 4096' "$room/err"
verdict "strips, that sample is named" $?

# One frame is kept, and no second one: frames of 16 MB are decided on in 40 MB, where whole frames want four times 16.
within() { # ARGUMENTS..
    # shellcheck disable=SC3045 # dash and bash have it
    (ulimit -v 40000 && exec "$COMMAND" decide "$strips" --csv --mode standard --inter "$room/few.costs" "$@") > "$room/out" 2> "$room/err"
    status=$?
}
if [ -z "$RUN" ]; then
    echo 5 > "$room/few.costs"
    film y4m 4096 4096 mono 50 90 > "$strips"
    "$COMMAND" decide "$strips" --csv --mode standard --inter "$room/few.costs" > "$room/want" 2> /dev/null
    within --strips 64
    [ "$status" = 0 ] && [ -s "$room/want" ] && cmp -s "$room/want" "$room/out"
    verdict "strips, in the memory of two frames" $?
    within
    [ "$status" = 2 ] && grep -q 'not enough memory for its frames' "$room/err"
    verdict "whole frames, in the same memory" $?
    rm -f "$strips"
fi

# What is no number of rows.
for bad in '' 0 65 x 1x -1 +1 ' 1' 1.5 4294967297 18446744073709551616; do
    ends "--strips '$bad'" 2 "--strips wants a number of rows from 1 to 64, not '$bad'" decide "$a" --strips "$bad"
done
ends "--strips without a number" 2 "--strips wants a value" decide "$a" --strips
ends "measure has no --strips" 2 "measure has no option '--strips'" measure "$a" "$a" --strips 8
ends "log has no --strips" 2 "log has no option '--strips'" log "$a" --strips 8
ends "demo has no --strips" 2 "demo has no option '--strips'" demo --strips 8
