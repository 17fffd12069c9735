# Part of command.sh: films and pictures without a whole block of 8 × 8. Standard mode refuses them with 19, before a line is written; Fast and
# None mode need no block.
small=$room/small.y4m
printf '1\n2\n3\n' > "$costs"
standard="--mode standard --inter $costs"

while read -r width height colour blocks; do
    film y4m "$width" "$height" "$colour" 1 2 3 4 > "$small"
    what="a film of $width × $height, $colour"
    rm -f "$room/small.log"
    for more in '' '--strips 1' '--strips 5' '--strips 64'; do
        # shellcheck disable=SC2086 # words
        if [ "$blocks" = 0 ]; then
            ends "$what, standard $more" 1 \
                "small.y4m: frame 0 (at byte [0-9]*): $width × $height samples have no whole block of 8 × 8, .* (refusal 19)" \
                decide "$small" $standard --log "$room/small.log" $more
            [ ! -e "$room/small.log" ]
            verdict "$what, standard $more: no log is left" $?
        else
            command_run decide "$small" --csv $standard $more
            [ "$status" = 0 ] && [ "$(wc -l < "$room/out")" = 5 ]
            verdict "$what, standard $more: decided" $?
        fi
        # shellcheck disable=SC2086 # words
        command_run decide "$small" --csv --lookahead 1 $more
        [ "$status" = 0 ] && [ "$(sed -n 3,5p "$room/out" | cut -d , -f 3 | tr '\n' ' ')" = '1 1 1 ' ]
        verdict "$what, fast $more" $?
        # shellcheck disable=SC2086 # words
        command_run decide "$small" --csv --mode none --max 2 --lookahead 1 $more
        [ "$status" = 0 ] && [ "$(cuts)" = '0 2' ]
        verdict "$what, none $more" $?
    done
done << 'END'
7 8 mono 0
8 7 mono 0
7 7 mono 0
1 1 mono 0
7 8192 mono 0
8 8 mono 1
15 8 mono 1
7 8 mono10 0
8 7 mono12 0
7 7 mono10 0
8 8 mono12 1
15 8 mono10 1
END

# The frame is the film's first, by the number that it has; one is enough.
film y4m 7 8 mono 1 2 3 4 > "$small"
# shellcheck disable=SC2086 # words
ends "no block: the number of the frame" 1 "frame 77 (frame 0 of the film, at byte [0-9]*): 7 × 8 samples" decide "$small" $standard --first 77
film y4m 7 8 mono 1 > "$room/one.y4m"
: > "$room/no.costs"
ends "no block: a film of one frame" 1 "one.y4m: frame 0 .*(refusal 19)" decide "$room/one.y4m" --mode standard --inter "$room/no.costs"

# What is wrong with the film itself comes first.
head -c -30 "$room/one.y4m" > "$room/broken.y4m"
ends "no block, and cut short" 2 "broken.y4m: frame 0 .*cut short" decide "$room/broken.y4m" --mode standard --inter "$room/no.costs"
film header 'W7 H8 C420p14' FRAME 50 50 > "$room/broken.y4m"
ends "no block, and samples of 14 bits" 1 "samples of 14 bits, .* (refusal 5)" decide "$room/broken.y4m" --mode standard --inter "$room/no.costs"
film y4m 7 8 mono10 1 2 > "$room/broken.y4m"
printf '\377\377' | dd of="$room/broken.y4m" bs=1 seek=$(($(wc -c < "$room/broken.y4m") - 7 * 8 * 2 - 6 - 2)) conv=notrunc 2> "$room/dd"
ends "no block, and a sample that is too large" 1 "its sample (6, 7) is 65535, .* (refusal 16)" \
    decide "$room/broken.y4m" --mode standard --inter "$room/no.costs"

# Two pictures: the difference and delta need no block.
film pgm 7 8 255 50 > "$p"
film pgm 7 8 255 57 > "$q"
ends "measure without a block" 1 "7 × 8 samples have no whole block of 8 × 8, .* (refusal 19)" measure "$p" "$q"
printf '%s\n' 'pictures   7 × 8, as fast mode has them: sides divided by 1' 'difference 392' 'delta      7' > "$expected"
gives "measure without a block, fast" "$expected" measure "$p" "$q" --mode fast
film pgm 7 9 255 57 > "$q"
ends "measure, 3 before 19" 1 "both must have one size (refusal 3)" measure "$p" "$q"
film pgm 8 8 255 50 > "$p"
film pgm 8 8 255 57 > "$q"
command_run measure "$p" "$q"
[ "$status" = 0 ] && grep -qxF 'importance 7 (total 7 over 1 blocks)' "$room/out"
verdict "measure of one block" $?
