# Part of command.sh: frames that Fast mode reduces. Each film is drawn twice: whole, and with the reduction of film.c, in which the library
# has no part, so that it is small enough to be taken as it is. The command must say the same of both, byte for byte. (With a lookahead below
# 5 it would not: where frames are reduced, a pair that is scored twice has a delta of 0.)
whole=$room/whole.y4m
small=$room/small-as-it-is.y4m
swell='20 24 21 26 22 110 107 112 108 111 109 110 112'

# A frame of a film, counted from the film's end, as a picture. A picture has the high byte of a sample first.
picture() { # FILM WIDTH HEIGHT DEPTH FRAME
    each=$(($4 == 8 ? 1 : 2))
    printf 'P5 %d %d %d\n' "$2" "$3" $(((1 << $4) - 1))
    tail -c $((($2 * $3 * each + 6) * $5 - 6)) "$1" | head -c $(($2 * $3 * each)) |
        if [ $each = 1 ]; then cat; else dd conv=swab 2> "$room/log"; fi
}

while read -r width height depth factor frames; do
    luma=$(echo "$swell" | cut -d ' ' -f 1-"$frames")
    # shellcheck disable=SC2086 # a number for each frame
    {
        film swell "$width" "$height" "$depth" 1 $luma > "$whole"
        film swell "$width" "$height" "$depth" "$factor" $luma > "$small"
    }
    what="$width × $height of $depth bits, divided by $factor"
    for words in --csv --bars --cuts --dump; do
        $RUN "$COMMAND" decide "$small" $words > "$expected" 2> /dev/null
        command_run decide "$whole" $words
        [ "$status" = 0 ] && [ -s "$expected" ] && cmp -s "$expected" "$room/out"
        verdict "frames of $what: decide $words" $?
    done

    wide=$((width / factor)) high=$((height / factor))
    picture "$whole" "$width" "$height" "$depth" 2 > "$p"
    picture "$whole" "$width" "$height" "$depth" 1 > "$q"
    picture "$small" $wide $high "$depth" 2 > "$room/small-p.pgm"
    picture "$small" $wide $high "$depth" 1 > "$room/small-q.pgm"
    bits=$([ "$depth" = 8 ] || echo " of $depth bits")
    {
        echo "pictures   $wide × $high$bits, as fast mode has them: sides divided by $factor"
        $RUN "$COMMAND" measure "$room/small-p.pgm" "$room/small-q.pgm" | sed -n 2,3p
    } > "$expected"
    [ "$(wc -l < "$expected")" = 3 ] && ! grep -q '^difference 0$' "$expected"
    verdict "pictures of $what differ" $?
    gives "pictures of $what" "$expected" measure --mode fast "$p" "$q"
done << 'END'
243 241 8 2 13
483 480 8 2 13
717 481 8 4 13
721 725 8 8 13
1091 1081 8 16 8
1607 1601 8 32 8
243 241 10 2 13
717 481 12 4 13
721 725 10 8 13
1091 1081 10 16 8
1607 1601 12 32 8
END
