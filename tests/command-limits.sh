# Part of command.sh: what the detector will not report. Each statement of the manual's section on it is a run here.
# With a lookahead below 5 a note stands on the standard error, so that is not looked at.
sea=$room/sea.y4m
sea_costs=$room/sea.costs

# The film whose pairs have these differences, 9x0 for nine of 0; -40 goes down, and beyond 200 the others do. Standard's
# inter costs are twenty times as large.
sea_of() { # DIFFERENCE..
    printf '%s\n' "$@" | awk -F x -v costs="$sea_costs" 'BEGIN { print luma = 50 } {
        for (left = NF == 2 ? $1 : 1; left > 0; left--) {
            luma += luma + $NF > 200 ? -$NF : $NF
            print luma
            print 20 * ($NF < 0 ? -$NF : $NF) > costs
        }
    }' > "$room/luma"
    # shellcheck disable=SC2046 # words
    film y4m 16 16 mono $(cat "$room/luma") > "$sea"
}

# The cuts of this film in a mode, with commas; WORDS, if there are any, go to the command.
# shellcheck disable=SC2086 # words
in_fast() { cuts_at "$1 (fast ${3-})" "$(echo "$2" | tr , ' ')" "$sea" ${3-}; } # NAME CUTS WORDS
# shellcheck disable=SC2086 # words
in_standard() { cuts_at "$1 (standard ${3-})" "$(echo "$2" | tr , ' ')" "$sea" --mode standard --inter "$sea_costs" ${3-}; }
in_each() { # NAME FAST STANDARD WORDS
    in_fast "$1" "$2" "${4-}"
    in_standard "$1" "$3" "${4-}"
}

# A column of the last output without the header and the first frame; '-' is nothing.
column() { awk -F, -v k="$1" 'NR > 2 { printf "%s ", $k == "" ? "-" : $k }' "$room/out"; }
is() { # NAME TEXT WANT
    [ "$status" = 0 ] && [ "$2" = "$3" ]
    verdict "$1" $?
}

# Two changes, the first at frame 10. Fast: gaps of 1 to 4 lose both, 5 loses the second. Standard: gaps of 1 to 5 lose the
# first; at 5 not where it is the larger one. The last sizes are up and down again.
for sizes in '40 40' '40 90' '90 40' '70 -70'; do
    for gap in 1 2 3 4 5 6 7; do
        second=$((10 + gap))
        case "$gap $sizes" in
            [1-4]*) fast=0 standard=0,$second ;;
            '5 90 40') fast=0,10 standard=0,10,$second ;;
            5*) fast=0,10 standard=0,$second ;;
            *) fast=0,10,$second standard=0,10,$second ;;
        esac
        sea_of 9x0 "${sizes% *}" $((gap - 1))x0 "${sizes#* }" 15x0
        in_each "changes of $sizes, gap $gap" $fast $standard "--lookahead 5"
        in_each "changes of $sizes, gap $gap" $fast $standard "--lookahead 14"
    done
done

# Noise, each pair above the threshold from frame 10 on: the frames after it, the cuts in Fast and in Standard mode.
for long in 3 4 12; do
    last=$((9 + long))
    while read -r after fast standard words; do
        sea_of 9x0 ${long}x30 "${after}x0"
        in_each "noise of $long frames, $after after it" "$fast" "$standard" "$words"
    done << END
0 0 0
3 0 0
4 0,$last 0,$last
9 0,$last 0,$last
9 0 0,$last --lookahead 4
9 0,10,$last 0,$last --lookahead 1
0 0,$last 0 --lookahead 4
0 0,$last 0 --lookahead 2
0 0,10,$last 0 --lookahead 1
END
done

# The rule of Fast mode in one sentence, on a film of 800 frames: a large pair is a cut if none of the next five is large and
# of the five before it none is or at least two are; or if none before is, and of the next five the fifth alone. The last frame that is
# decided has four after it, and there the fourth counts as the fifth.
awk 'BEGIN {
    for (n = 1; n < 800; n++) {
        seed = (seed * 25173 + 13849) % 65536
        large = seed / 65536 < 0.05 + int(n / 200) / 15
        print large ? 18 + n % 7 : n % 18
    }
}' > "$room/random"
frames=$(awk '{ d[NR] = $1 >= 18 } END {
    printf "0"
    for (n = 1; n <= NR - 4; n++) {
        before = after = 0
        for (k = 1; k <= 5; k++) { before += d[n - k]; after += d[n + k] }
        fifth = n == NR - 4 ? 4 : 5
        if (d[n] && ((!after && before != 1) || (!before && after == 1 && d[n + fifth]))) printf " %d", n
    }
}' "$room/random")
# shellcheck disable=SC2046 # words
sea_of $(cat "$room/random")
in_fast "the rule in one sentence" "$frames"
[ "$(echo "$frames" | wc -w)" = 40 ]
verdict "the rule in one sentence: there are cuts" $?

# The film's end: with a lookahead of 5 or more the last four frames get no decision, and five frames get none at all.
for look in 5 6 14 20; do
    for frames in 2 5 6 7 8 30; do
        sea_of $((frames - 1))x0
        command_run decide --csv "$sea" --lookahead $look
        is "lookahead $look, $frames frames: the decided ones" "$(column 3)" \
            "$(awk -v n=$frames 'BEGIN { while (++i < n) printf "%s ", i < n - 4 ? 0 : "-" }')"
    done
done

# A lookahead below 5: as many first lines as the lookahead show the next frame's score, then all show their own.
for look in 1 2 3 4; do
    own=$(awk -v a=$look 'BEGIN { while (n++ < 12) printf "%d ", n <= a ? n + 1 : n }')
    sea_of 1 2 3 4 5 6 7 8 9 10 11 12
    command_run decide --csv "$sea" --lookahead $look
    is "lookahead $look: which score, fast" "$(column 3)" "$own"
    command_run decide --csv "$sea" --mode standard --inter "$sea_costs" --lookahead $look
    is "lookahead $look: which score, standard" "$(column 4)" "$own"
done

# One change, at frame 1, 2, .. of a film that ends with frame 12: where it is found. All is well with 5, but for the end.
while read -r look mode found; do
    frame=0
    for where in $found; do
        frame=$((frame + 1))
        sea_of $((frame - 1))x0 40 $((12 - frame))x0
        "in_$mode" "one change, at $frame" "$(echo "0,$where" | sed 's/,-//')" "--lookahead $look"
    done
done << 'END'
1 fast - 1 3 4 5 6 7 8 9 10 11 12
2 fast - 1 - 4 5 6 7 8 9 10 11 12
3 fast - 1 2 - 5 6 7 8 9 10 11 12
4 fast - 1 2 3 - 6 7 8 9 10 11 12
5 fast 1 2 3 4 5 6 7 8 - - - -
1 standard - 2 3 4 5 6 7 8 9 10 11 -
2 standard - - 3 4 5 6 7 8 9 10 11 -
3 standard - - - 4 5 6 7 8 9 10 11 -
4 standard - - - - 5 6 7 8 9 10 11 -
5 standard 1 2 3 4 5 6 7 8 - - - -
END

# The release number at the end of 30 frames from 100 on: it rises with a lookahead of 5 in the modes that score alone.
sea_of 29x0
for words in '114 fast' '114 standard' '100 fast --lookahead 4' '100 standard --lookahead 4' '100 fast --mode none'; do
    # shellcheck disable=SC2086 # words
    set -- $words
    "in_$2" "a still film" 100 "--first 100 ${3-} ${4-}"
    is "the last release number, $words" "$(column 8 | awk '{ print $NF }')" "$1"
done

# One by one: the cuts in Fast and in Standard mode, the command's words, the differences. Three changes; one into noise;
# slow ones; a flash, and one near the end; a film of six frames; distances, which None mode has too on a still film.
every=0$(awk 'BEGIN { while (n++ < 25) printf ",%d", n }')
while IFS='|' read -r fast standard words differences; do
    # shellcheck disable=SC2086 # words
    sea_of $differences
    in_each "$differences" "$fast" "$standard" "$words"
    [ "$differences" != 29x0 ] || in_fast "$differences" "$fast" "$words --mode none"
done << END
0|0,16||9x0 40 2x0 40 2x0 40 15x0
0|0,10||9x0 60 19x30
0|0||9x0 8x6 12x0
0|0,17||9x0 8x17 12x0
0,17|0,17||9x0 8x18 12x0
0,10|0,11|--lookahead 1|9x0 70 -70 9x0
0|0,11|--lookahead 4|9x0 70 -70 9x0
0,10|0|--lookahead 4|9x0 70 -70
0,1|0,1||0 40 3x0
0,35|0||34x0 40 3x0 40
0|0||34x0 40 2x0 40 0
0,7,14,21|0,7,14,21|--max 7|29x0
0,25|0,25|--max 25|29x0
0|0|--max 26|29x0
0,26|0,26|--max 26 --lookahead 4|29x0
0,8,16,24|0,8,16,24|--min 8 --max 3|29x0
$every|$every|--max 1|29x0
$every|$every|--max 0|29x0
0,10,12,22|0,10,12,22|--max 10|11x0 40 18x0
0,10,20|0,10,20|--max 10 --min 3|11x0 40 18x0
0|0|--min 13|11x0 40 18x0
END

# Two films: a change in the last four frames is found where the next film begins with the last five frames once more.
sea_of 17x0 40 0
cuts_at "a change at frame 18 of 20" 0 "$sea" --log "$room/sea.log"
sea_of 2x0 40 20x0
cuts_at "the last five frames once more" "15 18" "$sea" --first 15 --log "$room/sea.log"

# Too small, too fine, too even: the cuts in Fast and in Standard mode, the side, the luma before frame 10 and from it on.
# The inter cost there is 9000: where Standard has no cut, the importance is below 7, or even grey has a threshold of 0.
awk 'BEGIN { while (n++ < 21) print n == 10 ? 9000 : 1 }' > "$sea_costs"
while read -r fast standard side calm rough; do
    frames=$(awk -v a="$calm" -v b="$rough" 'BEGIN { while (n++ < 22) print n < 11 ? a : b }')
    # shellcheck disable=SC2086 # words
    film y4m "$side" "$side" mono $frames > "$sea"
    in_each "$calm becomes $rough, side $side" "$fast" "$standard"
done << 'END'
0 0,10 16 50 50/85
0,10 0,10 16 50 50/86
0 0 16 50 50/62
0 0,10 16 50 50/63
0,10 0 240 128 0/255
0 0 242 128 0/255
0,10 0 16 50 128
0,10 0,10 16 128 50
END

# An importance of 7 may also be that of a pair shortly before, five at the most: 10 up at frame 5 or 4, and 6 more at frame 10.
for before in '5 0,10' '4 0'; do
    frames=$(awk -v at="${before% *}" 'BEGIN { while (n < 22) { print (n < at ? 50 : n < 10 ? 60 : 66); n++ } }')
    # shellcheck disable=SC2086 # words
    film y4m 16 16 mono $frames > "$sea"
    in_standard "10 up at frame ${before% *}, 6 more at 10" "${before#* }"
done
