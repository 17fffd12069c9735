# Part of command.sh: answers as they come. The film of command-power.sh, frame by frame through a pipe.

# Waits until a file has so many lines: for a minute at most.
lines_come() { # FILE COUNT
    tries=0
    while [ "$(wc -l < "$1")" -lt "$2" ]; do
        tries=$((tries + 1))
        [ "$tries" -le 1200 ] || return 1
        sleep 0.05
    done
    [ "$(wc -l < "$1")" = "$2" ]
}

# With lookahead N the line of a frame is there as soon as the frame N later is, and no further one.
whole_film=$room/rest0.y4m
frame_bytes=$((6 + 16 * 16))
for ahead in 5 7; do
    $RUN "$COMMAND" decide "$whole_film" --csv --lookahead "$ahead" > "$room/lines"
    rm -f "$pipe"
    mkfifo "$pipe"
    exec 9<> "$pipe"
    $RUN "$COMMAND" decide - --csv --lookahead "$ahead" < "$pipe" > "$room/fed" 2> "$room/err" 9>&- &
    process=$!
    film y4m 16 16 mono >&9
    late=
    given=0
    header=$(film y4m 16 16 mono | wc -c)
    while [ "$given" -lt 9 ]; do
        # the third and every third frame after it has a longer line
        tail -c +$((header + given * frame_bytes + given / 3 * 3 + 1)) "$whole_film" |
            head -c $((frame_bytes + (given % 3 == 2) * 3)) >&9
        given=$((given + 1))
        decided=$((given > ahead + 1 ? given - ahead - 1 : 0))
        [ -z "$late" ] && lines_come "$room/fed" $((decided + 2)) && head -n $((decided + 2)) "$room/lines" | cmp -s - "$room/fed" ||
            late="$late $given"
    done
    echo "late:$late" > "$room/log"
    [ -z "$late" ]
    verdict "lines as they are decided, lookahead $ahead" $?
    # The film breaks off here: what was decided stays.
    printf FRAM >&9
    exec 9>&-
    wait "$process"
    [ $? = 2 ] && grep -q "standard input: frame 9 (at byte [0-9]*): it is cut short" "$room/err" &&
        head -n $((9 - ahead - 1 + 2)) "$room/lines" | cmp -s - "$room/fed"
    verdict "a film that breaks off, lookahead $ahead" $?
done
rm -f "$room/log"

# A film and its costs from one writer, by turns: a cost is not waited for before it is due.
rm -f "$pipe" "$room/costs.pipe"
mkfifo "$pipe" "$room/costs.pipe"
film y4m 320 240 mono 50 50 50 50 50 50 50 50 50 50 > "$room/wide.y4m"
{
    exec 7<> "$pipe" 8<> "$room/costs.pipe"
    head -c 200000 "$room/wide.y4m" >&7
    printf '%s\n' 1 2 3 4 5 6 7 8 9 >&8
    tail -c +200001 "$room/wide.y4m" >&7
} &
writer=$!
$RUN "$COMMAND" decide "$pipe" --mode standard --inter "$room/costs.pipe" > "$room/out" 2> "$room/err" &
process=$!
lines_come "$room/out" 12
verdict "a film and its costs through two pipes" $?
kill "$process" "$writer" 2> /dev/null
wait

# On a terminal that sees no lines a long film tells how far it is, and a message takes the place of that.
if command -v script > /dev/null 2>&1; then
    # shellcheck disable=SC2046 # words
    film y4m 16 16 mono $(awk 'BEGIN { while (n++ < 260) print 50 }') > "$room/watched.y4m"
    printf FRAM >> "$room/watched.y4m"
    script -qc "$RUN $COMMAND decide $room/watched.y4m > $room/out" /dev/null < /dev/null > "$room/typed" 2> "$room/log"
    tr '\r' '\n' < "$room/typed" > "$room/log"
    grep -q '^200 frames, 0 cuts$' "$room/log" && grep -q '^250 frames, 0 cuts$' "$room/log" &&
        grep -q '^brinepulley: .*frame 260 (at byte [0-9]*): it is cut short$' "$room/log" && ! grep -q '^100 frames' "$room/log"
    verdict "progress on a terminal" $?
fi

# A film without end, of letters for samples.
endless() { # FRAMES, 0 for no end
    awk -v frames="$1" 'BEGIN {
        print "YUV4MPEG2 W8 H8 F1:600 Cmono"
        luma = sprintf("%64s", "x")
        for (n = 0; frames == 0 || n < frames; n++) printf "FRAME\n%s", luma
    }' 2> /dev/null
}

# Its reader goes after five lines. The command ends by the signal, as others do, or by itself where the signal is ignored.
endless 0 | { $RUN "$COMMAND" decide - --csv 2> "$room/err"; echo $? > "$room/ended"; } | head -n 5 > "$room/out"
[ "$(wc -l < "$room/out")" = 5 ] && [ ! -s "$room/err" ] && [ "$(cat "$room/ended")" != 0 ]
verdict "a closed pipe ends the command quietly" $?
endless 0 | { trap '' PIPE; $RUN "$COMMAND" decide - --csv 2> "$room/err"; echo $? > "$room/ended"; } | head -n 5 > "$room/out"
[ "$(wc -l < "$room/out")" = 5 ] && [ ! -s "$room/err" ] && [ "$(cat "$room/ended")" = 2 ]
verdict "a closed pipe where its signal is ignored" $?
endless 0 | { trap '' PIPE; $RUN "$COMMAND" decide - --log "$room/endless.log" 2> "$room/err"; } | head -n 5 > "$room/out"
[ "$(wc -l < "$room/out")" = 5 ] && [ ! -s "$room/err" ] && [ $(($(wc -c < "$room/endless.log") % 47)) = 0 ]
verdict "a closed pipe with a log" $?

# A long film takes no more memory than a short one: the lines of this one alone are more than what is allowed. An emulator needs more.
if [ -z "$RUN" ]; then
    endless 600000 | (ulimit -v 16000 && "$COMMAND" decide - --csv > "$room/out" 2> "$room/err")
    [ $? = 0 ] && [ "$(wc -l < "$room/out")" = 600001 ] && [ "$(wc -c < "$room/out")" -gt 17000000 ]
    verdict "a long film in little memory" $?
    if [ -w /dev/full ]; then
        endless 600000 | (ulimit -v 16000 && "$COMMAND" decide - --mode none --log "$room/none.log" > /dev/full 2> "$room/err")
        [ $? = 2 ] && [ "$(wc -l < "$room/err")" = 1 ] && grep -q 'No space left' "$room/err"
        verdict "lines that are lost take no memory" $?
    fi
fi
