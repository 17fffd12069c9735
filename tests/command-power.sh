# Part of command.sh: a command that is stopped while it appends to a log, and goes on.

# The film of a night: ten frames, so five scores. Going on means a fresh detector on the rest of the film, and its log must be,
# byte for byte, that of a run which was never stopped. That holds for this film, and not for every one:
# - Fast mode: a score is the pair's own difference, whatever came before. Differences: 3 40 2 1 5 5 4 1 2.
# - Whether a frame is a cut depends on its neighbours that reach the threshold of 18. A fresh detector has not seen the older
#   ones. Here one pair alone reaches it.
# - The last score is that of frame 5, by a set of six frames. A detector whose first set has six frames decides on the next
#   pair in place of its own. So the pairs 5 and 6 have the same difference.
night='50 53 93 95 96 101 106 110 111 113'
whole=$room/whole.log
pipe=$room/pipe

# The film from frame FROM on, up to frame END, which is no longer in it.
frames() { # FROM END
    film y4m 16 16 mono $(echo "$night" | cut -d ' ' -f "$(($1 + 1))-$2")
}

for from in 0 1 2 3 4 5; do frames $from 10 > "$room/rest$from.y4m"; done
rm -f "$whole" "$log"
command_run decide "$room/rest0.y4m" --csv --log "$whole"
[ "$status" = 0 ] && [ "$(cuts)" = "0 2" ] && [ "$(wc -c < "$whole")" = 235 ]
verdict "the night's log" $?
cp "$room/out" "$room/lines"

# Goes on with a log of so many whole records, to the night's log.
goes_on() { # LOG
    records=$(($(wc -c < "$1") / 47))
    command_run decide "$room/rest$records.y4m" --first "$records" --log "$1"
    [ "$status" = 0 ] && cmp -s "$1" "$whole"
}

# What the last command said of the rest that it went over: one line, or nothing where there was none.
told() { # REST RECORDS
    if [ "$1" = 0 ]; then
        [ ! -s "$room/err" ]
    else
        [ "$(wc -l < "$room/err")" = 1 ] &&
            grep -Eq ": a torn rest of $1 bytes? behind $2 whole records?: the next record goes over it\$" "$room/err"
    fi
}

failing=
length=0
while [ "$length" -le 235 ]; do
    head -c "$length" "$whole" > "$log"
    goes_on "$log" && told $((length % 47)) $((length / 47)) || failing="$failing $length"
    length=$((length + 1))
done
echo "lengths:$failing" > "$room/log"
[ -z "$failing" ]
verdict "a log that is cut at every length" $?

# Two nights in one log, and a stop in the second, as docs/FORMATS.md says: where the last number is not above the film's first, the
# whole film is given again. The second night is the same film, from frame 10 on.
nights=$room/nights.log
cp "$whole" "$nights"
command_run decide "$room/rest0.y4m" --first 10 --log "$nights"
for length in 235 236 281 282 300 470; do
    head -c "$length" "$nights" > "$log"
    first=$($RUN "$COMMAND" log --csv "$log" 2> /dev/null | tail -n 1 | cut -d , -f 1)
    [ "$first" -gt 10 ] || first=10
    command_run decide "$room/rest$((first - 10)).y4m" --first "$first" --log "$log"
    [ "$status" = 0 ] && [ "$(wc -c < "$log")" = 470 ] && cmp -s "$log" "$nights"
    verdict "a log of two nights that is cut at $length" $?
done

# Standard mode goes on with its costs cut likewise: here that of frames n - 1 and n is n.
printf '%s\n' 1 2 3 4 5 6 7 8 9 | tail -n +4 > "$costs"
rm -f "$log"
command_run decide "$room/rest3.y4m" --first 3 --mode standard --inter "$costs" --log "$log"
command_run log --csv "$log"
[ "$status" = 0 ] && [ "$(awk -F, 'NR > 1 { printf "%s:%s ", $1, $3 }' "$room/out")" = "4:4 5:5 " ]
verdict "costs that are cut as the film is" $?

# Without a standard output and a standard error the log must not take the place of one: messages would go into it. The lines are
# lost, and the log goes on to the film's end.
head -c $((3 * 47 + 20)) "$whole" > "$log"
$RUN "$COMMAND" decide "$room/rest3.y4m" --first 3 --log "$log" >&- 2>&-
[ $? = 2 ] && cmp -s "$log" "$whole"
verdict "a log where the standard streams are closed" $?
if [ -w /dev/full ]; then
    rm -f "$log"
    $RUN "$COMMAND" decide "$room/rest0.y4m" --log "$log" > /dev/full 2> "$room/err"
    [ $? = 2 ] && [ "$(wc -l < "$room/err")" = 1 ] && grep -q 'cannot write the answer' "$room/err" && cmp -s "$log" "$whole"
    verdict "a log where the standard output is full" $?
fi

# A film that breaks off in its last frame: the log and the standard output have what was decided before.
rm -f "$log"
head -c $(($(wc -c < "$room/rest0.y4m") - 1)) "$room/rest0.y4m" > "$room/short.y4m"
breaks "a film that breaks off" 2 "frame 9 (at byte 2417): it is cut short" 4 decide "$room/short.y4m" --log "$log"
head -c $((3 * 47)) "$whole" | cmp -s - "$log"
verdict "a film that breaks off: its log" $?
goes_on "$log"
verdict "a film that breaks off: going on" $?

# A file may have as many bytes as the shell's block has, 512 or 1,024: the write that goes past it fails, as on a full disk.
awk 'BEGIN { for (n = 0; n < 40; n++) print 50 + n * n % 11 }' > "$room/long"
film y4m 16 16 mono $(cat "$room/long") > "$room/long.y4m"
rm -f "$log" "$kept"
command_run decide "$room/long.y4m" --log "$kept"
(ulimit -f 1 && $RUN "$COMMAND" decide "$room/long.y4m" --log "$log" > "$room/out" 2> "$room/err")
status=$?
size=$(wc -c < "$log")
records=$((size / 47))
[ "$status" = 2 ] &&
    grep -q "record $records at byte $((47 * records)), frame $((records + 1)): cannot be written: File too large" "$room/err"
verdict "a full disk under the log" $?
[ "$size" -lt "$(wc -c < "$kept")" ] && [ $((size % 47)) -gt 0 ] && head -c "$size" "$kept" | cmp -s - "$log"
verdict "a full disk under the log: whole records and a rest" $?
film y4m 16 16 mono $(tail -n +$((records + 1)) "$room/long") > "$room/rest.y4m"
command_run decide "$room/rest.y4m" --first "$records" --log "$log"
[ "$status" = 0 ] && cmp -s "$log" "$kept"
verdict "a full disk under the log: going on" $?

# Waits until the log has so many bytes: for a minute at most, and while the command lives.
grown() { # BYTES
    tries=0
    until [ -f "$log" ] && [ "$(wc -c < "$log")" -ge "$1" ]; do
        tries=$((tries + 1))
        [ "$tries" -le 1200 ] && kill -0 "$process" 2> /dev/null || return 1
        sleep 0.05
    done
}

# Starts the command on the night's film, of which COUNT frames come through a pipe that stays open: `process` is its number.
# A set has seven frames, so there are COUNT - 6 records once the command waits for more. Returns when they are there.
start_fed() { # COUNT
    rm -f "$log" "$pipe"
    mkfifo "$pipe"
    exec 9<> "$pipe"
    $RUN "$COMMAND" decide "$pipe" --csv --log "$log" > "$room/fed" 2> "$room/err" 9>&- &
    process=$!
    frames 0 "$1" >&9
    grown $((($1 - 6) * 47))
}

for fed in 7 8 9 10; do
    start_fed $fed
    verdict "the log after $fed frames" $?
    kill -9 "$process"
    wait "$process" 2> /dev/null
    exec 9>&-
    head -c $(((fed - 6) * 47)) "$whole" | cmp -s - "$log"
    verdict "killed after $fed frames: whole records" $?
    # A line comes behind its record, so the last one may be missing. What is there is whole.
    lines=$(wc -l < "$room/fed")
    [ "$lines" -ge $((fed - 5)) ] && [ "$lines" -le $((fed - 4)) ] && head -n "$lines" "$room/lines" | cmp -s - "$room/fed"
    verdict "killed after $fed frames: whole lines" $?
    goes_on "$log"
    verdict "killed after $fed frames: going on" $?
done

# A second command on a log that is in use: it says so, and the first goes on undisturbed. Reading does not count as use.
start_fed 8
spares "a log in use" 2 "this log is in use" decide "$room/rest5.y4m" --log "$log" --first 1000
command_run log "$log"
[ "$status" = 0 ] && [ "$(tail -n 1 "$room/out")" = "2 records, 1 cut" ]
verdict "a log in use can be read" $?
tail -c +$(($(frames 0 8 | wc -c) + 1)) "$room/rest0.y4m" >&9
exec 9>&-
wait "$process"
[ $? = 0 ] && cmp -s "$log" "$whole" && [ "$(wc -l < "$room/fed")" = 11 ]
verdict "a log in use: the first command ends well" $?
