# Part of command.sh: in which order the command writes and syncs a log, and what it makes of calls that fail. WATCHED is the command
# with the calls of watch.c. The film and its log are those of command-power.sh: five records.
calls=$room/calls

inode() { ls -di "$1" | awk '{ print $1 }'; }

watched() { # FAULT ARGUMENTS..
    fault=$1
    shift
    rm -f "$calls"
    env WATCH_CALLS="$calls" WATCH_FAULT="$fault" $RUN "$WATCHED" "$@" > "$room/out" 2> "$room/err"
    status=$?
}

# The calls were these, one for each word: fsync:FILE, write:AT:COUNT, sync. The last two are for the log.
called() { # CALL..
    for call in "$@"; do
        case "$call" in
            fsync:*) echo "fsync $(inode "${call#*:}")" ;;
            write:*) echo "pwrite $(inode "$log") $(echo "${call#*:}" | tr : ' ')" ;;
            sync) echo "fdatasync $(inode "$log")" ;;
        esac
    done > "$room/wanted"
    diff "$room/wanted" "$calls" > "$room/log"
}

# Each record is on the card before the next is written, and the folder of a new log before the first.
records='write:0:47 sync write:47:47 sync write:94:47 sync write:141:47 sync write:188:47 sync'
rm -f "$log"
watched '' decide "$room/rest0.y4m" --log "$log"
[ "$status" = 0 ] && cmp -s "$log" "$whole" && called fsync:"$room" $records
verdict "calls for a new log" $?
: > "$log"
watched '' decide "$room/rest0.y4m" --log "$log"
[ "$status" = 0 ] && called fsync:"$room" $records
verdict "calls for an empty log" $?
head -c $((2 * 47 + 20)) "$whole" > "$log"
watched '' decide "$room/rest2.y4m" --first 2 --log "$log"
[ "$status" = 0 ] && cmp -s "$log" "$whole" && called write:94:47 sync write:141:47 sync write:188:47 sync
verdict "calls for a log that goes on" $?
# A link's own folder has not changed.
mkdir "$room/links"
ln -s "$log" "$room/links/log"
rm -f "$log"
watched '' decide "$room/rest0.y4m" --log "$room/links/log"
[ "$status" = 0 ] && called fsync:"$room" $records
verdict "calls for a new log by a link" $?

# A write that is cut short or interrupted goes on where it was, and so does a sync.
others=${records#write:0:47 sync }
goes_on_after() { # FAULT CALL..
    name=$1
    shift
    rm -f "$log"
    watched "$name" decide "$room/rest0.y4m" --log "$log"
    [ "$status" = 0 ] && cmp -s "$log" "$whole" && called fsync:"$room" "$@" $others
    verdict "$name: the command goes on" $?
}
goes_on_after 'pwrite short' write:0:47 write:20:27 sync
goes_on_after 'pwrite interrupted' write:0:47 write:0:47 sync
goes_on_after 'fdatasync interrupted' write:0:47 sync sync

# Where a sync fails the command stops: it cannot say that the record is on the card. LINES frames have their line by then.
stops_after() { # FAULT WORDS LINES CALL..
    name=$1 words=$2 lines=$3
    shift 3
    rm -f "$log"
    watched "$name" decide "$room/rest0.y4m" --log "$log"
    [ "$status" = 2 ] && [ "$(grep -c '^ *[0-9]' "$room/out")" = "$lines" ] &&
        grep -q "$words: Input/output error" "$room/err" && called "$@"
    verdict "$name: the command stops" $?
}
stops_after 'fdatasync fails' "$log: record 0 at byte 0, frame 1: cannot be written" 1 fsync:"$room" write:0:47 sync
stops_after 'fsync fails' "$log" 0 fsync:"$room"

watched '' log --csv "$whole"
cp "$room/out" "$room/wanted"
watched 'read interrupted' log --csv "$whole"
[ "$status" = 0 ] && cmp -s "$room/wanted" "$room/out" && [ "$(wc -l < "$room/out")" = 6 ]
verdict "read interrupted: the listing goes on" $?

# Films and costs that cannot be read to their end: what was decided before stays, and the message says why. A frame has 262 bytes,
# every third one 265.
unreadable() { # NAME FILE BYTES WORDS LINES ARGUMENTS..
    name=$1 file=$2 bytes=$3 words=$4 lines=$5
    shift 5
    env WATCH_BROKEN="$file" WATCH_BYTES="$bytes" $RUN "$WATCHED" decide --csv "$@" > "$room/out" 2> "$room/err"
    [ $? = 2 ] && [ "$(cat "$room/err")" = "brinepulley: $file$words: Input/output error" ] &&
        [ "$(wc -l < "$room/out")" = $((lines == 0 ? 0 : lines + 1)) ]
    verdict "$name" $?
}
film=$room/rest0.y4m
unreadable "a film that cannot be read" "$film" 0 "" 0 "$film"
unreadable "a header that cannot be read" "$film" 20 ": its header line" 0 "$film"
at=$(($(film y4m 16 16 mono | wc -c) + 7 * 262 + 2 * 3))
[ "$(tail -c +$((at + 1)) "$film" | head -c 5)" = FRAME ]
verdict "where the eighth frame begins" $?
for more in 0 3 6 100; do
    unreadable "a film that cannot be read $more bytes into a frame" "$film" $((at + more)) ": frame 7 (at byte $at)" 2 "$film"
done
printf '%s\n' 1 2 3 4 5 6 7 8 9 > "$costs"
unreadable "costs that cannot be read" "$costs" 0 ", line 1" 1 "$film" --mode standard --inter "$costs"
unreadable "costs that cannot be read further" "$costs" 14 ", line 8" 3 "$film" --mode standard --inter "$costs"
unreadable "costs that cannot be read in a line" "$costs" 15 ", line 8" 3 "$film" --mode standard --inter "$costs"
unreadable "costs whose end cannot be read" "$costs" 18 ", line 10" 10 "$film" --mode standard --inter "$costs"
film pgm 16 16 255 50 > "$room/p.pgm"
for bytes in 0 5 100; do
    env WATCH_BROKEN="$room/p.pgm" WATCH_BYTES="$bytes" $RUN "$WATCHED" measure "$room/p.pgm" "$room/p.pgm" > "$room/out" 2> "$room/err"
    [ $? = 2 ] && [ ! -s "$room/out" ] && [ "$(cat "$room/err")" = "brinepulley: $room/p.pgm: Input/output error" ]
    verdict "a picture that cannot be read behind $bytes bytes" $?
done

# Another command appends while a log is read. Of the old rest the mark and the low byte of frame 2 were read before that; the record
# of frame 256 goes over the rest. Both together would be frame 258, which nobody wrote.
grows() { # NAME NUMBER..: of records in front, which the shell has passed over
    name=$1
    shift
    film log "$@" 1 2 | head -c $((47 * ($# + 1) + 20)) > "$log"
    film log "$@" 1 256 > "$room/later"
    {
        dd bs=47 count=$# of=/dev/null 2> /dev/null
        env WATCH_LATER="$room/later" $RUN "$WATCHED" log --csv -
    } <> "$log" > "$room/out" 2> "$room/err"
    [ $? = 0 ] && cmp -s "$log" "$room/later" && [ "$(cut -d , -f 1 "$room/out" | tr '\n' ' ')" = "frame 1 " ] &&
        grep -q "a torn rest of 20 bytes behind 1 whole record" "$room/err"
    verdict "$name" $?
}
grows "a log that grows while it is read"
grows "a log that grows while its end is read" 0
