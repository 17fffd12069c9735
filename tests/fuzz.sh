#!/bin/sh
# The fuzz run: `make fuzz`. Each target of fuzz.c runs for FUZZ_SECONDS (60), two at a time, with AddressSanitizer and
# UndefinedBehaviorSanitizer over the command; the library is linked as it is. A line tells of each target, and the last line is
# 'N passed, M failed'. What was found, and the inputs that led somewhere new, stay under build/fuzz/: the next run begins with them.
# ARCHIVE, FILM and RUN come from the Makefile; CLANG names another clang. Status 2: something is missing.
set -u
seconds=${FUZZ_SECONDS:-60}
clang=${CLANG:-clang}
cd "$(dirname "$0")/.." || exit 2
place=$(pwd)/build/fuzz
sanitizers='-fsanitize=fuzzer,address,undefined -fno-sanitize-recover=all'
flags="-std=c11 -D_POSIX_C_SOURCE=200809L -Wall -Wextra -Iinclude -O1 -g"
targets='film sides costs pictures log words'

stop() { echo "fuzz: $*" >&2; exit 2; }
[ -z "${RUN:-}" ] || stop 'it runs on the library of this machine alone, without TARGET='
case $seconds in '' | 0* | *[!0-9]*) stop "FUZZ_SECONDS is a whole number above 0, not '$seconds'" ;; esac
[ -f "$ARCHIVE" ] && [ -x "$FILM" ] || stop 'there is no library to fuzz yet: make fuzz builds it'

# The command's files would be in the way of others, so they have a room of their own, in memory where that can be.
room=$(mktemp -d -p /dev/shm 2> /dev/null || mktemp -d) || exit 2
running=
# shellcheck disable=SC2086 # numbers
trap 'kill $running 2> /dev/null; rm -rf "$room"' EXIT
trap 'exit 2' INT TERM HUP PIPE

# Debian's clang comes without the sanitizers' libraries: they are a package of their own.
echo '#include <stddef.h>
int LLVMFuzzerTestOneInput(const void *at, size_t count); int LLVMFuzzerTestOneInput(const void *at, size_t count)
{ return at == NULL && count > 0; }' > "$room/try.c"
# shellcheck disable=SC2086 # words
"$clang" $sanitizers -o "$room/try" "$room/try.c" > "$room/said" 2>&1 ||
    stop "clang or its sanitizers are missing. By hand, on Debian: sudo apt-get install clang libclang-rt-dev"

mkdir -p "$place"
# shellcheck disable=SC2086,SC2046 # words
"$clang" $flags $sanitizers -Dmain=command_main -DBRINEPULLEY_VERSION='"0.0.0"' -c -o "$place/main.o" tool/main.c &&
    "$clang" $flags $sanitizers -o "$place/fuzzer" "$place/main.o" tests/fuzz*.c \
        $(find tool -name '*.c' ! -name main.c) "$ARCHIVE" || stop 'it does not compile'

# Words that the readers look for.
for word in YUV4MPEG2 'FRAME\x0a' ' W16' ' H16' ' W8192' ' H8193' ' F1:600' ' F30000:1001' ' F0:0' ' Ip' ' It' ' Im' ' A1:1' ' A0:0' \
    ' C420' jpeg mpeg2 paldv ' C422' ' C444' ' Cmono' ' C420p10' p12 ' Cmono12' alpha ' XNOTE=' ' XYSCSS=' ' Itpp' 'P5 ' '# \x0a' '255\x0a' \
    '1023\x0a' '4095\x0a' \
    18446744073709551615 4294967296 e308 nan -inf 0x1p 1e-400 SC '\x0a' decide measure demo --help --version -h --mode --lookahead \
    --min --max --first --strips --inter --log --csv --purge --times --cuts --bars --dump fast standard none film.y4m costs.txt \
    a.pgm b.pgm scores.log new.log -- - =; do
    printf '"%s"\n' "$word"
done > "$place/words"

# Inputs to begin with. The bytes in front of each are those that fuzz.c draws from.
film() { "$FILM" "$@"; }
seed() { mkdir -p "$place/seeds/$1" && cat > "$place/seeds/$1/$2"; } # TARGET NAME
bytes() { printf '%b' "$(printf '\\0%o' "$@")"; }
rm -rf "$place/seeds"
sea='50 50 50 50 50 50 90 90 90 90 90 90 90'
for colour in - 420jpeg 422 444 mono 420p10 422p12 444p10 mono12; do
    # shellcheck disable=SC2086 # frames
    {
        { bytes 0 4 0 0 1 0 0 0; film y4m 3 5 "$colour" $sea; } | seed film "fast-$colour"
        { bytes 1 4 3 9 3 132 12 0; film y4m 16 9 "$colour" $sea; } | seed film "standard-$colour"
        { bytes 2 0 0 4 130 0 0 4; film y4m 1 1 "$colour" $sea; } | seed film "none-$colour"
        { bytes 0 2 0 0 33 0 0 0; film y4m 3 5 "$colour" $sea; } | seed film "dump-$colour"
        { bytes 1 4 0 0 36 132 5 2; film y4m 2 2 "$colour" 50 52 92 93 96 92; } | seed film "dump-six-$colour"
        { bytes 0 4 0 0 1 0 0 40; film y4m 3 5 "$colour" $sea; } | seed film "strips-$colour"
        { bytes 1 4 0 0 1 0 12 58; film y4m 16 9 "$colour" $sea; } | seed film "strips-standard-$colour"
        { bytes 0 1 0 0 31 134 20 3; film header "C$colour W2 H7 F1:600 Im A0:0 XLENGTH=13" 'FRAME Itpp XA' $sea; } |
            seed film "log-$colour"
    }
done
{ bytes 0 4 0 0 1 0 0 0; film y4m 8193 1 420p10 1; } | seed film refused
{ bytes 0 4 0 0 1 0 0 0; film y4m 3 5 mono10 50 1023 1024 50; } | seed film too-large
{ bytes 2 4 0 0 1 0 0 0; film y4m 3 5 mono14 50 50; } | seed film too-deep
{ bytes 0 1 0 0 1 0 0 0; film y4m 63 49 444 50 90; } | seed film larger
for how in 0 5 2 199 196 8 18 204 215; do
    { bytes "$how" 5 3 17; echo 'the sea, and some more of it'; } | seed sides "$how"
done
{ bytes 0 4; printf '1\n2.5e0\n 3\r\n4e-3\n0\n6\n7\n8\n'; } | seed costs rising
{ bytes 1 0; printf '1\nnan\n-1\ninf\n0x1p3\n1e999\n'; } | seed costs refused
{ bytes 30 1 0; film pgm 16 16 255 50; film pgm 16 16 255 57/58; } | seed pictures alike
{ bytes 31 2 0; film pgm 16 16 1023 500; film pgm 16 16 1023 1023/7; } | seed pictures deep
{ bytes 14 0 1; printf 'P5 1 1 4095\n\020\000P5\n#\n1 1\n4095\nab'; } | seed pictures too-large
{ bytes 12 0 1; printf 'P5 1 1 255\n\001P5\n#\n2 2\n255\nabcd'; } | seed pictures unlike
film log 0 1 2 7 | { bytes 0; cat; } | seed log few
# shellcheck disable=SC2046 # numbers
film log $(awk 'BEGIN { while (n++ < 300) print n }') | { bytes 27; cat; printf SC; } | seed log many
printf '%s\n' decide film.y4m --mode standard --inter costs.txt --log new.log --csv | seed words standard
printf '%s\n' decide - --lookahead 3 --min 2 --max 9 --first 100 --purge --log scores.log | seed words log
printf '%s\n' decide film.y4m --dump --mode fast --lookahead 3 | seed words dump
printf '%s\n' measure a.pgm b.pgm | seed words measure
printf '%s\n' log scores.log --csv | seed words list
printf '%s\n' decide film.y4m --inter . --mode standard --log . | seed words folder
printf '%s\n' decide film.y4m --log . | seed words folder-log

# Runs one target. The fuzzer's own words go to a file.
start() { # TARGET
    mkdir -p "$place/found" "$place/corpus/$1"
    FUZZ_TARGET=$1 FUZZ_ROOM=$room ASAN_OPTIONS=quarantine_size_mb=64:allocator_may_return_null=1 \
        "$place/fuzzer" -max_total_time="$seconds" -max_len=20000 -timeout=10 -rss_limit_mb=2560 -close_fd_mask=3 \
        -print_final_stats=1 -dict="$place/words" -artifact_prefix="$place/found/$1-" \
        "$place/corpus/$1" "$place/seeds/$1" > "$place/$1.log" 2>&1 &
}

passed=0
failed=0
tell() { # TARGET STATUS
    runs=$(sed -n 's/^stat::number_of_executed_units: *//p' "$place/$1.log")
    input=$(LC_ALL=C sed -n 's/.*Test unit written to //p' "$place/$1.log" | tail -n 1)
    if [ "$2" = 0 ] && [ "${runs:-0}" -gt 0 ]; then
        passed=$((passed + 1))
        echo "$1: $runs inputs, no finding"
    else
        failed=$((failed + 1))
        what=$(grep -a -E -m 1 'FOUND|ERROR|SUMMARY|runtime error' "$place/$1.log" | LC_ALL=C tr -c ' -~' '?')
        echo "$1: ${runs:-no} inputs, a finding: $what"
        echo "    the input: ${input:-none was kept}; all about it: $place/$1.log"
        echo "    once more: FUZZ_TARGET=$1 $place/fuzzer -close_fd_mask=3 ${input:-INPUT}"
    fi
}

# Two at a time: the first of them is waited for, then the other.
# shellcheck disable=SC2086 # words
set -- $targets
while [ $# -gt 0 ]; do
    start "$1"
    one=$! running=$!
    if [ $# -gt 1 ]; then
        start "$2"
        running="$one $!"
    fi
    wait "$one"
    tell "$1" $?
    shift
    if [ $# -gt 0 ]; then
        wait "${running#* }"
        tell "$1" $?
        shift
    fi
    running=
done
echo "$passed passed, $failed failed"
[ "$failed" = 0 ]
