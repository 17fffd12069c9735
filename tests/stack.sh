#!/bin/sh
# Tests of how much stack the measures take, their whole call trees included: as bench/frames.sh tells it from the archive's code,
# and as a run shows it. A measure is what the header declares under that name.
# ARCHIVE, NM, OBJDUMP, COMPILER, STATIC, RUN and TARGET come from the Makefile. Its last line is 'N passed, M failed'.
set -u
SUITE=stack
. "$(dirname "$0")/verdict.sh"

here=$(dirname "$0")
header=$here/../include/brinepulley.h
most=2048 # the stack of the board's measuring task
less=1024 # that of the task that takes strips

told() { sh "$here/../bench/frames.sh" "$TARGET" "$1" "$NM" "$OBJDUMP" 2> "$room/err"; }
# Names and depths alone.
depths() { awk -F ' *[|] *' '{ print $2, $3 }' "$1"; }

told "$ARCHIVE" > "$room/rows"
verdict "the depth of every function can be told" $?
depths "$room/rows" > "$room/depths"
awk '/^\/\* ---- /{ on = /---- measures ----/ } on' "$header" | grep -oE '\bbrine_[a-z0-9_]+ *\(' | tr -d ' (' | sort -u > "$room/measures"
[ "$(wc -l < "$room/measures")" -ge 22 ]
verdict "the header declares twenty-two measures or more" $?
cut -d ' ' -f 1 "$room/depths" | sort > "$room/names"
comm -23 "$room/measures" "$room/names" > "$room/log"
[ ! -s "$room/log" ]
verdict "every measure has its depth" $?

# A depth is the whole of it only where nothing outside the archive is called.
grep -w -F -f "$room/measures" "$room/rows" | grep 'outside:' > "$room/log"
[ ! -s "$room/log" ]
verdict "no measure calls another library" $?

within() { # DEPTHS MOST
    awk -v most="$2" '!($2 ~ /^[0-9]+$/ && $2 <= most)' "$1" > "$room/log"
    [ -s "$1" ] && [ ! -s "$room/log" ]
}
grep -w -F -f "$room/measures" "$room/depths" > "$room/few"
within "$room/few" "$most"
verdict "every measure takes $most bytes of stack at most" $?
grep '^brine_strips_' "$room/few" > "$room/strips"
[ "$(wc -l < "$room/strips")" = 4 ] && within "$room/strips" "$less"
verdict "the four of strips take $less bytes of stack at most" $?

# A run takes no more than was told; SATD really takes its block of differences, and so do strips, the reduction the sums of a chunk, and
# the deep intra costs a block, its prediction and their differences.
# shellcheck disable=SC2086 # words
$COMPILER -std=c11 -D_POSIX_C_SOURCE=200809L -O2 -Wall -Wextra -Werror -I"$here/../include" $STATIC -o "$room/stack" "$here/stack.c" \
    "$ARCHIVE" > "$room/log" 2>&1
verdict "the program that runs them compiles" $?
$RUN "$room/stack" > "$room/used" 2> "$room/err"
verdict "it runs them" $?
cut -d ' ' -f 1 "$room/used" | sort | diff "$room/measures" - > "$room/log"
verdict "it runs every measure" $?
awk 'NR == FNR { told[$1] = $2; next } !($1 in told) || $2 > told[$1]' "$room/depths" "$room/used" > "$room/log"
[ -s "$room/used" ] && [ ! -s "$room/log" ]
verdict "a run takes no more than was told" $?
for measure in brine_satd8x8:256 brine_satd8x8_16:256 brine_reduce:128 brine_intra_costs16:512 \
    brine_strips_add:256 brine_strips_add16:256; do
    awk -v name="${measure%:*}" -v least="${measure#*:}" '$1 == name && $2 >= least { found = 1 } END { exit !found }' "$room/used"
    verdict "a run of ${measure%:*} takes ${measure#*:} bytes or more" $?
done

# What the tests are to see: compiled functions that take more, or whose stack cannot be told.
object() { # NAME PROGRAM OPTIONS..
    echo "$2" > "$room/$1.c"
    object=$1
    shift 2
    $COMPILER -O2 -fno-stack-protector "$@" -c -o "$room/$object.o" "$room/$object.c" > "$room/log" 2>&1
}
takes() { # NAME LEAST MOST: its only function that is shown
    told "$room/$1.o" > "$room/rows" && depths "$room/rows" > "$room/few" &&
        awk -v least="$2" -v most="$3" '{ exit !($2 >= least && $2 <= most) }' "$room/few"
}
unclear() { # NAME: of a function or an object
    ! told "$room/$1.o" > "$room/log" && grep -q "^frames: $1: " "$room/err"
    verdict "$1: what cannot be told is said" $?
}
object deep 'static int __attribute__((noinline)) inner(int n) { volatile char room[1000]; room[n] = 1; return room[n / 2]; }
int deep(int n) { volatile char room[1200]; room[n] = 2; return inner(n) + room[n / 3]; }'
takes deep 2200 2400 && ! within "$room/few" "$most"
verdict "a function and what it calls, too deep together, would be seen" $?
# x86-64 takes no frame for it, and uses what is below the stack pointer.
flat='int flat(int n) { volatile char room[100]; room[n] = 1; return room[n / 2]; }'
object flat "$flat"
takes flat 100 200
verdict "a function that calls nothing would be seen" $?
object flat "$flat" -fno-omit-frame-pointer
takes flat 100 200
verdict "the same by a frame pointer" $?
object through 'int through(int (*f)(void)) { return f() + 1; }'
unclear through
object kept 'int (*one)(int); int kept(int n) { return one(n) + 1; }'
unclear kept
object again 'int again(int n) { return n < 2 ? n : again(n - 1) + again(n / 2); }'
unclear again
object measured 'int measured(int n) { volatile char room[n]; room[n / 2] = 1; return room[n / 3]; }'
unclear measured
object twice 'int twice(int n) { volatile char room[3000]; room[n] = 1; return room[n / 2]; }'
mv "$room/twice.o" "$room/other.o"
object twice 'int twice(int n) { return n; }'
"${NM%nm}ar" rc "$room/both.a" "$room/twice.o" "$room/other.o" 2> "$room/log" && mv "$room/both.a" "$room/twice.o"
unclear twice

count
