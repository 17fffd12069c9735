#!/bin/sh
# Tests of what a C program links: the archive's names and its float operations, what a program needs, the header by itself,
# and the programs of the documents, linked as README.md says.
# ARCHIVE, NM, OBJDUMP, COMPILER, STATIC, RUN, TARGET and MACHINE come from the Makefile. Its last line is 'N passed, M failed'.
set -u
SUITE=archive
. "$(dirname "$0")/verdict.sh"

root=$(cd "$(dirname "$0")/.." && pwd -P)
build=$(cd "$(dirname "$ARCHIVE")/.." && pwd -P)
header=$build/include/brinepulley.h

# The names that the archive shows are those that the header declares, and no others.
grep -oE '\bbrine_[a-z0-9_]+ *\(' "$header" | tr -d ' (' | sort -u > "$room/declared"
"$NM" -g --defined-only "$ARCHIVE" 2> /dev/null | awk 'NF == 3 { print $3 }' | sort -u > "$room/shown"
diff "$room/declared" "$room/shown" > "$room/log" 2>&1
verdict "it shows the header's names alone" $?
[ "$(wc -l < "$room/shown")" -ge 27 ]
verdict "it shows all twenty-seven" $?

# It is for TARGET. No product and sum are one operation, which would round once where the rules round twice.
case $TARGET in
    x86_64) format=elf64-x86-64 product='mulsd|mulpd' option=-mfma ;;
    aarch64) format=elf64-littleaarch64 product=fmul option= ;;
esac
code() { "$OBJDUMP" -d --no-show-raw-insn "$1" 2> /dev/null; }
fused() { grep -E '[[:space:]](fn?m(add|sub|la|ls)|vfn?m(add|sub)[a-z0-9]*)[[:space:]]' "$1"; }
code "$ARCHIVE" > "$room/code"
grep -q "file format $format\$" "$room/code"
verdict "it is for $TARGET" $?
grep -Eq "[[:space:]]($product)[[:space:]]" "$room/code"
verdict "it has a float product" $?
! fused "$room/code" > "$room/log"
verdict "it has no fused float operation" $?
echo 'double f(double a, double b, double c) { return __builtin_fma(a, b, c); }' > "$room/fused.c"
# shellcheck disable=SC2086 # option may be empty
$COMPILER -O2 $option -c -o "$room/fused.o" "$room/fused.c" > "$room/log" 2>&1 &&
    code "$room/fused.o" > "$room/code" && fused "$room/code" > "$room/log"
verdict "a fused operation would be seen" $?

# What it wants of others is libc's: a program links with nothing more, and needs no other library.
cat > "$room/one.c" << 'END'
#include "brinepulley.h"
int main(void) { uint64_t numbers[BRINE_NUMBERS]; double scores[BRINE_SCORES];
    return brine_detector_fresh(64, 48, 8, 5, BRINE_MODE_FAST, 0, 250, numbers, BRINE_NUMBERS, scores, BRINE_SCORES) == 0 ? 0 : 1; }
END
whole="-Wl,--whole-archive $ARCHIVE -Wl,--no-whole-archive"
# shellcheck disable=SC2086 # words
$COMPILER -I"$build/include" -o "$room/one" "$room/one.c" $whole > "$room/log" 2>&1
verdict "a program links with libc alone" $?
"${NM%nm}readelf" -d "$room/one" 2> "$room/log" | grep NEEDED > "$room/needed"
sed 's/.*\[\(.*\)\]/\1/' "$room/needed" > "$room/log"
[ "$(cat "$room/log")" = libc.so.6 ]
verdict "the program needs libc alone" $?

# The header stands by itself, in C and in C++.
printf '#include "brinepulley.h"\n#include "brinepulley.h"\nint main(void) { return 0; }\n' > "$room/alone.c"
$COMPILER -std=c99 -pedantic -Wall -Wextra -Werror -I"$build/include" -fsyntax-only "$room/alone.c" > "$room/log" 2>&1
verdict "the header alone, in C" $?
if command -v c++ > /dev/null 2>&1; then
    cp "$room/alone.c" "$room/alone.cpp"
    c++ -std=c++11 -pedantic -Wall -Wextra -Werror -I"$build/include" -fsyntax-only "$room/alone.cpp" > "$room/log" 2>&1
    verdict "the header alone, in C++" $?
    cp "$room/one.c" "$room/one.cpp"
    c++ -std=c++11 -I"$build/include" -S -o - "$room/one.cpp" 2> "$room/log" | grep -Eq '[^_a-z0-9]brine_detector_fresh'
    verdict "the header's names are C's in C++ too" $?
fi

# The quick start's program, as it stands in README.md, compiles without a warning.
. "$(dirname "$0")/quick.sh"
quick_program 1 > "$room/quick.c"
# shellcheck disable=SC2086 # words
$COMPILER -std=c11 -Wall -Wextra -Werror -I"$build/include" $STATIC -o "$room/quick" "$room/quick.c" "$ARCHIVE" > "$room/log" 2>&1
verdict "the quick start's program compiles without a warning" $?
# It is built by README.md's own line, with README.md's own path, and finds its cut.
quick_line > "$room/log"
[ "$(wc -l < "$room/log")" = 1 ]
verdict "README.md has the line that links" $?
[ "$(quick_path)" = build/lib/pkgconfig ]
verdict "README.md says where the pkg-config file is" $?
mkdir "$room/quick start" && ln -s "$build" "$room/quick start/build"
quick_start "$room/quick start" "$(quick_path)"
verdict "the quick start, linked as README.md says" $?

# The delta of README.md's program is the one that the command gives, of two pictures whose sides are halved.
{
    quick_program 2
    cat << 'END'
#include <stdio.h>
enum { WIDTH = 483, HEIGHT = 243, COUNT = WIDTH * HEIGHT };
static uint8_t before[COUNT], now[COUNT], room[2 * COUNT];
static int put(const char *name, const uint8_t *samples)
{
    FILE *file = fopen(name, "wb");
    return file == NULL || fprintf(file, "P5 %d %d 255\n", WIDTH, HEIGHT) < 0 || fwrite(samples, 1, COUNT, file) != COUNT || fclose(file);
}
int main(int count, char **words)
{
    double delta = 0;
    for (size_t i = 0; i < COUNT; i++) { before[i] = (uint8_t)(i * i / 7); now[i] = (uint8_t)(i * 31 + i / WIDTH); }
    if (count != 3 || put(words[1], before) || put(words[2], now) || frame_delta(before, now, WIDTH, HEIGHT, room, &delta) != 0)
        return 1;
    printf("%.17g\n", delta);
    return 0;
}
END
} > "$room/delta.c"
# shellcheck disable=SC2086 # words
$COMPILER -std=c11 -Wall -Wextra -Werror -I"$build/include" $STATIC -o "$room/delta" "$room/delta.c" "$ARCHIVE" > "$room/log" 2>&1
verdict "the program from frames to deltas compiles without a warning" $?
delta=$($RUN "$room/delta" "$room/a.pgm" "$room/b.pgm")
$RUN "$COMMAND" measure "$room/a.pgm" "$room/b.pgm" --mode fast > "$room/log" 2>&1
[ -n "$delta" ] && awk -v want="$delta" '$1 == "delta" { got = $2 } END { exit !(got > 1 && sprintf("%.17g", got) == want) }' "$room/log"
verdict "its delta is the command's" $?

# The loop of a driver that has strips, as it stands in docs/COMMAND.md and in the header: under 30 lines, and what it gives is what the
# whole frames give.
awk '/^##/ { in_it = /^### Strips/ } /^[^ ]/ { on = 0 } in_it && /^    #include/ { on = 1 } on { print substr($0, 5) }' \
    "$root/docs/COMMAND.md" | sed -e :a -e '/^\n*$/{$d;N;ba' -e '}' > "$room/strips.c"
sed -n '/^ \*     #include/,/^ \*     }$/s/^ \*\(     \)\{0,1\}//p' "$header" | diff "$room/strips.c" - > "$room/log"
verdict "the header has the loop of docs/COMMAND.md" $?
[ "$(wc -l < "$room/strips.c")" -ge 20 ] && [ "$(wc -l < "$room/strips.c")" -lt 30 ]
verdict "the loop has fewer than 30 lines" $?
cat >> "$room/strips.c" << 'END'
#include <stdio.h>
enum { WIDTH = 67, HEIGHT = 141, COUNT = WIDTH * HEIGHT, BLOCKS = (WIDTH / 8) * (HEIGHT / 8) };
static uint8_t first[COUNT], second[COUNT], room[16 * WIDTH], work[COUNT];
static uint32_t costs[BLOCKS], whole[BLOCKS];
static size_t row, calls;
size_t next_strips(const uint8_t **before, const uint8_t **now)
{
    static const size_t heights[] = {0, 7, 64, 1, 13};
    const size_t few = heights[calls++ % 5], rows = few < HEIGHT - row ? few : HEIGHT - row;
    *before = first + row * WIDTH;
    *now = second + row * WIDTH;
    row += rows;
    return rows;
}
#define PLANE(samples) samples, COUNT, WIDTH, HEIGHT, WIDTH, 0
int main(void)
{
    double got[3] = {-1, -2, -3}, want[3] = {0, 0, 0};
    for (size_t i = 0; i < COUNT; i++) { first[i] = (uint8_t)(i * i / 7); second[i] = (uint8_t)(i * 31 + i / WIDTH); }
    if (measure_strips(WIDTH, 0, room, costs, got, got + 1, got + 2) != -1 || got[0] != -1 || got[1] != -2 || got[2] != -3)
        return 1;
    if (measure_strips(WIDTH, HEIGHT, room, costs, got, got + 1, got + 2) != 0 || row != HEIGHT || calls < 6)
        return 2;
    if (brine_delta(8, PLANE(first), PLANE(second), want) != 0 || brine_importance(8, PLANE(first), PLANE(second), want + 1) != 0 ||
        brine_intra_costs(8, PLANE(second), PLANE(work), whole, BLOCKS) != BLOCKS || brine_threshold(whole, BLOCKS, BLOCKS, want + 2) != 0)
        return 3;
    printf("%g %g %g, and of the whole frames %g %g %g\n", got[0], got[1], got[2], want[0], want[1], want[2]);
    return got[0] > 0 && got[1] > 0 && got[2] > 0 && got[0] == want[0] && got[1] == want[1] && got[2] == want[2] ? 0 : 4;
}
END
# shellcheck disable=SC2086 # words
$COMPILER -std=c11 -Wall -Wextra -Werror -O2 -I"$build/include" $STATIC -o "$room/strips" "$room/strips.c" "$ARCHIVE" > "$room/log" 2>&1
verdict "the loop compiles without a warning" $?
$RUN "$room/strips" > "$room/log" 2>&1
verdict "the loop gives the measures of the whole frames" $?

# The recorder's loop of docs/FORMATS.md, as it stands there: run again over a torn rest it refuses the numbers that are there.
awk '/^## /{ in_it = /^## A recorder/ } in_it && /^    / { print substr($0, 5) } in_it && /^$/' "$root/docs/FORMATS.md" \
    > "$room/recorder.c"
# shellcheck disable=SC2086 # words
$COMPILER -std=c11 -D_POSIX_C_SOURCE=200809L -Wall -Wextra -Werror -I"$build/include" $STATIC -o "$room/recorder" \
    "$room/recorder.c" "$ARCHIVE" > "$room/log" 2>&1
verdict "the recorder's loop compiles" $?
printf 'SC torn' > "$room/scores"
$RUN "$room/recorder" "$room/scores" && [ "$(wc -c < "$room/scores")" = 141 ] && cp "$room/scores" "$room/kept"
verdict "the recorder's loop goes over a torn rest" $?
! $RUN "$room/recorder" "$room/scores" && cmp -s "$room/scores" "$room/kept"
verdict "the recorder's loop is refused, and the log stays" $?

count
