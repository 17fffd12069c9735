#!/bin/sh
# Tests of the command: exit statuses, messages, answers. RUN, COMMAND, WATCHED, FILM and COMPILER come from the Makefile.
# Its last line is 'N passed, M failed'.
set -u
SUITE=command
. "$(dirname "$0")/verdict.sh"

# Runs the command; status, out and err are what came of it.
command_run() {
    $RUN "$COMMAND" "$@" > "$room/out" 2> "$room/err"
    status=$?
}

film() { $RUN "$FILM" "$@"; }
. "$(dirname "$0")/films.sh"

# A number of the header by its name.
size() {
    text=$(printf '#include "brinepulley.h"\n%s\n' "$1" | $COMPILER -E -P -I"$(dirname "$0")/../include" - | tail -n 1)
    echo $((text))
}

# The command ends with STATUS, says WORDS on the standard error, and writes nothing to the standard output.
ends() { # NAME STATUS WORDS ARGUMENTS..
    name=$1 want=$2 words=$3
    shift 3
    command_run "$@"
    [ "$status" = "$want" ] && grep -q -- "$words" "$room/err" && [ ! -s "$room/out" ]
    verdict "$name" $?
}

# The command ends with STATUS and says WORDS. The lines that were decided before stand on the standard output, whole: LINES of them,
# and one with the columns' names.
breaks() { # NAME STATUS WORDS LINES ARGUMENTS..
    name=$1 want=$2 words=$3 lines=$4
    shift 4
    command_run "$@"
    [ "$status" = "$want" ] && grep -q -- "$words" "$room/err" && [ "$(wc -l < "$room/out")" = $((lines + 1)) ] &&
        [ "$(tail -c 1 "$room/out" | od -An -c | tr -d ' ')" = '\n' ] && ! grep -q 'frames, ' "$room/out"
    verdict "$name" $?
}

# The command succeeds, says nothing on the standard error, and its output is the file WANT.
gives() { # NAME WANT ARGUMENTS..
    name=$1 want=$2
    shift 2
    command_run "$@"
    [ "$status" = 0 ] && [ ! -s "$room/err" ] && cmp -s "$want" "$room/out"
    verdict "$name" $?
}

# The frames that the CSV in the last output says are cuts, in one line.
cuts() { awk -F, 'NR > 1 && $2 == 1 { printf "%s%s", sep, $1; sep = " " }' "$room/out"; }

cuts_at() { # NAME WANT ARGUMENTS..
    name=$1 want=$2
    shift 2
    command_run decide --csv "$@"
    [ "$status" = 0 ] && [ "$(cuts)" = "$want" ]
    verdict "$name" $?
}

. "$(dirname "$0")/command-usage.sh"
. "$(dirname "$0")/command-files.sh"
. "$(dirname "$0")/command-answers.sh"
. "$(dirname "$0")/command-reduced.sh"
. "$(dirname "$0")/command-blocks.sh"
. "$(dirname "$0")/command-deep.sh"
. "$(dirname "$0")/command-encoders.sh"
. "$(dirname "$0")/command-limits.sh"
. "$(dirname "$0")/command-log.sh"
. "$(dirname "$0")/command-power.sh"
. "$(dirname "$0")/command-calls.sh"
. "$(dirname "$0")/command-forms.sh"
. "$(dirname "$0")/command-pairs.sh"
. "$(dirname "$0")/command-strips.sh"
. "$(dirname "$0")/command-stream.sh"

count
