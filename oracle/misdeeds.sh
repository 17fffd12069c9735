#!/bin/sh
# Runs the comparison against the library with each misdeed of misdeeds.c, misdeeds16.c and misdeeds_strips.c, which it must find.
#   misdeeds.sh ORACLE SEED COUNT RUN..     RUN is the command that runs the driver with the misdeeds linked in
# A line for each: which comparisons fail, how many of each.
set -eu
here=$(cd "$(dirname "$0")" && pwd -P)
oracle=$1 seed=$2 count=$3
shift 3
cases=$(mktemp)
trap 'rm -f "$cases" "$cases.log"' EXIT
"$oracle" "$seed" "$count" >"$cases" 2>/dev/null

# With no misdeed nothing fails: what is found below is the misdeed's.
"$@" <"$cases" >"$cases.log" || { cat "$cases.log" >&2; exit 2; }
found=0 missed=0
echo "| Misdeed | Comparisons that fail |"
echo "|---|---|"
for name in $(sed -n 's/.*does("\([^"]*\)").*/\1/p' "$here/misdeeds.c" "$here/misdeeds16.c" \
    "$here/misdeeds_strips.c"); do
    MISDEED=$name "$@" <"$cases" >"$cases.log" 2>&1 || true
    case $(tail -n 1 "$cases.log") in
    *" passed, "*" failed") ;;
    *) echo "misdeeds: $name: the comparison did not end" >&2; exit 2 ;;
    esac
    what=$(sed -n -e 's/^failed: \(.*\)/\1/p' -e 's/^record .*: \(signal .*\)/\1/p' "$cases.log" | paste -sd, - | sed 's/,/, /g')
    case $what in
    "") what="nothing"; missed=$((missed + 1)) ;;
    *) found=$((found + 1)) ;;
    esac
    echo "| $name | $what |"
done
echo
echo "misdeeds: $found found, $missed missed"
[ $missed -eq 0 ]
