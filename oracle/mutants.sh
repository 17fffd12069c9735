#!/bin/sh
# Builds the oracle with each mutant and runs the comparison, which must fail.   mutants.sh OUT SEED COUNT RUN..
# RUN is the command that runs the driver. A line for each: the rule, and which comparisons fail, how many of each.
set -eu
here=$(cd "$(dirname "$0")" && pwd -P)
out=$1 seed=$2 count=$3
shift 3
# The walk that goes on has the same answers: once the least is below 0 it becomes 0, and so does every later one.
equivalent=" walk-goes-on "
# This wants a call with just two faults, which is seldom drawn: the fixed list has a line for it (list_mutants.sh).
listed=" order-8-9 "
caught=0 survived=0 wrong=0
echo "| Mutant | What it breaks | Comparisons that fail |"
echo "|---|---|---|"
for name in ${MUTANTS:-$(sed -n 's/^name: //p' "$here/mutants.txt")}; do
    rule=$(awk -v name="$name" '$1 == "name:" { on = $2 == name } on && $1 == "rule:" { sub(/^rule: /, ""); print }' "$here/mutants.txt")
    MUTANT=$name "$here/build.sh" mutant "$out" >"$out.log" 2>&1 || { cat "$out.log" >&2; exit 2; }
    "$out/oracle" "$seed" "$count" 2>/dev/null | "$@" >"$out.log" 2>&1 || true
    case $(tail -n 1 "$out.log") in
    *" passed, "*" failed") ;;
    *) echo "mutants: $name: the comparison did not end" >&2; exit 2 ;;
    esac
    first=$(sed -n 's/^failed: \(.*\)/\1/p' "$out.log" | paste -sd, - | sed 's/,/, /g')
    case $first in
    "") first="nothing"; survived=$((survived + 1)); case $equivalent$listed in *" $name "*) ;; *) wrong=$((wrong + 1)) ;; esac ;;
    *) caught=$((caught + 1)) ;;
    esac
    echo "| $name | $rule | $first |"
done
echo
echo "mutants: $caught caught, $survived survived, $wrong of them without a reason"
[ $wrong -eq 0 ]
