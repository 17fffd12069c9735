#!/bin/sh
# Makes the fixed list with each mutant and gives it to `replay`, which must fail.   list_mutants.sh OUT SEED LIST RUN..
# RUN is the command that runs `replay`. A mutant may stop the maker; only one that has the same answers, or whose answers the list
# does not say, may make the very list of the repository.
set -eu
here=$(cd "$(dirname "$0")" && pwd -P)
out=$1 seed=$2 list=$3
shift 3
# See mutants.sh.
equivalent=" walk-goes-on "
# What stands in pair numbers past the count is not in the list: there `replay` compares that it stays.
unlisted=" pair-fresh pair-past-count "
fails=0 stops=0 same=0 missed=0
for name in ${MUTANTS:-$(sed -n 's/^name: //p' "$here/mutants.txt")}; do
    MUTANT=$name "$here/build.sh" mutant "$out" >"$out.log" 2>&1 || { cat "$out.log" >&2; exit 2; }
    # The crate and the reading differ where only one of them has the mutant: that is no reason to stop here.
    "$out/oracle" list "$seed" >"$out.list" 2>"$out.log" || true
    if ! tail -n 1 "$out.list" | grep -q ' E$'; then
        stops=$((stops + 1)); echo "$name: makes no list"
    elif cmp -s "$out.list" "$list"; then
        echo "$name: makes the same list"
        case $equivalent$unlisted in *" $name "*) same=$((same + 1)) ;; *) missed=$((missed + 1)) ;; esac
    elif "$@" <"$out.list" | tail -n 1 | grep -q ' passed, 0 failed$'; then
        missed=$((missed + 1)); echo "$name: MISSED"
    else
        fails=$((fails + 1))
    fi
done
echo "list mutants: replay fails on $fails, $stops make no list, $same the same one, $missed missed"
[ $missed -eq 0 ]
