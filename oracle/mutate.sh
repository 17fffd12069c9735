#!/bin/sh
# Applies one mutant of mutants.txt to a copy of the sources.   mutate.sh NAME OUT
set -eu
here=$(cd "$(dirname "$0")" && pwd -P)
name=$1 out=$2
field() { awk -v name="$name" -v key="$1:" '$1 == "name:" { on = $2 == name } on && $1 == key { sub(/^[a-z]+: /, ""); print; exit }' "$here/mutants.txt"; }
file=$(field file) edit=$(field edit)
[ -n "$file" ] || { echo "mutate: no mutant $name" >&2; exit 2; }
changed=0
for copy in "$out/scenes/$file" "$out/fed/$file" "$out/$file"; do
    [ -f "$copy" ] || continue
    case $copy in */fed/analyze/standard.rs) continue ;; esac
    cp "$copy" "$copy.before"
    sed -i "$edit" "$copy"
    lines=$(diff "$copy.before" "$copy" | grep -c '^[<>]' || true)
    rm "$copy.before"
    [ "$lines" = 2 ] || { echo "mutate: $name changes $lines lines of $file, not one" >&2; exit 2; }
    changed=1
done
[ $changed = 1 ] || { echo "mutate: $file is not there" >&2; exit 2; }
