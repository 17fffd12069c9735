#!/bin/sh
# The deepest stack of each function that an archive shows, a row each; frames.awk says how it is told.
#   frames.sh TARGET ARCHIVE NM OBJDUMP
set -eu
target=$1 archive=$2 nm=$3 objdump=$4
[ -f "$archive" ] || { echo "frames: no archive $archive" >&2; exit 2; }
names=$("$nm" -g --defined-only "$archive" 2> /dev/null | awk 'NF == 3 { print $3 }' | sort -u | paste -sd ' ' -)
[ -n "$names" ] || { echo "frames: $archive shows no function" >&2; exit 2; }
"$objdump" -dr --no-show-raw-insn "$archive" | awk -v machine="$target" -v exported="$names" -f "$(dirname "$0")/frames.awk"
