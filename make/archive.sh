#!/bin/sh
# Proves the library and makes its archive, from the repository's root.   archive.sh TARGET OUT.a LOG
# For both targets it is the one that the toolchain gives, untouched.
set -eu
target=$1 out=$2 log=$3 rt=${RT:-rt}
here=$(dirname "$0")
command -v "$rt" > /dev/null 2>&1 || {
    echo "make: the Rattle toolchain is needed: there is no '$rt' on the path" >&2
    exit 2
}
mkdir -p "$(dirname "$out")" "$(dirname "$log")"

# Two proofs in one folder would write the same files: the second waits.
if command -v flock > /dev/null 2>&1; then
    exec 9> build/prove.lock
    flock -n 9 || { echo 'make: another make proves in this folder; waiting for it'; flock 9; }
fi

# For every x86-64 processor: where it is told none, rt compiles for x86-64-v2, whose instructions the oldest lack.
case $target in
    x86_64) "$here/prove.sh" "$log" --cpu x86-64 ;;
    *) "$here/prove.sh" "$log" --target "$target-unknown-linux-gnu" ;;
esac
cp crates/brinepulley_c/out/libbrinepulley_c.a "$out"
