#!/bin/sh
# Builds the oracle by plain rustc, from the crate's published files over the shims.
#   build.sh KIND OUT       KIND: checks (overflow checks, assertions), release, or mutant (quick to build); OUT: a folder
# ORACLE_SRC names the folder that holds the published src/. MUTANT, a name of mutants.txt, changes one line of the copy.
# BRINE_HEADER is the library's header, from which src/sizes.rs takes the sizes of a state.
# What was compiled is compared byte for byte with what is published; without a mutant no difference is allowed.
set -eu
here=$(cd "$(dirname "$0")" && pwd -P)
kind=$1 out=$2
published=${ORACLE_SRC:-$here/../../shared/docs/src}/src
mutant=${MUTANT:-}
export BRINE_HEADER="${BRINE_HEADER:-$here/../include/brinepulley.h}"
[ -f "$published/analyze.rs" ] || { echo "oracle: no published files in $published; set ORACLE_SRC" >&2; exit 2; }
case $kind in
checks) flags="-C opt-level=1 -C overflow-checks=on -C debug-assertions=on" ;;
release) flags="-C opt-level=3" ;;
mutant) flags="-C opt-level=0" ;;
*) echo "oracle: unknown kind $kind" >&2; exit 2 ;;
esac
mkdir -p "$out"
rust() { rustc --edition 2024 -L "$out" --out-dir "$out" $flags "$@"; }

# One tree for each of the two crates: published files, the missing modules, and for the fed one its own standard.rs.
for name in scenes fed; do
    tree=$out/$name
    rm -rf "$tree" && mkdir -p "$tree"
    cp -R "$published/." "$tree/"
    cp -R "$here/missing/." "$tree/"
    [ $name = scenes ] || cp -R "$here/fed/." "$tree/"
done
rm -rf "$out/src" && cp -R "$here/src" "$out/src"
lints="-D warnings"
[ -z "$mutant" ] || { "$here/mutate.sh" "$mutant" "$out"; lints="--cap-lints allow"; }

# Compiles the library $name from a file, unless nothing that it is made from has changed since it was compiled.
library() {
    file=$1
    shift
    sum=$(find "$here/build.sh" "$here/shims" "$@" -type f | sort | xargs cat | cksum)
    if [ -f "$out/lib$name.rlib" ] && [ "$sum" = "$(cat "$out/$name.sum" 2>/dev/null)" ]; then return; fi
    rm -f "$out/$name.sum"
    rust --crate-type rlib --crate-name $name $with --cap-lints allow --cfg 'feature="bench-internals"' \
        --emit link,dep-info "$file"
    echo "$sum" >"$out/$name.sum"
}

with=
for name in log num_rational cfg_if aligned rayon arrayvec anyhow v_frame av_decoders; do
    library "$here/shims/$name.rs"
    with="$with --extern $name=$out/lib$name.rlib"
done
for name in scenes fed; do
    library "$out/$name/lib.rs" "$out/$name"
done
rust --crate-type bin --crate-name oracle $with --extern scenes=$out/libscenes.rlib --extern fed=$out/libfed.rlib $lints "$out/src/main.rs"

# Every published file was compiled, and every compiled file that is not ours is the published text, byte for byte. What is
# ours stands in place of no published file, but for the one that feeds the measures.
files=0 different=0
fail() { different=$((different + 1)); echo "oracle: $1" >&2; }
for file in $(cd "$here/missing" && find . -type f); do
    [ ! -f "$published/$file" ] || fail "$file stands in place of a published file"
done
for file in $(cd "$published" && find . -name '*.rs'); do
    part=${file#./}
    for name in scenes fed; do
        if [ $name = fed ] && [ "$part" = analyze/standard.rs ]; then continue; fi
        files=$((files + 1))
        grep -q "^$out/$name/$part:\$" "$out/$name.d" || fail "$part was not compiled"
        cmp -s "$out/$name/$part" "$published/$part" || fail "$part is not as published"
    done
done
[ $files -gt 0 ] || { echo "oracle: no compiled file was found to compare" >&2; exit 1; }
if [ -z "$mutant" ] && [ $different -ne 0 ]; then rm -f "$out/oracle"; exit 1; fi
echo "oracle: $kind build; $files compiled files compared with the published text, $different differ"
