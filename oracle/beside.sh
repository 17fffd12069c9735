#!/bin/sh
# Runs both builds of the oracle against the library, and whole films against the command.
#   beside.sh SEED COUNT ORACLES OUT COMMAND DRIVER [EMULATOR]     ORACLES: the folder of both; OUT: for what the runs leave
# Ends with 'N passed, 0 failed', or fails. A difference between the crate and the reading of document 01 fails too.
set -eu
here=$(cd "$(dirname "$0")" && pwd -P)
seed=$1 count=$2 oracles=$3 out=$4 command=$5 driver=$6 emulator=${7:-}
passed=0 failed=0

# Adds the last line of a file, 'N passed, M failed'.
add() {
    last=$(tail -n 1 "$1")
    case $last in
    *" passed, "*" failed") ;;
    *) echo "beside: the comparison did not end"; last="0 passed, 1 failed" ;;
    esac
    # A part that compared nothing shows nothing.
    case $last in "0 passed, 0 failed") echo "beside: nothing was compared"; last="0 passed, 1 failed" ;; esac
    passed=$((passed + ${last%% passed*}))
    last=${last#* passed, }
    failed=$((failed + ${last% failed}))
}

for kind in checks release; do
    echo "== the library beside the crate, built with $kind =="
    rm -f "$out/status"
    { "$oracles/$kind/oracle" "$seed" "$count" 2>"$out/$kind.log" || echo $? >"$out/status"; } |
        $emulator "$driver" >"$out/$kind.txt" || true
    cat "$out/$kind.log" "$out/$kind.txt"
    add "$out/$kind.txt"
    [ ! -f "$out/status" ] || { echo "beside: the oracle itself failed ($(cat "$out/status"))"; failed=$((failed + 1)); }
done
echo "== the command beside the crate's own driver: whole films of 8 bits, and of 10 and 12 =="
for bits in "" 16; do
    "$here/decide.sh" "$oracles/release/oracle" "$bits" "$seed" "${FILMS:-50}" "$out/decide" $emulator "$command" >"$out/decide.txt" || true
    cat "$out/decide.txt"
    add "$out/decide.txt"
done
echo "$passed passed, $failed failed"
[ "$failed" -eq 0 ]
