#!/bin/sh
# Proves the library and writes crates/brinepulley_c/out/libbrinepulley_c.a: `rt lib WORDS` in that crate's folder.
#   prove.sh LOG WORDS..     from the repository's root
# All that the prover says goes to LOG; on the screen is a line for each crate as it is proved. The status is rt's.
set -eu
log=$1 rt=${RT:-rt} top=brinepulley_c
shift
case $rt in [!/]*/*) rt=$(pwd)/$rt ;; esac
crates=$(($(sed -n "s/^$top staticlib: *//p" crates.txt | wc -w) + 1))
echo "proving $crates crates, a few minutes the first time; the prover's notes go to $log"

tell() { # WORDS: of the crate that rt is at
    echo "  $crate $1 ($(($(date +%s) - began)) s)"
    last="$crate $1" crate=''
}

# Reads what rt says, line by line. A crate begins where its jobs are chosen and ends with its verdict; of one that was proved before
# rt says neither.
show() {
    crate='' last='' proved=0 began=$(date +%s)
    while IFS= read -r line; do
        printf '%s\n' "$line" >&3
        case $line in
        'rt: chose --jobs '*) crate=${line##* } began=$(date +%s) ;;
        'logic=proved '*) tell proved; proved=$((proved + 1)) ;;
        'logic='*) tell 'NOT PROVED' ;;
        esac
    done 3> "$log"
    [ -z "$crate" ] || tell 'NOT PROVED'
    if [ "$last" = "$top proved" ] && [ "$proved" -lt "$crates" ]; then
        echo "  proved before and not changed since: $((crates - proved))"
    fi
}

{ (cd "crates/$top" && "$rt" lib "$@") 2>&1 && echo 0 > "$log.status" || echo $? > "$log.status"; } | show
status=$(cat "$log.status")
rm -f "$log.status"
if [ "$status" != 0 ]; then
    # Without what rt counts for each crate: it says no reason.
    echo "make: the library is not proved (rt's status is $status). The last lines of $log:" >&2
    grep -Ev '^(logic|library|statements|axioms) ' "$log" | tail -n 20 | cut -c 1-400 | sed 's/^/    /' >&2
fi
exit "$status"
