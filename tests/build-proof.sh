# Part of build.sh: make/prove.sh, with an rt that proves nothing and says what rt says.
cat > "$room/rt" << 'END'
#!/bin/sh
echo "rt: answer: begins with what a check kept in /there/crates/answer" >&2
echo "rt: chose --jobs 2 for sums"
echo "a note of the prover"
echo "logic=proved functions=6"
[ "$RT_ENDS" = 0 ] || {
    echo "rt: chose --jobs 2 for score_log"
    echo "fn score_log::scan: not proved"
    echo "library answer: modules loaded=20 checked=0"
    echo "logic=not-proved"
    exit "$RT_ENDS"
}
echo "rt: chose --jobs 4 for ${PWD##*/}"
echo "logic=proved functions=27, by rt $*"
END
chmod +x "$room/rt"

proof() { # STATUS OF RT
    (cd "$root" && RT=$room/rt RT_ENDS=$1 sh make/prove.sh "$room/notes" --cpu x) > "$room/out" 2> "$room/err"
    status=$?
}

proof 0
crates=$(sed -n '1s/^proving \([0-9]*\) crates, .*/\1/p' "$room/out")
cat > "$room/wanted" << END
proving $crates crates, a few minutes the first time; the prover's notes go to $room/notes
  sums proved (N s)
  brinepulley_c proved (N s)
  proved before and not changed since: $((crates - 2))
END
sed 's/([0-9]* s)$/(N s)/' "$room/out" > "$room/shown"
[ "$status" = 0 ] && [ ! -s "$room/err" ] && diff "$room/wanted" "$room/shown" > "$room/log"
verdict "the proof: a line for each crate" $?
[ "$(wc -l < "$room/notes")" = 6 ] && grep -qx 'a note of the prover' "$room/notes" && grep -q ', by rt lib --cpu x$' "$room/notes"
verdict "the proof: the notes are in the file" $?
proof 3
[ "$status" = 3 ] && grep -Eqx '  score_log NOT PROVED \([0-9]+ s\)' "$room/out" && ! grep -q 'brinepulley_c\|not changed' "$room/out" &&
    grep -qF "The last lines of $room/notes" "$room/err" && grep -qx '    a note of the prover' "$room/err" &&
    grep -qx '    fn score_log::scan: not proved' "$room/err" && ! grep -q 'modules loaded' "$room/err"
verdict "the proof: it fails as rt does, and shows why" $?
(cd "$root" && RT=$room/no-rt sh make/archive.sh "$TARGET" "$room/none/x.a" "$room/notes") > "$room/out" 2> "$room/err"
[ $? = 2 ] && [ ! -d "$room/none" ] && grep -q "there is no '$room/no-rt' on the path" "$room/err"
verdict "the proof: no toolchain" $?
