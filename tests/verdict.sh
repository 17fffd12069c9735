# What the shell tests share: a room for their files, the count, and the last line, 'N passed, M failed'.
# SUITE is the name that stands before a failed test's own.
room=$(mktemp -d) || exit 1
trap 'rm -rf "$room"' EXIT
passed=0
failed=0

# A test holds if STATUS is 0. What it left in the room is shown if it does not.
verdict() { # NAME STATUS
    if [ "$2" = 0 ]; then
        passed=$((passed + 1))
    else
        failed=$((failed + 1))
        echo "FAILED: $SUITE: $1" >&2
        cat "$room/log" "$room/err" "$room/out" 2> /dev/null | head -n 20 | sed 's/^/    /' >&2
    fi
}

count() {
    echo "$passed passed, $failed failed"
    [ "$failed" = 0 ]
}
