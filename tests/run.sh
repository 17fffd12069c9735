#!/bin/sh
# All tests in C and of the command. Its last line is 'N passed, M failed', over all parts.
set -u
here=$(dirname "$0")
room=$(mktemp -d) || exit 1
trap 'rm -rf "$room"' EXIT
passed=0
failed=0

# A part's last line is 'N passed, M failed'. One that ends otherwise, or with a bad status, counts as a failure.
part() { # NAME WORDS..
    name=$1
    shift
    "$@" > "$room/out"
    status=$?
    last=$(tail -n 1 "$room/out")
    case "$status $last" in
        '0 '*' passed, 0 failed' | '1 '*' passed, '[1-9]*' failed')
            passed=$((passed + ${last%% *}))
            rest=${last#* passed, }
            failed=$((failed + ${rest%% *}))
            ;;
        *)
            echo "FAILED: $name ended with status $status and '$last'" >&2
            failed=$((failed + 1))
            ;;
    esac
    echo "$name: $last"
}

# shellcheck disable=SC2086 # RUN may be empty
part 'library' $RUN "$CHECK"
part 'command' sh "$here/command.sh"
part 'archive' sh "$here/archive.sh"
part 'stack' sh "$here/stack.sh"
part 'build' sh "$here/build.sh"
part 'documents' sh "$here/documents.sh"
echo "$passed passed, $failed failed"
[ "$failed" = 0 ]
