#!/bin/sh
# Tests of the build itself: what is installed and removed, what is said before something is installed, what the proof shows.
# MAKE, TARGET, MACHINE, COMPILER, CFLAGS, LDFLAGS, STATIC and RUN come from the Makefile. Its last line is 'N passed, M failed'.
set -u
SUITE=build
. "$(dirname "$0")/verdict.sh"
root=$(cd "$(dirname "$0")/.." && pwd -P)
. "$(dirname "$0")/quick.sh"

# A make of its own, not a part of the one that runs the tests, for the same target with the same compiler.
maker() {
    (
        unset MAKEFLAGS MFLAGS MAKELEVEL MAKEOVERRIDES
        "$MAKE" -C "$root" TARGET="$TARGET" MACHINE="$MACHINE" C_COMPILER="$COMPILER" CFLAGS="$CFLAGS" LDFLAGS="$LDFLAGS" "$@"
    ) > "$room/log" 2>&1
}

# The files under FOLDER are these.
holds() { # FOLDER FILE..
    folder=$1
    shift
    (cd "$folder" && find . -type f | sort) > "$room/found"
    for file in "$@"; do echo "./$file"; done | sort > "$room/wanted"
    diff "$room/wanted" "$room/found" > "$room/log" 2>&1
}

library='include/brinepulley.h lib/libbrinepulley.a lib/pkgconfig/brinepulley.pc'
program='bin/brinepulley share/man/man1/brinepulley.1'
there=$(cd "$room" && pwd -P)/there
mkdir "$there"

# The halves, and the whole, below DESTDIR.
# shellcheck disable=SC2086 # words
{
    maker install-lib PREFIX="$there" DESTDIR= && holds "$there" $library
    verdict "install-lib" $?
    maker uninstall PREFIX="$there" DESTDIR= && holds "$there"
    verdict "uninstall where only the library is" $?
    maker install-command PREFIX="$there" DESTDIR= && holds "$there" $program
    verdict "install-command" $?
    maker install PREFIX="$there" DESTDIR= && holds "$there" $library $program
    verdict "install" $?
    maker install PREFIX=/opt/here DESTDIR="$room/stage" && holds "$room/stage/opt/here" $library $program
    verdict "install below DESTDIR" $?
    maker uninstall PREFIX=/opt/here DESTDIR="$room/stage" && holds "$room/stage"
    verdict "uninstall below DESTDIR" $?
}

# What is installed works from where it is.
version=$(sed -n 's/^Version: //p' "$there/lib/pkgconfig/brinepulley.pc")
[ -n "$version" ] && [ "$($RUN "$there/bin/brinepulley" --version 2> "$room/log")" = "brinepulley $version" ]
verdict "the installed command" $?
[ -s "$there/share/man/man1/brinepulley.1" ] && grep -q '^\.TH' "$there/share/man/man1/brinepulley.1"
verdict "the installed manual page" $?
mkdir "$room/elsewhere"
quick_start "$room/elsewhere" "$there/lib/pkgconfig"
verdict "the quick start with what is installed" $?
if command -v pkg-config > /dev/null 2>&1; then
    flags=$(PKG_CONFIG_PATH=$there/lib/pkgconfig pkg-config --cflags brinepulley 2> "$room/log" | sed 's/^-I//; s/ *$//')
    [ -n "$flags" ] && [ "$(cd "$flags" && pwd -P)" = "$there/include" ]
    verdict "the pkg-config file finds its own prefix" $?
fi
case $TARGET in x86_64) words='by the toolchain that proved it' ;; *) words='vouches for x86-64 alone' ;; esac
grep "^Description: .*$words" "$there/lib/pkgconfig/brinepulley.pc" > "$room/log"
verdict "the pkg-config file says who vouches" $?

# Others' files stay.
echo other > "$there/lib/pkgconfig/other.pc"
maker uninstall PREFIX="$there" DESTDIR= && holds "$there" lib/pkgconfig/other.pc
verdict "uninstall leaves others' files" $?

! maker TARGET=riscv64 lib && grep -q 'TARGET=x86_64 may be tried' "$room/log"
verdict "a target that is none" $?

. "$(dirname "$0")/build-needs.sh"
. "$(dirname "$0")/build-proof.sh"

count
