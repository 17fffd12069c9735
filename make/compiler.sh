#!/bin/sh
# Sees to it that there is a C compiler for TARGET that finds its libc, and an EMULATOR if one is named.
#   compiler.sh TARGET MACHINE COMPILER [EMULATOR]
# What is missing for another machine than this one is installed from Debian. That is said before, with the line to do it by
# hand; INSTALL=no stops there. The machine's own compiler is never installed, only named.
set -eu
target=$1 machine=$2 compiler=$3 emulator=${4:-}

# What there is of it is judged by a program with libc's headers that is linked.
compiles() {
    room=$(mktemp -d) || exit 1
    printf '#include <stdio.h>\nint main(void) { return puts("") < 0; }\n' > "$room/a.c"
    $compiler -o "$room/a" "$room/a.c" > /dev/null 2>&1 && good=0 || good=1
    rm -rf "$room"
    return "$good"
}

emulates() { [ -z "$emulator" ] || command -v "$emulator" > /dev/null 2>&1; }

# What is missing, as Debian names it.
missing() {
    case $target/$machine in
    "$machine/$target") compiles || echo gcc libc6-dev ;;
    aarch64/*) compiles || echo gcc-aarch64-linux-gnu libc6-dev-arm64-cross; emulates || echo qemu-user ;;
    x86_64/*) compiles || echo gcc-x86-64-linux-gnu libc6-dev-amd64-cross; emulates || echo qemu-user ;;
    esac
}

refuse() {
    echo "make: $1" >&2
    exit 1
}

packages=$(missing | paste -sd ' ' -)
if [ -n "$packages" ]; then
    by_hand="sudo apt-get install --no-install-recommends $packages"
    if [ "$target" = "$machine" ]; then
        refuse "a C compiler is needed: '$compiler' is missing or finds no libc. On Debian: $by_hand"
    fi
    echo "make: TARGET=$target on this machine needs $(echo "$packages" | sed 's/ / and /g'); by hand: $by_hand" >&2
    [ "${INSTALL:-yes}" != no ] || refuse 'INSTALL=no: nothing was installed'
    command -v apt-get > /dev/null 2>&1 || refuse 'there is no apt-get here: nothing was installed'
    as_root=
    if [ "$(id -u)" != 0 ]; then
        as_root=sudo
        command -v sudo > /dev/null 2>&1 || refuse 'only root may install them, and there is no sudo: nothing was installed'
    fi
    echo 'make: installing them now (INSTALL=no stops here)' >&2
    $as_root apt-get update -q >&2
    # shellcheck disable=SC2086 # packages are words
    $as_root env DEBIAN_FRONTEND=noninteractive apt-get install -y -q --no-install-recommends $packages >&2
    packages=$(missing | paste -sd ' ' -)
    [ -z "$packages" ] || refuse "still missing: $packages"
fi
# A machine of 64 bits may have a compiler for 32.
made_for=$($compiler -dumpmachine 2> /dev/null || echo "$target")
case $made_for in "$target"*) ;; *) refuse "'$compiler' compiles for $made_for, not for $target" ;; esac
emulates || refuse "the emulator $emulator is missing"
