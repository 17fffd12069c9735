# Part of build.sh: make/compiler.sh, with an apt-get that installs nothing and says when it is called.
few=$room/few
mkdir "$few"
for name in sh env mktemp paste rm sed; do ln -s "$(command -v "$name")" "$few/$name"; done
fake() { # NAME TEXT
    printf '#!/bin/sh\n%s\n' "$2" > "$few/$1"
    chmod +x "$few/$1"
}
fake apt-get 'echo "apt-get $*" >&2'
fake id 'echo 0'

# Status and words of compiler.sh where only these few programs are, and INSTALL is as given.
needs() { # INSTALL ARGUMENTS..
    install=$1
    shift
    env PATH="$few" INSTALL="$install" sh "$root/make/compiler.sh" "$@" > "$room/out" 2> "$room/err"
    status=$?
}

# It ended with status 1, said the words, and called no apt-get.
refused() { # WORDS
    [ "$status" = 1 ] && grep -q -- "$1" "$room/err" && ! grep -q '^apt-get' "$room/err"
}

arm='gcc-aarch64-linux-gnu libc6-dev-arm64-cross qemu-user'
intel='gcc-x86-64-linux-gnu libc6-dev-amd64-cross'
needs '' aarch64 aarch64 no-such-cc
refused 'sudo apt-get install --no-install-recommends gcc libc6-dev$'
verdict "the machine's own compiler is named and not installed" $?
needs no aarch64 x86_64 no-such-cc no-such-qemu
refused "by hand: sudo apt-get install --no-install-recommends $arm\$" && grep -q 'INSTALL=no: nothing was installed' "$room/err"
verdict "INSTALL=no stops, for Arm" $?
needs no x86_64 aarch64 no-such-cc no-such-qemu
refused "by hand: sudo apt-get install --no-install-recommends $intel qemu-user\$"
verdict "INSTALL=no stops, for x86-64" $?

# It says what it will do, then does it, and looks whether it helped.
needs '' x86_64 aarch64 no-such-cc
grep -n '' "$room/err" > "$room/log"
[ "$status" = 1 ] && grep -q "^1:make: TARGET=x86_64 on this machine needs ${intel% *} and ${intel#* }; by hand: " "$room/log" &&
    grep -q '^2:make: installing them now (INSTALL=no stops here)$' "$room/log" && grep -q '^3:apt-get update' "$room/log" &&
    [ "$(tail -n 1 "$room/err")" = "make: still missing: $intel" ]
verdict "what is installed is said before" $?

# Without root and without sudo; and without apt-get.
fake id 'echo 1000'
needs '' x86_64 aarch64 no-such-cc
refused 'there is no sudo: nothing was installed'
verdict "no root and no sudo" $?
rm "$few/apt-get"
needs '' x86_64 aarch64 no-such-cc
refused 'there is no apt-get here: nothing was installed'
verdict "no apt-get" $?

# A compiler that is there, but for another machine.
fake small '[ "$1" != -dumpmachine ] || echo arm-linux-gnueabihf'
needs '' aarch64 aarch64 small
refused "'small' compiles for arm-linux-gnueabihf, not for aarch64"
verdict "a compiler for another machine" $?
# shellcheck disable=SC2086 # RUN may be empty
sh "$root/make/compiler.sh" "$TARGET" "$MACHINE" "$COMPILER" $RUN > "$room/log" 2>&1 && [ ! -s "$room/log" ]
verdict "nothing is said where nothing is missing" $?
