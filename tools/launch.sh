#!/bin/sh
# Proves and runs the programs of this repository. They are for x86-64, elsewhere under an emulator.
#   sh tools/launch.sh NAME [ARG ..]    proves a program and what it needs, where that is not done yet, and runs it in this folder
#   sh tools/launch.sh --words          prints what a program's file is to follow on a command line, a word to a line: nothing on x86-64
# A script that sets $root to this repository can source it, for `prove NAME` and `launch FILE [ARG ..]`. EMULATOR names another emulator.
# `prove NAME` leaves the program as target/bin/NAME. rt builds a program by running it: once, with no arguments and no input, in its crate's folder.
# A program does not set its exit status by what it answers, so its output is read as it is passed on. Status: 0 it ran; 1 its last line says `refused ..`;
# 2 the set-up is broken (no rt, not proved), or the program was ended from outside.

broken() {
    echo "launch: $*" >&2
    exit 2
}

# One at a time, so that two programs in a pipe do not prove over each other.
prove() {
    built=$root/crates/$1/out/$1
    [ -d "$root/crates/$1" ] || broken "there is no program $1"
    said=$(mktemp) || broken "no folder for what rt says"
    rm -f "$built"
    (cd "$root/crates/$1" && flock "$root/crates.txt" rt run </dev/null >/dev/null 2>"$said") || :
    if [ ! -x "$built" ]; then
        cat "$said" >&2
        rm -f "$said"
        broken "$1 is not proved"
    fi
    rm -f "$said"
    mkdir -p "$root/target/bin"
    cp "$built" "$root/target/bin/$1"
}

# line COMMAND [FILE ARG ..]: the command is given the whole line that runs a program
line() {
    given=$1
    shift
    # shellcheck disable=SC2086 # words on purpose
    set -- ${EMULATOR:-$emulator} "$@"
    "$given" "$@"
}

words() { [ $# -eq 0 ] || printf '%s\n' "$@"; }

run() {
    ended=0
    "$@" || ended=$?
    echo "$ended" >"$launched/status"
}

launch() {
    launched=$(mktemp -d) || broken "no folder for what the program prints"
    trap 'rm -rf "$launched"' EXIT
    trap 'exit 2' HUP INT TERM
    line run "$@" | tee "$launched/output"
    ended=$(cat "$launched/status")
    [ "$ended" = 0 ] || broken "$1 ended with status $ended"
    case $(tail -n 1 "$launched/output") in 'refused '*) return 1 ;; esac
}

command -v rt >/dev/null || broken "rt is not on the PATH: the Rattle kit is needed"
emulator=
[ "$(uname -m)" = x86_64 ] || emulator=qemu-x86_64

if [ "${0##*/}" = launch.sh ]; then
    [ $# -gt 0 ] || broken "usage: sh tools/launch.sh NAME [ARG ..]"
    root=$(cd "$(dirname "$0")/.." && pwd)
    if [ "$1" = --words ]; then
        line words
        exit
    fi
    name=$1
    shift
    prove "$name"
    launch "$root/target/bin/$name" "$@"
fi
