#!/bin/sh
# Builds the C example over the proved C calls, runs it, and compares what it prints with board/night.expected.
#   sh board/run.sh
# Needs the Rattle kit (`rt` on the PATH) and a C compiler for x86-64: cc on an x86-64 machine, elsewhere Debian's cross compiler
# (apt-get install gcc-x86-64-linux-gnu libc6-dev-amd64-cross), whose program runs under an emulator. CC=... names another compiler.
# Exit status: 0 as expected, 1 not, 2 the set-up is broken.
set -eu
root=$(cd "$(dirname "$0")/.." && pwd)
cd "$root"
if [ "$(uname -m)" = x86_64 ]; then compiler=${CC:-cc}; else compiler=${CC:-x86_64-linux-gnu-gcc}; fi
if ! command -v "$compiler" >/dev/null; then
    echo "board/run.sh: no $compiler here. The archive of the C calls is for x86-64 Linux:" >&2
    echo "  on x86-64 install a C compiler (apt-get install gcc libc6-dev);" >&2
    echo "  elsewhere the cross compiler (apt-get install gcc-x86-64-linux-gnu libc6-dev-amd64-cross)." >&2
    exit 2
fi
command -v rt >/dev/null || { echo "board/run.sh: rt is not on the PATH: the Rattle kit is needed" >&2; exit 2; }
(cd crates/board_c && rt lib) </dev/null >&2 || { echo "board/run.sh: board_c is not proved" >&2; exit 2; }
built=target/board
mkdir -p "$built" target/staticlib
cp crates/board_c/out/libboard_c.a target/staticlib/libboard.a
"$compiler" -std=c99 -O2 -Wall -Wextra -Wpedantic -Werror -Iboard -o "$built/night" board/night.c target/staticlib/libboard.a
# a compiler's own program: under an emulator where the machine is of another kind
if [ "$(uname -m)" = x86_64 ]; then
    "$built/night" >"$built/night.out"
else
    . "$root/tools/launch.sh"
    launch "$built/night" >"$built/night.out"
fi
cat "$built/night.out"
if ! cmp "$built/night.out" board/night.expected; then
    echo "board/run.sh: FAILED: what the program printed is not board/night.expected" >&2
    exit 1
fi
echo "board/run.sh: ok, as expected" >&2
