#!/bin/sh
# Runs the night program: proves it and what it needs where that is not done yet, then runs it.
#   bash night.sh                                       the shipped example, in the fresh folder night/out
#   bash night.sh [--area FILE] [--log FILE] [--] IMAGE SESSION N R STATE OUTPUT
#                                                       on files of the caller's; to go on, STATE.rest is the next SESSION
# Needs the Rattle kit: `rt` on the PATH. docs/NIGHT.md explains the files, the lines and the refusals. Exit status: tools/launch.sh.
set -eu
root=$(cd "$(dirname "$0")" && pwd)
. "$root/tools/launch.sh"
prove night
if [ $# -eq 0 ]; then
    rm -rf "$root/night/out"
    cp -r "$root/crates/night/data" "$root/night/out"
    cd "$root/night/out"
    while IFS= read -r word || [ -n "$word" ]; do set -- "$@" "$word"; done <"$root/crates/night/args"
    echo "files in $root/night/out" >&2
fi
launch "$root/target/bin/night" "$@"
