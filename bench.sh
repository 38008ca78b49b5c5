#!/bin/sh
# Runs 01's bench program: proves it and what it needs where that is not done yet, then runs it on an input.
#   bash bench.sh            the shipped example, crates/bench/stdin
#   bash bench.sh FILE       any input; '-' is standard input
# Needs the Rattle kit: `rt` on the PATH. tools/bench_input.py assembles an input from a readable form. Exit status: tools/launch.sh.
set -eu
root=$(cd "$(dirname "$0")" && pwd)
. "$root/tools/launch.sh"
case ${1:-} in '') input=$root/crates/bench/stdin ;; *) input=$1 ;; esac
if [ "$input" != - ]; then
    [ -r "$input" ] || broken "$input cannot be read"
    exec <"$input"
fi
prove bench
launch "$root/target/bin/bench"
