#!/bin/bash
# How the bench program's work grows: x86-64 instructions executed, from its start to its end.
#   bash benchmarks/growth.sh
# The bench program takes at most 16,384 bytes, so it is given 1,600 records at most. For longer sessions name a program in SESSIONS
# that takes a number of records as its argument, runs the library on such a session (a wait, a port 1 record every ten cycles)
# and prints a line with `used K`: its rows for 10 to 100,000 records are then added.
set -eu
. "$(dirname "$0")/common.sh"
build
row() { printf '%-28s %12s %16s %16s\n' "$@"; }

row 'one wait' cycles executed 'more for each'
before=
for n in 1000 1000000 1000000000; do
  printf 'load E000 3E\nload FFFE E0 00\nrun %s 65536\n' $n >"$work/wait.txt"
  python3 "$root/tools/bench_input.py" "$work/wait.txt" >"$work/wait.in"
  executed=$(count "$work/wait.in" $ours)
  row '' "$(field cycles)" "$executed" "${before:+$((executed - before)) in all}"
  before=$executed
done

row 'straight code' instr executed 'more for each'
before= instr=
for n in 100000 1000000 10000000; do
  from=$(input straight $n)
  executed=$(count "$from" $ours)
  now=$(field instr)
  row '' "$now" "$executed" "${before:+$(awk -v e=$((executed - before)) -v k=$((now - instr)) 'BEGIN { printf "%.1f", e / k }' </dev/null)}"
  before=$executed instr=$now
done

# Records while the machine waits, ten cycles apart: each ends a leap.
row 'records in a wait' used executed 'more for each'
before= used=
for n in 10 100 1000 1600; do
  { printf 'load E000 3E\nload FFFE E0 00\nrun %s 65536\n' $((10 * n + 100)); seq $n | awk '{ printf "port1 %d 55\n", 10 * $1 }'; } >"$work/records.txt"
  python3 "$root/tools/bench_input.py" "$work/records.txt" >"$work/records.in"
  executed=$(count "$work/records.in" $ours)
  now=$(field used)
  row '' "$now" "$executed" "${before:+$(awk -v e=$((executed - before)) -v k=$((now - used)) 'BEGIN { printf "%.1f", e / k }' </dev/null)}"
  before=$executed used=$now
done

[ -n "${SESSIONS:-}" ] || exit 0
row "records, $(basename "${SESSIONS%% *}")" used executed 'more for each'
before= used=
for n in 10 100 1000 10000 100000; do
  executed=$(count /dev/null $SESSIONS $n)
  now=$(field used)
  row '' "$now" "$executed" "${before:+$(awk -v e=$((executed - before)) -v k=$((now - used)) 'BEGIN { printf "%.1f", e / k }' </dev/null)}"
  before=$executed used=$now
done
