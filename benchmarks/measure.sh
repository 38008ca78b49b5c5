#!/bin/bash
# Compares the bench program with the plain C emulator (emulator.c): x86-64 instructions executed, and user time.
#   bash benchmarks/measure.sh [WORKLOAD ..]       all of straight, interrupts, waits, clock unless named
# Each figure is the difference of two run lengths, so that start-up cancels. RUNS=5 is the number of timed runs.
set -eu
. "$(dirname "$0")/common.sh"
build
[ $# -gt 0 ] || set -- straight interrupts waits clock

printf '%-12s %11s %11s | %12s %12s %7s | %12s %12s | %9s %9s %7s\n' workload cycles instr 'C /instr' 'ours /instr' ratio 'C /cycle' \
  'ours /cycle' 'C s' 'ours s' ratio
for workload in "$@"; do
  case $workload in waits) short=1000000 long=3000000 ;; *) short=1000000 long=2000000 ;; esac
  timed=$((short + 5 * (long - short)))
  a=$(input "$workload" $short) b=$(input "$workload" $long) c=$(input "$workload" $timed)
  plain_a=$(count "$a" $plain) instr_a=$(field instr) cycles_a=$(field cycles) line_a=$(cat "$work/line")
  ours_a=$(count "$a" $ours)
  [ "$line_a" = "$(cat "$work/line")" ] || { echo "$workload: the lines differ" >&2; exit 1; }
  plain_b=$(count "$b" $plain) instr_b=$(field instr) cycles_b=$(field cycles) line_b=$(cat "$work/line")
  ours_b=$(count "$b" $ours)
  [ "$line_b" = "$(cat "$work/line")" ] || { echo "$workload: the lines differ" >&2; exit 1; }
  runs=${RUNS:-5}
  plain_s=$(seconds $runs "$a" $plain) plain_t=$(seconds $runs "$c" $plain)
  ours_s=$(seconds $runs "$a" $ours) ours_t=$(seconds $runs "$c" $ours)
  awk -v w="$workload" -v n=$((instr_b - instr_a)) -v k=$((cycles_b - cycles_a)) -v p=$((plain_b - plain_a)) -v o=$((ours_b - ours_a)) \
    -v ps="$plain_s" -v pt="$plain_t" -v os="$ours_s" -v ot="$ours_t" 'BEGIN {
      pd = pt - ps; od = ot - os
      printf "%-12s %11d %11d | %12.1f %12.1f %7.2f | %12.2f %12.2f | %9.3f %9.3f %7s\n", w, k, n, p / n, o / n, o / p, p / k, o / k, pd, od,
        (pd > 0 ? sprintf("%.2f", od / pd) : "-") }'
done
