#!/bin/bash
# How listing and assembling grow: x86-64 instructions executed, from a program's start to its end, on the last bytes of an image of pseudo-random bytes.
#   bash benchmarks/listings.sh
set -eu
. "$(dirname "$0")/common.sh"
build_counter
prove lister
prove assembler
row() { printf '%-10s %8s %8s %14s %14s\n' "$@"; }
python3 - "$work/image" <<'PYTHON'
import sys
state, image = 1, bytearray()
while len(image) < 65536:
    state = (state * 1103515245 + 12345) % 2 ** 31
    image.append(state >> 16 & 255)
open(sys.argv[1], "wb").write(image)
PYTHON
more() { [ -z "$before" ] || awk -v e=$(($1 - before)) -v k=$(($2 - size)) 'BEGIN { printf "%.1f", e / k }' </dev/null; }

for program in lister assembler; do
  row "$program" bytes lines executed 'more a byte'
  before= size=
  for n in 1024 4096 16384 65536; do
    set -- "$work/image" "$(printf '%X' $((65536 - n)))" FFFF
    $qemu "$root/target/bin/lister" "$@" >"$work/listing"
    [ $program = lister ] || set -- "$work/listing" "$work/bytes"
    executed=$(count /dev/null "$root/target/bin/$program" "$@")
    row '' $n "$(wc -l <"$work/listing")" "$executed" "$(more "$executed" $n)"
    [ $program = lister ] || tail -c $n "$work/image" | cmp - "$work/bytes"
    before=$executed size=$n
  done
done
