# What measure.sh, growth.sh and listings.sh share: building, making an input, running a program and counting the instructions it executes.
# Needs Debian's qemu-user (with plugins) and a C compiler; off x86-64 also gcc-x86-64-linux-gnu. The program is built by tools/launch.sh.
here=$(cd "$(dirname "$0")" && pwd)
root=$(dirname "$here")
. "$root/tools/launch.sh"
work=${WORK:-$root/target/benchmarks}
qemu=$(command -v qemu-x86_64)
compiler=cc
[ "$(uname -m)" = x86_64 ] || compiler=x86_64-linux-gnu-gcc
ours="$root/target/bin/bench"
plain="$work/emulator"

build() {
  prove bench
  build_counter
  $compiler -std=c11 -O2 -static -o "$work/emulator" "$here/emulator.c"
}

build_counter() {
  mkdir -p "$work"
  cc -O2 -shared -fPIC -o "$work/libicount.so" "$here/icount.c"
}

# input WORKLOAD N: the file of a workload's input for so many cycles
input() {
  sed "s/^run N /run $2 /" "$here/$1.txt" >"$work/$1.$2.txt"
  python3 "$root/tools/bench_input.py" "$work/$1.$2.txt" >"$work/$1.$2.in"
  echo "$work/$1.$2.in"
}

# count FILE PROGRAM ..: the x86-64 instructions that the program executes on an input, from its start to its end
count() {
  count_from=$1
  shift
  $qemu -plugin "$work/libicount.so" "$@" <"$count_from" 2>&1 >"$work/line" | sed -n 's/^insns //p'
}

# field NAME: a number of the line that a program printed last under count
field() { tr ' ' '\n' <"$work/line" | sed -n "/^$1\$/{n;p}"; }

# seconds TIMES FILE PROGRAM ..: the least user time of so many runs; natively on x86-64, else under the same emulator
seconds() {
  seconds_times=$1 seconds_from=$2 seconds_least=
  shift 2
  [ "$(uname -m)" = x86_64 ] || set -- "$qemu" "$@"
  while [ "$seconds_times" -gt 0 ]; do
    seconds_this=$( { TIMEFORMAT=%U; time "$@" <"$seconds_from" >/dev/null 2>&1; } 2>&1 )
    seconds_least=$(printf '%s\n%s\n' "$seconds_this" "$seconds_least" | grep . | sort -g | head -1)
    seconds_times=$((seconds_times - 1))
  done
  echo "$seconds_least"
}
