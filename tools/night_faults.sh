#!/bin/bash
# What a night asks of the area's file; faults at every system call of a first night, of a night with a log and of a recovery; clean-ups that are killed; two
# nights at once; a call that is held while another night with other names commits. docs/NIGHT.md says what must hold.
#   bash tools/night_faults.sh        some minutes; prints how many faults and how many bad, and each bad one; status 1 where one is bad
# Needs strace, python3, and night built (`sh tools/launch.sh night`). It works in a fresh folder under TMPDIR. Where an
# emulator runs the program, which is not on x86-64, only calls of the program's own kinds are killed and failed: the emulator makes many of its own.
set -u
root=$(cd "$(dirname "$0")/.." && pwd)
mapfile -t words < <(sh "$root/tools/launch.sh" --words)
[ -x "$root/target/bin/night" ] && command -v strace >/dev/null || { echo "needs strace, and sh tools/launch.sh night" >&2; exit 2; }
room=$(mktemp -d) && trap 'rm -rf "$room"' EXIT
cd "$room" && mkdir sets d || exit 2
case $(uname -m) in                                                  # the call that renames, those that remove with how many a clean-up has, and all
x86_64) rename=rename removals='unlink:7 rmdir:1' kinds='.*' ;;
*) rename=renameat removals=unlinkat:8 kinds='\(mkdir\|open\|rename\|unlink\)at\|read\|write\|fsync\|close' ;;
esac
files="image state state.rest output state.names state.area log"
exec 2>/dev/null  # the shell tells of each one that is killed

# a ROM that puts the RAM away, counts in the area's $80 and in $0100 and sends the first count, for ever, and returns from NMI at once; an idle line and an
# NMI in turn, every 2,000 cycles
python3 - <<'PY'
image = bytearray(65536)
image[0xF000:0xF019] = bytes.fromhex("8E00FF" "7F0014" "86029711" "7C0080" "7C0100" "9611" "9680" "9713" "20F2" "3B")
image[0xFFFC:] = b"\xF0\x18\xF0\x00"
open("rom", "wb").write(image)
open("evening", "wb").write(b"".join(b"\x06\0" + (b"\x06\0", b"\x04\0")[k % 2] + (2000 * k).to_bytes(4, "little") for k in range(80)))
PY

night() { "${words[@]}" "$root/target/bin/night" "$@"; }             # the program, in the folder d
faulty() { strace -o ../log "$@" "${words[@]}" "$root/target/bin/night" "${call[@]}" >../out; }
keep() { rm -rf "sets/$1"; cp -r d "sets/$1"; }
back() { rm -rf d; cp -r "sets/$1" d; }
said() { grep -q "$1" ../out; }
same() {                                                             # the files are those of a set
    local f
    for f in $files; do
        if [ -e "../sets/$1/$f" ]; then cmp -s "../sets/$1/$f" "$f" || return 1; else [ ! -e "$f" ] || return 1; fi
    done
}
total=0 bad=0 stood=0 stuck=0 untold=0
wrong() { bad=$((bad + 1)); echo "bad: $*: $(tr '\n' ' ' <../out)"; }

# what a fault has left, in d: one of two sets of files; where STATE.done stands, a call makes it the new one (a recovery may be stopped before its own
# night). Then a whole night runs. `cleaned`: the call could remove what it made, so that a refusal leaves no STATE.night.
judge() {
    local old=$1 new=$2 what=$3 cleaned=${4:-}
    total=$((total + 1))
    if said 'night stop' && { ! same "$new" || [ -e state.done ] || [ -e state.night ]; }; then wrong "$what: told, not done"; return; fi
    [ ! -e state.night ] || stuck=$((stuck + 1))
    if [ -n "$cleaned" ] && said '^refused' && [ ! -e state.done ] && [ -e state.night ]; then wrong "$what: STATE.night is left"; return; fi
    if [ -e state.done ]; then
        stood=$((stood + 1))
        rm -rf state.night && mkdir state.night
        night "${call[@]}" >../again
        [ ! -e state.done ] && [ "$(cat ../again)" = 'refused 35' ] || { wrong "$what: not recovered"; return; }
        same "$new" || { [ "$old" = two ] && same two; } || { wrong "$what: mixed after the recovery"; return; }
    elif ! same "$old" && ! same "$new"; then
        wrong "$what: mixed"; return
    elif ! said 'night stop' && ! same "$old"; then
        untold=$((untold + 1))
    fi
    rm -rf state.night
    night image evening 5000 61440 state output >../again
    tail -n 1 ../again | grep -q '^night stop' && [ ! -e state.done ] && [ ! -e state.night ] || wrong "$what: no night runs after it"
}

# every system call of a call from a set, killed and failed
faults() {
    local name=$1 from=$2 old=$3 new=$4 what syscall count k cleaned
    back "$from"; cd d || exit 2
    faulty
    said 'night stop' || { echo "no night from $from: $(cat ../out)"; exit 2; }
    sed -n 's/^\([a-z_0-9]*\)(.*/\1/p' ../log | grep -v 'execve\|exit_group' | grep -x "$kinds" | sort | uniq -c >../calls
    while read -r count syscall; do
        for what in signal=KILL error=EIO error=ENOSPC error=EACCES error=EINTR; do
            case $what,$syscall in signal=*|*,rename*|*,unlink*|*,rmdir) cleaned= ;; *) cleaned=yes ;; esac
            for k in $(seq 1 "$count"); do
                cd ..; back "$from"; cd d || exit 2
                faulty -e "trace=$syscall" -e "inject=$syscall:$what:when=$k"
                grep -q 'INJECTED\|killed by SIGKILL' ../log || { wrong "$name $syscall $k: no fault"; continue; }
                judge "$old" "$new" "$name $what $syscall $k" $cleaned
            done
        done
    done <../calls
    cd ..
}

# a write fails, and the clean-up is killed
cleanups() {
    local k j syscall
    for k in 1 2 3 4 5 6 7; do
        for syscall in $removals; do
            for j in $(seq 1 "${syscall#*:}"); do
                back one; cd d || exit 2
                faulty -e "trace=fsync,${syscall%:*}" -e "inject=fsync:error=ENOSPC:when=$((k + 1))" -e "inject=${syscall%:*}:signal=KILL:when=$j"
                judge one one "clean-up after file $k, ${syscall%:*} $j"
                cd ..
            done
        done
    done
}

cp rom d/image; cp evening d/evening; keep none
call=(image evening 9000 61440 state output)
(cd d && night "${call[@]}" >/dev/null); keep one
call=(--log log image state.rest 14000 61440 state output)
(cd d && night "${call[@]}" >/dev/null); keep two
(cd d && night "${call[@]}" >/dev/null); keep three
back one; (cd d && faulty -e trace=$rename -e inject=$rename:signal=KILL:when=3); keep half
[ -e d/state.done ] || { echo "no STATE.done to recover from"; exit 2; }
for f in image state state.rest output state.area log; do
    if cmp -s sets/one/$f sets/two/$f || cmp -s sets/two/$f sets/three/$f; then echo "two nights leave the same $f: nothing would show"; exit 2; fi
done

# The area's file: 33 where STATE stands without it, 12 for another length, after IMAGE's tests and before STATE's, and all files as they were. Without STATE a
# missing area is zeros, and one that stands is taken: the ROM's first byte sent is the area's first and 1.
unruly=0
refuses() {                                                          # the number, and what makes set one so
    back one; (cd d && eval "$2"); keep spoilt; cd d || exit 2
    night "${call[@]}" >../out
    [ "$(cat ../out)" = "refused $1" ] && same spoilt && [ ! -e state.night ] || { unruly=$((unruly + 1)); echo "bad: $2: $(cat ../out)"; }
    cd ..
}
first() {                                                            # the area's first byte, and the first sent
    back none; cd d || exit 2
    head -c 128 /dev/zero | tr '\0' "$1" >state.area
    night image evening 9000 61440 state output >../out
    [ "$(head -c 1 output | od -An -tx1)" = " $2" ] || { unruly=$((unruly + 1)); echo "bad: an area of $1: $(cat ../out)"; }
    cd ..
}
refuses 33 'rm state.area'
refuses 33 'rm state.area; truncate -s 41 state'
for size in 0 127 129; do refuses 12 "truncate -s $size state.area"; done
refuses 12 'truncate -s 127 state.area; truncate -s 41 state'
refuses 1 'truncate -s 65535 image; truncate -s 127 state.area'
refuses 1 'truncate -s 65535 image; rm state.area'
refuses 26 'truncate -s 41 state'
first '\132' 5b
first '\0' 01; (cd d && same one) || { unruly=$((unruly + 1)); echo "bad: an area of zeros is not a missing one"; }
echo "the area's file: bad $unruly"

call=(image evening 9000 61440 state output); faults first none none one
call=(--log log image state.rest 14000 61440 state output); faults night one one two
faults recovery half two three
cleanups
echo "faults $total bad $bad (STATE.done stood after $stood, STATE.night after $stuck; all new and not told $untold)"

worse=0 refused=0 followed=0
for k in $(seq 1 100); do
    back one; cd d || exit 2
    night "${call[@]}" >../first & a=$!
    night "${call[@]}" >../second & b=$!
    wait $a $b
    told=$(cat ../first ../second | grep -c '^night stop'); late=$(cat ../first ../second | grep -c '^refused 35')
    if [ "$told $late" = '1 1' ] && same two; then refused=$((refused + 1))
    elif [ "$told $late" = '2 0' ] && same three; then followed=$((followed + 1))
    else worse=$((worse + 1)); echo "bad: two at once $k: $(cat ../first ../second | tr '\n' ' ')"; fi
    { [ -e state.done ] || [ -e state.night ]; } && { worse=$((worse + 1)); echo "bad: two at once $k: a folder is left"; }
    cd ..
done
echo "two at once 100 bad $worse (the second refused $refused, followed $followed)"

# The first call finds STATE.done and is held at its first rename; meanwhile the second, with other names, puts those files in place, runs, commits, and
# is held after its commit (its eighth rename). Each night's files must come to its own places.
back half; cd d || exit 2
cp ../sets/two/image image2; cp ../sets/two/state.area area2
faulty -e trace=$rename -e inject=$rename:delay_enter=2000000:when=1 & a=$!
sleep 0.5
strace -o ../held -e trace=$rename -e inject=$rename:delay_exit=3000000:when=8 \
    "${words[@]}" "$root/target/bin/night" --area area2 --log log2 image2 state.rest 14000 61440 state output2 >../second
wait $a
mixed=0
for f in 'image two image' 'output two output' 'state.area two state.area' 'log two log' 'image2 three image' 'output2 three output' \
    'area2 three state.area' 'log2 three log' 'state three state' 'state.rest three state.rest'; do
    read -r here set there <<<"$f"
    cmp -s "$here" "../sets/$set/$there" || { mixed=1; echo "bad: a held call: $here is not the one of night $set"; }
done
if ! said '^refused 34' || ! grep -q '^night stop' ../second || [ -e state.done ] || [ -e state.night ]; then
    mixed=1; echo "bad: a held call: $(cat ../out ../second)"
fi
[ "$(cat state.names)" = image2/output2/area2/log2 ] || { mixed=1; echo "bad: a held call: state.names"; }
echo "a held call: bad $mixed"
[ "$unruly$bad$worse$mixed" = 0000 ]
