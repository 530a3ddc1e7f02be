#!/usr/bin/env bash
# What an operation costs: the proved speed program beside the peer, on the same work. It fails where the two do not print the same.
#   speed.sh [RUNS]     times are the least of so many runs, 5 if not given
set -euo pipefail
top=$(cd "$(dirname "${BASH_SOURCE[0]}")" && pwd -P)
runs=${1:-5}
[[ $# -le 1 && $runs =~ ^[1-9][0-9]*$ ]] || { echo "usage: speed.sh [RUNS]" >&2; exit 2; }
command -v rustc > /dev/null || { echo "speed.sh: rustc is missing, which builds the peer" >&2; exit 1; }
room=$(mktemp -d)
trap 'rm -rf "$room"' EXIT
program=$top/crates/speed/out/speed
# What rt makes lies in folders out/, which are no sources.
if [ ! -x "$program" ] || [ -n "$(find "$top/crates" "$top/crates.txt" -name out -prune -o -type f -newer "$program" -print -quit)" ]; then
    command -v rt > /dev/null || { echo "speed.sh: the Rattle kit's command rt is missing" >&2; exit 1; }
    echo "speed.sh: proving and building the speed program, where a source is newer than it" >&2
    # rt runs what it has built, here on no input; what has not changed it does not build again.
    said=$(cd "$top/crates/speed" && rt run < /dev/null 2>&1) || { printf '%s\n' "$said" >&2; exit 1; }
    touch "$program"
fi
# Both for the same processors, x86-64 of the second level, and at their compiler's highest level of optimization.
rustc -C opt-level=3 -C codegen-units=1 -C target-cpu=x86-64-v2 --target x86_64-unknown-linux-gnu --edition 2021 "$top/peer/src/main.rs" -o "$room/peer" ||
    { echo "speed.sh: rustc cannot build the peer for x86-64, for which programs of the kit are built" >&2; exit 1; }
ours=("$program")
peer=("$room/peer" speed)

# What can count instructions here: the processor, or else valgrind.
counter=none
if perf stat -x, -e instructions:u true 2>&1 | grep -q '^[0-9]'; then
    counter=perf
elif command -v valgrind > /dev/null; then
    counter=valgrind
fi
case $counter in
perf) echo "Instructions are counted by the processor." ;;
valgrind) echo "Instructions are counted by valgrind's callgrind: this machine's processor cannot be asked." ;;
none) echo "Instructions: nothing here can count them." ;;
esac
instructions() { # INPUT COMMAND..
    local input=$1
    shift
    case $counter in
    perf) perf stat -x, -e instructions:u -o "$room/count" "$@" <<< "$input" > /dev/null && sed -n 's/^\([0-9]*\),.*/\1/p' "$room/count" ;;
    valgrind) valgrind --tool=callgrind --callgrind-out-file=/dev/null "$@" <<< "$input" 2>&1 > /dev/null | sed -n 's/.*Collected : //p' ;;
    none) echo 0 ;;
    esac
}

TIMEFORMAT=%U
seconds() { # INPUT COMMAND..
    local input=$1
    shift
    { time "$@" <<< "$input" > /dev/null; } 2>&1
}

# What both print for an input, which must be the same.
printed() { # INPUT
    "${ours[@]}" <<< "$1" > "$room/ours"
    "${peer[@]}" <<< "$1" > "$room/theirs"
    cmp -s "$room/ours" "$room/theirs" || { echo "speed.sh: the two differ on: $1" >&2; cat "$room/ours" "$room/theirs" >&2; exit 1; }
    cat "$room/ours"
}

# One line. Tree afterwards, operations, their steps and instructions: the work `more` less the work `none`, for one operation.
# Microseconds of one of our operations, and the ratio of times: of all that `timed` does.
row() { # K KEYS TIMED MORE NONE
    local whole with without i input
    whole=$(printed "$3")
    with=$(printed "$4")
    without=$(printed "$5")
    for ((i = 0; i < runs; i++)); do
        seconds "$3" "${ours[@]}" >> "$room/ours.times"
        seconds "$3" "${peer[@]}" >> "$room/peer.times"
    done
    {
        echo "$1 $2 $(sort -n "$room/ours.times" | head -n 1) $(sort -n "$room/peer.times" | head -n 1)"
        for input in "$4" "$5"; do echo "$(instructions "$input" "${ours[@]}") $(instructions "$input" "${peer[@]}")"; done
        printf '%s\n' "$with" "$without" "$whole"
    } | awk '
        NR == 1 { k = $1; keys = $2; t = $3; u = $4 }
        NR == 2 { a = $1; b = $2 }
        NR == 3 { a -= $1; b -= $2 }
        NR > 3 { gsub(/[a-z]+=/, ""); ends[NR] = $1 + $2 + $3 + $4; steps[NR] = $5; nodes[NR] = $6; records[NR] = $7 }
        END {
            n = ends[4] - ends[5]
            printf "%2d %6s %6d %7d %7d %7.1f", k, keys, nodes[4], records[4], n, (steps[4] - steps[5]) / n
            if (b > 0) printf " %9.0f %9.0f %6.2f", a / n, b / n, a / b; else printf " %9s %9s %6s", "-", "-", "-"
            printf " %6.2f %6.2f\n", 1e6 * t / ends[6], t / u
        }'
    rm "$room/ours.times" "$room/peer.times"
}

heading() {
    echo
    echo "$1"
    echo " k   keys  nodes records  number   steps      ours      peer  ratio     us   time"
}

heading "A find, half of them of keys in the tree (all: as many as 4,096 nodes hold). Times: 5 fillings with 100,000 finds each."
for k in 2 4 8; do
    for keys in 10 100 1000 all; do
        tree="k=$k nodes=4096 records=4096 keys=${keys/all/4096}"
        row $k $keys "$tree finds=100000 changes=0 rounds=5" "$tree finds=10000 changes=0 rounds=1" "$tree finds=0 changes=0 rounds=1"
    done
done

heading "A change: a key goes, a key comes, until all 2,000 records are used. Times: 100 fillings with their changes."
for k in 2 4 8; do
    for keys in 10 100 600; do
        tree="k=$k nodes=4096 records=2000 keys=$keys"
        row $k $keys "$tree finds=0 changes=9999 rounds=100" "$tree finds=0 changes=9999 rounds=1" "$tree finds=0 changes=0 rounds=1"
    done
done

heading "An insert: the filling alone, until the nodes are used. Times: 100 fillings."
for k in 2 4 8; do
    tree="k=$k nodes=4096 records=4096"
    row $k all "$tree keys=4096 finds=0 changes=0 rounds=100" "$tree keys=4096 finds=0 changes=0 rounds=1" "$tree keys=0 finds=0 changes=0 rounds=1"
done
