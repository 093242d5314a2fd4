#!/bin/sh
# Runs the program with allocations refused: `open` on its stored input with the first, the second, .. until a run meets no refusal, and `relay`
# with each of its last twelve, which are those of its opened disk and its two binds. Each answer has to be `macsecd: memory` with status 5, or
# that of the run with ample memory. It takes some twenty minutes.
set -eu
top=$(dirname "$(dirname "$(readlink -f "$0")")")
folder=$(mktemp -d)
trap 'rm -rf "$folder"' EXIT

# Runs the program of these words to `rt try` with an allocation refused. Answers whether it was: the program said so. Ends where it said neither
# that nor what it says with ample memory.
is_refused() {
    nth=$1
    shift
    answer=$(rt try --fail-alloc "$nth" "$@" <"$folder/input" 2>&1 || true)
    case $answer in
    *"macsecd: memory"*"status=5"*) echo "$nth: memory" ;;
    *"$ample"*"status=0"*) echo "$nth: the answer of the ample run" && return 1 ;;
    *) printf '%s: neither\n%s\n' "$nth" "$answer" && exit 1 ;;
    esac
}

cd "$top/crates/macsecd"
echo "open"
ample=$(cat stdout)
cp stdin "$folder/input"
nth=1
while is_refused "$nth"; do
    nth=$((nth + 1))
done

echo "relay"
ample="sent 0 delivered 0 dropped 0 faults 0"
: >"$folder/input"
"$top/macsecd" format "$folder/disk" 0200000000010001 4 4
set -- --data disk="$folder/disk" -- relay disk 127.0.0.1:0 127.0.0.1:9 127.0.0.1:0 127.0.0.1:9 --turns 5
# The number of the last allocation that is made is at least `low` and below `high`.
low=1
high=64
while is_refused "$high" "$@"; do
    low=$high
    high=$((high * 2))
done
while [ $((high - low)) -gt 1 ]; do
    middle=$(((low + high) / 2))
    if is_refused "$middle" "$@"; then low=$middle; else high=$middle; fi
done
for nth in $(seq $((low - 11)) "$low"); do
    is_refused "$nth" "$@"
done
