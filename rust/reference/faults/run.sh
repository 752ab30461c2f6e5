#!/bin/sh
# Builds each fault of this folder in a copy of the package and compares it with
# the good program; succeeds only if every fault shows as a difference.
# Usage: faults/run.sh [LINES [NAMES]], where NAMES is a pattern such as 'unicast-*'.
# JOBS of them are tried side by side.
set -eu

lines=${1:-30000}
names=${2:-*}
jobs=${JOBS:-2}
package=$(cd "$(dirname "$0")/.." && pwd)
work=$(mktemp -d)
trap 'rm -rf "$work"' EXIT

cargo build --release --quiet --manifest-path "$package/Cargo.toml"
programs=$package/../target/release

# a fault may leave something unused; nobody looks into these builds
export RUSTFLAGS=-Awarnings CARGO_PROFILE_DEV_DEBUG=0

# Where the fault shows, by the first script on which it does: a short one, then ten long ones.
difference() { # WORKER PROGRAM COMPARE
    size=3000
    for seed in 1 1 2 3 4 5 6 7 8 9 10; do
        status=0
        "$programs/$3" "$programs/$2" "$1/target/debug/$2" "$seed" "$size" >"$1/report" || status=$?
        # a fault that makes the program end is a difference too, a failed comparison is not
        if [ "$status" -eq 1 ] && grep -q '^difference at' "$1/report"; then
            sed -n "s/^difference at script line \([0-9]*\): \([a-z]*\).*/seed $seed, line \1, \2/p" "$1/report"
            return
        fi
        size=$lines
    done
}

try() { # WORKER FAULT
    name=$(basename "$2" .patch)
    rm -rf "$1/copy"
    mkdir "$1/copy"
    cp -r "$package/Cargo.toml" "$package/src" "$1/copy"
    # the copy stands outside the workspace, and is one of its own
    echo "[workspace]" >>"$1/copy/Cargo.toml"
    patch --silent --strip=1 --directory="$1/copy" <"$2"
    # a fault of the player shows in what players print
    case $name in
    player-*) program=player compare=compare_players ;;
    *) program=reference compare=compare ;;
    esac
    # one target folder for all copies of a worker
    cargo build --quiet --bin "$program" --manifest-path "$1/copy/Cargo.toml" --target-dir "$1/target"
    found=$(difference "$1" "$program" "$compare")
    if [ -n "$found" ]; then echo "found   $name ($found)"; else echo "MISSED  $name"; fi
}

# Each worker tries every JOBS-th fault; what it could not try is missing in its list.
work_through() { # WORKER FIRST
    mkdir "$1"
    at=0
    for fault in "$package"/faults/$names.patch; do
        [ $((at % jobs)) -ne "$2" ] || try "$1" "$fault"
        at=$((at + 1))
    done
}

worker=0
while [ "$worker" -lt "$jobs" ]; do
    work_through "$work/$worker" "$worker" >"$work/list.$worker" 2>"$work/errors.$worker" &
    worker=$((worker + 1))
done
wait
cat "$work"/errors.* >&2
sort -k 2 "$work"/list.*
planted=$(find "$package"/faults -name "$names.patch" | wc -l)
found=$(cat "$work"/list.* | grep -c '^found ' || true)
[ "$found" -eq "$planted" ] || { echo "$found of $planted faults found"; exit 1; }
echo "every fault was found, $found of them"
