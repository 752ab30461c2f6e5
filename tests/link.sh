#!/bin/sh
# Demand 3, tried: random hostile lists of several responders' calls, played through the proved console (rust/linksim).
# With the premises kept no list may violate it. Then the check has to show that it can see: with packets up to 600 ms under way, or
# those by unicast up to 1,000 ms, two responders hold one name, with steps up to 500 ms late one holds too late, and the reference
# program with a planted fault is found out with the premises kept. Stops and updates are played too, and
# a quarter of the lists are of groups that ran apart and are joined, which L13 is asked of. Of names that are left alone it is asked too that
# someone holds them 1,200 ms after the start of one who wants them and hears no later probe, and that a holder keeps them.
# Usage: tests/link.sh [SECONDS [SEED]], by default 60 s from seed 1.
set -eu
root=$(cd "$(dirname "$0")/.." && pwd)
work=$(mktemp -d)
trap 'rm -rf "$work"' EXIT
cargo test --release --quiet --manifest-path "$root/rust/linksim/Cargo.toml"
cargo build --release --quiet --manifest-path "$root/rust/linksim/Cargo.toml"
linksim=$root/rust/target/release/linksim
console=$root/target/bin/console
two='hold .* at once with different data'
late='does not hold .* 1,200 ms after its start'
again='hold .* again with different data, though'
nobody='nobody holds .* (1,200 ms after the start|1,950 ms after the last later probe)'
given_up='held .*, which is left alone, and gives it up'

# Succeeds if a violation with these words is found.
finds() { # WHAT WORDS OPTION..
    what=$1 words=$2
    shift 2
    status=0
    "$linksim" "$@" >"$work/report" || status=$?
    if [ "$status" -ne 1 ] || ! grep -Eq "^violation: .*($words)" "$work/report"; then
        echo "$what: no such violation was found"
        tail -n 4 "$work/report"
        exit 1
    fi
    echo "$what: found after $(sed -n 's/ of .*//p' "$work/report" | head -n 1), $(sed -n 's/^violation: //p' "$work/report")"
}

"$linksim" --console "$console" --seconds "${1:-60}" --seed "${2:-1}"
finds "delays up to 600 ms" "$two" --console "$console" --delay 600 --lists 20000
finds "delays up to 1,000 ms by unicast" "$two" --console "$console" --unicast 1000 --lists 20000
for late_by in 500 51; do
    finds "steps up to $late_by ms late" "$late" --asked demands --console "$console" --late "$late_by" --lists 20000
    finds "steps up to $late_by ms late, names left alone" "$nobody" --asked contention --console "$console" --late "$late_by" --lists 20000
done

command -v patch >/dev/null 2>&1 || { echo "skipped: planted faults (no patch command)"; exit 0; }
# a fault may leave something unused
export RUSTFLAGS=-Awarnings
for fault in "$root"/rust/linksim/faults/*.patch; do
    rm -rf "$work/copy"
    mkdir "$work/copy"
    cp -r "$root/rust/reference/Cargo.toml" "$root/rust/reference/src" "$work/copy"
    echo "[workspace]" >>"$work/copy/Cargo.toml"
    patch --silent --strip=1 --directory="$work/copy" <"$fault"
    cargo build --quiet --bin reference --manifest-path "$work/copy/Cargo.toml" --target-dir "$work/target"
    name=$(basename "$fault" .patch)
    case $name in
    # of names that are left alone, and nothing else is looked at
    contention-*) set -- "$nobody|$given_up" --asked contention ;;
    *) set -- "$two|$late|$again" --asked demands ;;
    esac
    finds "fault $name" "$@" --console "$work/target/debug/reference" --lists 20000
done
