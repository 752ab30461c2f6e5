#!/usr/bin/env bash
# Coverage-guided fuzzing of the exported C functions against the reference program, in one process: libFuzzer (clang) changes scripts of the console's lines, and
# both have to answer each line alike (c/fuzz, rust/fuzz). Coverage is counted in the reference program and in c/fuzz; the proved library is as it is.
#   tests/fuzz.sh [SECONDS]             60 by default
#   tests/fuzz.sh --install [SECONDS]   first installs Debian's clang and its fuzzer where they are missing
#   tests/fuzz.sh memory [SCRIPTS]      takes so many scripts (400) once under valgrind: no memory is read or written that was not lent
#   FAULT=NAME tests/fuzz.sh [SECONDS]  the reference program with a fault of rust/reference/faults: succeeds where a difference is found
#   SCRIPT=600 tests/fuzz.sh ..         begins with fewer scripts, of so many lines in place of 4,000 for each of four seeds
# It begins with scripts of `generate`, cut into pieces. A script that shows a difference is left in target/fuzz, and both consoles take it as it is, but for
# lines `play TRACE`, which no console has: target/bin/console <SCRIPT. Where clang, its fuzzer or valgrind is missing it says 'skipped: ...' and succeeds. It
# ends by itself.
set -euo pipefail
root=$(cd "$(dirname "$0")/.." && pwd)
cd "$root"
found=target/fuzz
work=$(mktemp -d)
trap 'rm -rf "$work"' EXIT
skip() { echo "skipped: $*"; exit 0; }

has_fuzzer() {
    echo 'int LLVMFuzzerTestOneInput(const unsigned char *data, unsigned long size) { return size && *data ? 0 : 0; }' >"$work/empty.c"
    clang -fsanitize=fuzzer "$work/empty.c" -o "$work/empty" 2>/dev/null
}

if [ "${1:-}" = --install ]; then
    shift
    has_fuzzer || timeout 300 apt-get install -y --no-install-recommends clang libclang-rt-dev >/dev/null 2>&1 || true
fi
memory=
usual=60
[ "${1:-}" != memory ] || { memory=yes usual=400; shift; }
number=${1:-$usual}
case $number in *[!0-9]*) sed -n 2,11p "$0" >&2; exit 2 ;; esac

# Where the reference program's library for C is written, with or without counters for coverage.
counters='-Cpasses=sancov-module -Cllvm-args=-sanitizer-coverage-level=4 -Cllvm-args=-sanitizer-coverage-inline-8bit-counters
 -Cllvm-args=-sanitizer-coverage-pc-table -Cllvm-args=-sanitizer-coverage-trace-compares'
build_reference() { # FLAGS FOLDER
    local sources=rust
    if [ -n "${FAULT:-}" ]; then
        sources=$work/rust
        mkdir "$sources"
        cp -r rust/reference rust/fuzz "$sources"
        printf '[workspace]\nresolver = "2"\nmembers = ["reference", "fuzz"]\n' >"$sources/Cargo.toml"
        patch --silent --strip=1 --directory="$sources/reference" <"rust/reference/faults/$FAULT.patch"
    fi
    # a fault may leave something unused
    RUSTFLAGS="$1 ${FAULT:+-Awarnings}" cargo build --release --quiet --manifest-path "$sources/fuzz/Cargo.toml" --target-dir "$2"
}

# Scripts of `generate`, from one start, table or proxy to the next, long ones left out; and what is to be played from each start on, up to where it is long.
make_seeds() { # FOLDER LINES
    local seed
    mkdir -p "$1"
    for seed in 1 2 3 4; do
        rust/target/release/generate "$seed" "$2" | awk -v folder="$1" -v seed="$seed" '
            function keep() { if (length(piece) > 0 && length(piece) <= 8192) printf "%s", piece >sprintf("%s/%d-%05d", folder, seed, ++made); close(sprintf("%s/%d-%05d", folder, seed, made)) }
            /^(start|table|proxy) / || lines > 40 { keep(); piece = ""; lines = 0 }
            { piece = piece $0 "\n"; lines++ }
            END { keep() }'
        rust/target/release/generate "$seed" "$2" plays | awk -v folder="$1" -v seed="$seed" '
            /^start / { close(file); file = sprintf("%s/%d-plays-%05d", folder, seed, ++made); bytes = 0 }
            (bytes += length($0) + 1) <= 8192 { print >file }'
    done
}

# How many lines were compared; fails where a kind of line was never taken.
tell_compared() { # WORD
    awk -v word="$1" '/^compared / { compared += $3; accepted += $5; if (!$5) never = never " " $2 }
        END { printf "%s: %d lines compared, %d of them not refused, no difference\n", word, compared, accepted; if (never || !compared) { print "never taken:" never; exit 1 } }' "$work/log"
}

tools/library
cargo build --release --quiet --manifest-path rust/reference/Cargo.toml
library=target/staticlib/libkurgashel.a

if [ -n "$memory" ]; then
    command -v valgrind >/dev/null 2>&1 || skip "valgrind is not installed"
    build_reference '' rust/target
    cc -O1 -g -Wall -Wextra -Ic/include c/fuzz/replay.c c/fuzz/fuzz.c c/fuzz/exported.c rust/target/release/libfuzz.a "$library" -lpthread -ldl -lm -o "$work/replay"
    make_seeds "$work/seeds" 12000
    # shellcheck disable=SC2012,SC2046
    valgrind --quiet --error-exitcode=1 --leak-check=full --errors-for-leak-kinds=definite "$work/replay" \
        $(ls "$work/seeds"/* | shuf --random-source=<(yes) -n "$number") 2>"$work/log" || { grep -v '^compared ' "$work/log" | head -n 40; exit 1; }
    tell_compared "memory"
    exit
fi

has_fuzzer || skip "clang with its fuzzer is not installed (clang, libclang-rt-dev)"
folder=rust/target/fuzz
[ -z "${FAULT:-}" ] || folder=$work/target
build_reference "$counters" "$folder"
clang -O1 -g -Wall -Wextra -fsanitize=fuzzer -Ic/include c/fuzz/fuzz.c c/fuzz/exported.c c/fuzz/mutate.c "$folder/release/libfuzz.a" "$library" -lpthread -ldl -lm -o "$work/fuzz"
make_seeds "$work/seeds" "${SCRIPT:-4000}"
mkdir -p "$found" "$work/corpus"

status=0
"$work/fuzz" -max_total_time="$number" -max_len=8192 -timeout=20 -rss_limit_mb=2048 -print_final_stats=1 -seed=1 -artifact_prefix="$found/" "$work/corpus" "$work/seeds" \
    >"$work/log" 2>&1 || status=$?
if [ -n "${FAULT:-}" ]; then
    grep -q '^DIFFERENCE: ' "$work/log" || { tail -n 5 "$work/log"; echo "$FAULT: no difference in $number s"; exit 1; }
    grep -B 2 -A 1 '^DIFFERENCE: ' "$work/log" | cut -c1-200
    how='in the scripts that it began with'
    ! grep -q '^#[0-9]*[[:space:]]*INITED' "$work/log" || how='by changing them'
    echo "$FAULT: found in script $(sed -n 's/^stat::number_of_executed_units: *//p' "$work/log"), $how"
    exit
fi
if [ "$status" != 0 ]; then
    tail -n 40 "$work/log" | cut -c1-400
    exit 1
fi
units=$(sed -n 's/^stat::number_of_executed_units: *//p' "$work/log")
awk -v units="$units" '/^#[0-9]+/ && / cov: / { for (i = 1; i < NF; i++) if ($i == "cov:" || $i == "ft:" || $i == "corp:") told[$i] = $(i + 1) }
    END { printf "fuzz: %d scripts, %d places of the code and %d features reached, %s kept\n", units, told["cov:"], told["ft:"], told["corp:"] }' "$work/log"
tell_compared fuzz
