#!/bin/sh
# The console's stored script is made anew by its generators, and its stored answers and the table of packets by the independent reference program, so
# that no expected output is our own; then both consoles are talked to through pipes, line by line; and traces are played by both players.
set -eu
root=$(cd "$(dirname "$0")/.." && pwd)
cargo build --release --quiet --manifest-path "$root/rust/reference/Cargo.toml"
programs=$root/rust/target/release
for part in reader txt responder plain truncated unicast changes cache browser trace proxy form; do python3 "$root/tests/vectors/$part.py"; done | cmp - "$root/crates/console/stdin"
"$programs/reference" <"$root/crates/console/stdin" | cmp - "$root/crates/console/stdout"
echo "$(grep -c . "$root/crates/console/stdout") stored answers are those of the reference program"
"$programs/packets" | python3 "$root/tests/vectors/subsets.py" | cmp - "$root/crates/readings/specs/Subsets.antt"
python3 "$root/tests/vectors/pipes.py" "$root/target/bin/console" "$programs/reference"
if [ -d "$root/crates/player" ]; then
    python3 "$root/tests/vectors/player.py" | cmp - "$root/crates/player/stdin"
    "$programs/player" <"$root/crates/player/stdin" | cmp - "$root/crates/player/stdout"
fi
python3 "$root/tests/vectors/player.py" "$root/target/bin/player" "$programs/player"
