#!/bin/sh
# Writes the console's test: its script from the generators here, and the answers from the reference program, never from ours; and the table of packets.
# usage: tests/vectors/make.sh REFERENCE, where REFERENCE is the reference program, with its `packets` beside it
set -eu
here=$(dirname "$0")
crates=$here/../../crates
for part in reader txt responder plain truncated unicast changes cache browser trace proxy form; do python3 "$here/$part.py"; done > "$crates/console/stdin"
"$1" < "$crates/console/stdin" > "$crates/console/stdout"
"$(dirname "$1")/packets" | python3 "$here/subsets.py" > "$crates/readings/specs/Subsets.antt"
# one play, for the player's own test
if [ -d "$crates/player" ]; then
    python3 "$here/player.py" > "$crates/player/stdin"
    "$(dirname "$1")/player" < "$crates/player/stdin" > "$crates/player/stdout"
fi
