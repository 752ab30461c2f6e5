#!/bin/sh
# The library from C and from Rust: the C tests, both examples, and random scripts beside the reference program.
set -eu
root=$(cd "$(dirname "$0")/.." && pwd)
"$root/tools/library"
build() { cc -O2 -Wall -Wextra -I"$root/c/include" "$1" "$root/target/staticlib/libkurgashel.a" -o "$2"; }
build "$root/c/tests/responder.c" "$root/target/responder"
"$root/target/responder"
build "$root/c/tests/browser.c" "$root/target/browser"
"$root/target/browser"
build "$root/c/tests/proxy.c" "$root/target/proxy"
"$root/target/proxy"
build "$root/c/tests/trace.c" "$root/target/trace"
"$root/target/trace"
build "$root/c/tests/player.c" "$root/target/player"
"$root/target/player"

# the examples say the same, but that C prints a claim's state as a number
build "$root/c/examples/claim.c" "$root/target/claim"
"$root/target/claim" >"$root/target/claim_c.out"
cargo run --release --quiet --manifest-path "$root/rust/kurgashel/Cargo.toml" --example claim >"$root/target/claim_rust.out"
sed 's/Waiting/0/g; s/Probing/1/g; s/Held/3/g' "$root/target/claim_rust.out" | cmp - "$root/target/claim_c.out"
echo "both examples: the names are held after $(grep -n 'host 3' "$root/target/claim_c.out" | head -1 | cut -d: -f1) packets"

# the reader's archive is enough for a program that only reads
reader() { cc -O2 -Wall -Wextra -I"$root/c/include" "$1" "$root/target/staticlib/libkurgashel_reader.a" -o "$2"; }
reader "$root/c/tests/reader.c" "$root/target/reader"
"$root/target/reader"
reader "$root/c/examples/read.c" "$root/target/read"
"$root/target/read" 00008400000000010000000004646f636b056c6f63616c00000180010000007800040a000007 | grep -qx 'answer     dock.local. type 1 class 1 flush ttl 120 0a000007'
"$root/target/read" 00008400000000020000000005626f6f74680000210001000000780008000100020fa0c00cc00c0010000100000078000806726f6f6d3d3300 >"$root/target/read.out"
grep -qx 'answer     booth. type 33 class 1 ttl 120 priority 1 weight 2 port 4000 booth.' "$root/target/read.out"
grep -qx 'answer     booth. type 16 class 1 ttl 120 "room=3" ""' "$root/target/read.out"
echo "the example over the reader alone: an address, an SRV and a TXT are read"

cargo test --release --quiet --manifest-path "$root/rust/kurgashel/Cargo.toml"
