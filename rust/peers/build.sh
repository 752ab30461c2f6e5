#!/bin/sh
# Builds the peers whose Debian package is installed into target/peers, for the bench to load; says which are missing.
#   librust-dns-parser-dev, librust-trust-dns-proto-dev, libmdnsd-dev
set -eu
root=$(cd "$(dirname "$0")/../.." && pwd)
registry=/usr/share/cargo/registry
out=$root/target/peers
mkdir -p "$out"

# A crate of Debian's: the folder here, the package's folder in the registry.
crate() { # FOLDER CRATE LIBRARY
    rm -f "$out/lib$3.so"
    ls -d "$registry/$2"-[0-9]* >/dev/null 2>&1 || { echo "skipped: $2 is not installed (librust-$2-dev)"; return 0; }
    cargo build --release --quiet --offline --manifest-path "$root/rust/peers/$1/Cargo.toml" --target-dir "$out/$1" \
        --config 'source.crates-io.replace-with="debian"' --config "source.debian.directory=\"$registry\"" ||
        { echo "skipped: $2 can't be built here"; return 0; }
    cp "$out/$1/release/libpeer_$3.so" "$out/lib$3.so"
}

crate dns-parser dns-parser dns_parser
crate trust-dns trust-dns-proto trust_dns

rm -f "$out/libmdnsd.so"
if [ -f /usr/include/libmdnsd/1035.h ]; then
    # its header asks for a config.h, which the package does not bring
    mkdir -p "$out/mdnsd"
    echo '#define HAVE_NETINET_IN_H' >"$out/mdnsd/config.h"
    cc -O3 -Wall -fPIC -shared -I"$out/mdnsd" -o "$out/libmdnsd.so" "$root/c/peers/mdnsd.c" -lmdnsd || echo "skipped: mdnsd can't be built here"
else
    echo "skipped: mdnsd is not installed (libmdnsd-dev)"
fi
