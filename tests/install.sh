#!/bin/sh
# `make install`, as a packager calls it (DESTDIR), from the archive of the sources, and as a person does (PREFIX): exactly the files that are listed here
# stand in their places, the C example is built by the flags of kurgashel.pc and says what it has to, the man pages are true to the programs and the header,
# systemd takes the units, and `make uninstall` leaves no file. A Rust program finds the crate by its path, and the installed library by KURGASHEL_LIB_DIR.
# The archive is built over what is proved under target/ here: nothing is proved again.
set -eu
root=$(cd "$(dirname "$0")/.." && pwd)
work=$(mktemp -d)
trap 'rm -rf "$work"' EXIT
unset PREFIX DESTDIR LIBDIR UNITDIR MAKEFLAGS KURGASHEL_LIB_DIR
files="include/kurgashel.h lib/libkurgashel.a lib/libkurgashel_reader.a lib/pkgconfig/kurgashel.pc
bin/kurgashel-responder bin/kurgashel-browser bin/kurgashel-proxy bin/kurgashel-timeline bin/kurgashel-player
lib/systemd/system/kurgashel-responder@.service lib/systemd/system/kurgashel-proxy.service
share/man/man1/kurgashel-responder.1 share/man/man1/kurgashel-browser.1 share/man/man1/kurgashel-proxy.1 share/man/man1/kurgashel-timeline.1
share/man/man1/kurgashel-player.1 share/man/man3/kurgashel.3 share/man/man7/kurgashel.7
share/doc/kurgashel/examples/responder.conf share/doc/kurgashel/examples/proxy.conf share/doc/kurgashel/examples/serve.c"

fail() { echo "$*"; exit 1; }

# The flags of kurgashel.pc under a system root; where pkg-config is missing its lines are read as the shell reads them.
flags() { # SYSTEM-ROOT PREFIX
    folder=$1$2/lib/pkgconfig
    if command -v pkg-config >/dev/null 2>&1; then
        PKG_CONFIG_PATH=$folder PKG_CONFIG_SYSROOT_DIR=$1 pkg-config --cflags --libs kurgashel
    else
        eval "$(sed -n "s|^prefix=|&$1|; /^[a-z]*=/p" "$folder/kurgashel.pc")"
        eval "echo $(sed -n 's/^Cflags: //p; s/^Libs: //p' "$folder/kurgashel.pc" | tr '\n' ' ')"
    fi
}

# Installs from a folder of sources, looks for the files, builds the example and runs it.
try_install() { # SOURCES SYSTEM-ROOT PREFIX VARIABLE..
    sources=$1 system=$2 prefix=$3
    shift 3
    make --silent -C "$sources" install "$@"
    for file in $files; do [ -s "$system$prefix/$file" ] && echo "./$file"; done | sort >"$work/listed"
    (cd "$system$prefix" && find . -type f | sort) >"$work/installed"
    [ "$(grep -c . "$work/listed")" = "$(echo "$files" | wc -w)" ] || fail "$*: of the files that are listed only these are installed: $(cat "$work/listed")"
    cmp -s "$work/listed" "$work/installed" || fail "$* installs other files too: $(comm -13 "$work/listed" "$work/installed")"
    if grep -rn '@[A-Z]*@' "$system$prefix/lib/pkgconfig" "$system$prefix/lib/systemd"; then fail "$*: a file is not filled in"; fi
    # shellcheck disable=SC2046
    cc -Wall -Wextra "$root/c/examples/claim.c" $(flags "$system" "$prefix") -o "$work/claim"
    "$work/claim" >"$work/said"
    grep -q 'instance 3, host 3$' "$work/said" || fail "$*: the example does not come to hold its names"
}

try_uninstall() { # FOLDER VARIABLE
    make --silent -C "$root" uninstall "$2"
    [ -z "$(find "$1" -type f)" ] || fail "$2: uninstall leaves $(find "$1" -type f)"
}

if git -C "$root" rev-parse --is-inside-work-tree >/dev/null 2>&1; then
    "$root/packaging/archive" "$work/archive.tar.gz" >/dev/null
    mkdir "$work/archive"
    tar --extract --gzip --file "$work/archive.tar.gz" --directory "$work/archive" --strip-components=1
    "$root/tools/library"
    ln -s "$root/target" "$work/archive/target"
    echo "the archive of the sources: $(find "$work/archive" -type f | grep -c .) files"
else
    ln -s "$root" "$work/archive"
    echo "no archive is made: this is no git repository"
fi
try_install "$work/archive" "$work/packed" /usr/local DESTDIR="$work/packed"
try_uninstall "$work/packed" DESTDIR="$work/packed"
try_install "$root" "" "$work/own" PREFIX="$work/own"
echo "make install from the archive with DESTDIR, and with PREFIX: $(echo "$files" | wc -w) files, and the C example is built by kurgashel.pc and runs"
"$root/tests/manual.py" "$work/own"

# A unit is taken without a word, and is exposed no more than this, of 100, by systemd's own count.
most_exposed=20
with_pages=$(command -v man >/dev/null 2>&1 && echo yes || echo no)
if command -v systemd-analyze >/dev/null 2>&1; then
    for unit in "$work/own"/lib/systemd/system/*; do
        MANPATH="$work/own/share/man" systemd-analyze verify --man="$with_pages" "$unit" >"$work/said" 2>&1 ||
            fail "systemd does not take ${unit##*/}: $(cat "$work/said")"
        [ ! -s "$work/said" ] || fail "systemd has a word on ${unit##*/}: $(cat "$work/said")"
        systemd-analyze security --no-pager --offline=true --threshold="$most_exposed" "$unit" >"$work/said" 2>&1 || fail "$(cat "$work/said")"
        sed -n 's/.*Overall exposure level for \(.*\): \([0-9.]*\).*/\1: systemd takes it, and counts it exposed by \2 of 10/p' "$work/said"
    done
else
    echo "the units are not tried: systemd-analyze is not here"
fi

# a device that reads packets alone links the smaller archive
cc -Wall -Wextra -I"$work/own/include" "$root/c/examples/read.c" -L"$work/own/lib" -lkurgashel_reader -o "$work/read"
[ "$("$work/read" 000000000001000000000000c00c00010001)" = "refused 6" ] || fail "the reader alone does not refuse a name that points to itself"
echo "libkurgashel_reader.a alone: a packet is read"

mkdir "$work/user" "$work/user/src"
cp "$root/rust/kurgashel/examples/claim.rs" "$work/user/src/main.rs"
cat >"$work/user/Cargo.toml" <<TOML
[package]
name = "user"
version = "0.1.0"
edition = "2021"

[dependencies]
kurgashel = { path = "$root/rust/kurgashel" }
TOML
user() { cargo run --quiet --offline --manifest-path "$work/user/Cargo.toml" >"$work/said" 2>&1; }
user && grep -q 'instance Held, host Held$' "$work/said" || fail "a Rust program that depends on the crate by its path: $(cat "$work/said")"
export KURGASHEL_LIB_DIR="$work/own/lib"
user && grep -q 'instance Held, host Held$' "$work/said" || fail "a Rust program over the installed library: $(cat "$work/said")"
export KURGASHEL_LIB_DIR="$work/none"
if user; then fail "KURGASHEL_LIB_DIR is not heeded"; fi
grep -q 'run tools/library, or set KURGASHEL_LIB_DIR' "$work/said" || fail "where the library is missing, the build does not say how to come by it"
echo "a Rust program that depends on rust/kurgashel: built over the repository's library and over the installed one"

try_uninstall "$work/own" PREFIX="$work/own"
echo "make uninstall: no file is left"
