#!/usr/bin/env bash
# The Debian source package: it is made of the archive of the sources, unpacked, and built into binary packages over what is proved under target/ here;
# together they have what `make install` puts, and nothing else; lintian finds no error.
#   tests/debian.sh                  about a minute; where dpkg-dev or debhelper is missing it says 'skipped: ...' and succeeds
#   tests/debian.sh FOLDER           also leaves the packages there
# Build dependencies are looked at by their commands (dpkg-buildpackage -d), since cargo may be here without being Debian's.
set -euo pipefail
root=$(cd "$(dirname "$0")/.." && pwd)
keep=${1:-}
work=$(mktemp -d)
trap 'rm -rf "$work"' EXIT
unset PREFIX DESTDIR LIBDIR UNITDIR MAKEFLAGS KURGASHEL_LIB_DIR

skip() { echo "skipped: $*"; exit 0; }
fail() { echo "FAILED: $*"; exit 1; }

for command in dpkg-buildpackage dh pkg-config git make; do command -v "$command" >/dev/null 2>&1 || skip "$command is not installed"; done
git -C "$root" rev-parse --is-inside-work-tree >/dev/null 2>&1 || skip "this is no git repository"

version=$(sed -n 's/^version = "\(.*\)"/\1/p' "$root/rust/kurgashel/Cargo.toml")
[ "$(cd "$root" && dpkg-parsechangelog --show-field Version)" = "$version" ] || fail "debian/changelog is not of version $version"

# the source package, of the sources alone
"$root/packaging/archive" "$work/archive.tar.gz" >/dev/null
tar --extract --gzip --file "$work/archive.tar.gz" --directory "$work"
mkdir "$work/kurgashel-$version/target" # as where something is proved
touch "$work/kurgashel-$version/target/proved"
(cd "$work" && dpkg-source --build "kurgashel-$version") >"$work/said" 2>&1 || fail "no source package: $(cat "$work/said")"
rm -rf "${work:?}/kurgashel-$version"
(cd "$work" && dpkg-source --no-check --extract "kurgashel_$version.dsc" build) >"$work/said" 2>&1 || fail "it is not unpacked: $(cat "$work/said")"
[ ! -e "$work/build/target" ] || fail "the source package has target/"
echo "the source package: $(find "$work/build" -type f | grep -c .) files, $(stat --format %s "$work/kurgashel_$version.tar.xz") bytes"

# where the kit is missing the build says so
without_kit=$(printf %s "$PATH" | tr : '\n' | while IFS= read -r folder; do [ -x "$folder/rt" ] || printf '%s:' "$folder"; done)
if PATH=$without_kit command -v make >/dev/null; then
    (cd "$work/build" && PATH=$without_kit make --file debian/rules override_dh_auto_build) >"$work/said" 2>&1 && fail "it builds without the kit"
    grep -q "the Rattle kit's command rt is missing" "$work/said" || fail "that the kit is missing is not said: $(cat "$work/said")"
fi

"$root/tools/library"
ln -s "$root/target" "$work/build/target"
(cd "$work/build" && dpkg-buildpackage -d -us -uc -b) >"$work/build.log" 2>&1 || fail "no packages: $(tail -n 30 "$work/build.log")"

# both packages, unpacked together
mkdir "$work/unpacked"
for package in "$work"/libkurgashel-dev_*.deb "$work"/kurgashel_*.deb; do
    dpkg-deb --extract "$package" "$work/unpacked"
    echo "${package##*/}:"
    dpkg-deb --contents "$package" | awk '!/\/$/ { print "    " $6 }'
done

# The files under a system root by their places as `make install` has them, without those that every Debian package has.
places() { # SYSTEM-ROOT
    (cd "$1" && find . -type f) | sed "s|/lib/$(dpkg-architecture --query DEB_HOST_MULTIARCH)/|/lib/|; s|^\./lib/|./usr/lib/|; /\/man\//s|\.gz$||" |
        grep -vE '^\./usr/share/doc/(lib)?kurgashel(-dev)?/(copyright|changelog(\.Debian)?\.gz)$' | sort
}

make --silent -C "$work/build" install DESTDIR="$work/installed" PREFIX=/usr
places "$work/installed" >"$work/is-put"
places "$work/unpacked" >"$work/is-packed"
[ -s "$work/is-put" ] && diff "$work/is-put" "$work/is-packed" || fail "the packages have other files than make install puts (<)"
echo "the packages have the $(grep -c . "$work/is-put") files that make install puts"

for archive in libkurgashel.a libkurgashel_reader.a; do
    cmp "$root/target/staticlib/$archive" "$(find "$work/unpacked" -name "$archive")" || fail "another $archive is packed than was built"
done

# what is packed can be used: a program runs, and the C example is built by the flags of kurgashel.pc
"$work/unpacked/usr/bin/kurgashel-responder" --help >"$work/said" || fail "the packed responder does not run"
flags=$(PKG_CONFIG_PATH=$(dirname "$(find "$work/unpacked" -name kurgashel.pc)") PKG_CONFIG_SYSROOT_DIR=$work/unpacked pkg-config --cflags --libs kurgashel)
# shellcheck disable=SC2086
cc -Wall -Wextra "$root/c/examples/claim.c" $flags -o "$work/claim"
"$work/claim" | grep 'instance 3, host 3$' >/dev/null || fail "the example over the packed library does not come to hold its names"

if command -v lintian >/dev/null 2>&1; then
    lintian --allow-root --fail-on error "$work"/kurgashel_*.changes || fail "lintian finds an error"
    echo "lintian finds no error"
else
    echo "lintian is not here to look"
fi
[ -z "$keep" ] || { mkdir -p "$keep" && cp "$work"/*.deb "$work"/*.dsc "$work"/*.tar.xz "$work"/*.changes "$keep"; }
