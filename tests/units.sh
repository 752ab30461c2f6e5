#!/usr/bin/env bash
# The units under systemd itself, which is booted in a container of this machine's /usr with a network of its own (systemd-nspawn). A responder's unit is ready,
# runs as a user of its own without privileges, holds its names and records; one whose names are lost is left at that, one that hangs is started again; stopped,
# it says goodbye. The proxy's unit has the port 53 and no other privilege, and answers.
#   tests/units.sh       as root; about a minute; where there is no systemd-nspawn, or it can't boot here, it says 'skipped: ...' and succeeds
set -euo pipefail
root=$(cd "$(dirname "$0")/.." && pwd)
work=$(mktemp -d)
trap 'rm -rf "$work"' EXIT
unset PREFIX DESTDIR LIBDIR UNITDIR MAKEFLAGS

skip() { echo "skipped: $*"; exit 0; }

[ "$(id -u)" = 0 ] || skip "a container needs root"
for command in systemd-nspawn timeout make; do command -v "$command" >/dev/null 2>&1 || skip "$command is not installed"; done

# Boots systemd for a script, which runs in the container and ends it; what it says is in $work/shared/said.
boot() { # SCRIPT
    cp "$1" "$work/shared/trial"
    timeout -k 5 120 systemd-nspawn --quiet --machine="kurgashel$$" --register=no --keep-unit --directory=/ --volatile=yes --private-network \
        --console=pipe --boot --bind="$work/shared:/run/shared" --bind-ro="$work/root/opt/kurgashel:/opt/kurgashel" --bind-ro="$work/units:/etc/systemd/system" \
        -- --unit=trial.service </dev/null >"$work/booted" 2>&1 || true
}

mkdir "$work/shared" "$work/root"
make --silent -C "$root" install DESTDIR="$work/root" PREFIX=/opt/kurgashel UNITDIR=/units
mv "$work/root/units" "$work/units"
cp "$root/tests/units/trial.service" "$work/units"
echo 'echo booted' >"$work/boots"
boot "$work/boots"
grep -qx booted "$work/shared/said" 2>/dev/null || skip "systemd can't be booted in a container here: $(tail -n 1 "$work/booted")"
boot "$root/tests/units/trial"
cat "$work/shared/said"
[ "$(tail -n 1 "$work/shared/said")" = tried ] || { tail -n 20 "$work/booted"; exit 1; }
echo "units: systemd takes and runs them as they are meant"
