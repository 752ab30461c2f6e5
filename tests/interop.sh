#!/usr/bin/env bash
# Interoperability: our responder and our browser against Avahi, python-zeroconf, systemd-resolved and dig, in network namespaces made and removed here.
#   tests/interop.sh             runs where the peers are installed and namespaces can be made; else says 'skipped: ...' and succeeds
#   tests/interop.sh --install   installs the peers first where they are missing (Debian packages, as root); where they can't be had it says so and is skipped
#   tests/interop.sh [--install] CASE ..   runs these cases alone (tests/interop/cases.sh lists them)
#   PROGRAMS=FOLDER tests/interop.sh ..    with programs that are built already
# Where dig or systemd-resolved alone is missing, its case alone is skipped. Every wait has an end, so that it never hangs. Its last line is
# 'interop: N passed, M failed'.
set -uo pipefail
root=$(cd "$(dirname "$0")/.." && pwd)
peers="avahi-daemon avahi-utils dbus python3-zeroconf iproute2 util-linux"
dig=bind9-dnsutils
may_install=

install_peers() {
    export DEBIAN_FRONTEND=noninteractive
    timeout 120 apt-get update >/dev/null 2>&1
    # shellcheck disable=SC2086
    timeout 300 apt-get install -y --no-install-recommends $peers >/dev/null 2>&1 || skip "the peers can't be installed: $peers"
    timeout 120 apt-get install -y --no-install-recommends $dig >/dev/null 2>&1
}

. "$root/tests/machines/machines.sh"
. "$root/tests/machines/avahi.sh"
. "$root/tests/interop/link.sh"
. "$root/tests/interop/peers.sh"
. "$root/tests/interop/resolved.sh"
. "$root/tests/interop/proxy.sh"
. "$root/tests/interop/cases.sh"
. "$root/tests/interop/programs.sh"

if [ "${1:-}" = --install ]; then
    shift
    may_install=yes
    ! (find_peers) | grep -q '^skipped: ' || install_peers
fi
for case; do
    case " $(echo $cases) " in *" $case "*) ;; *) sed -n 2,6p "$0" >&2; exit 2 ;; esac
done
[ $# = 0 ] || cases="$*"

find_peers
find_programs || exit 1

work=$(mktemp -d)
trap 'remove_all; stop_bus' EXIT
find_resolved
make_link
start_bus
peer_versions

passed=0
failed=0
for case in $cases; do
    run_case "$case"
done
echo "interop: $passed passed, $failed failed"
[ "$failed" = 0 ]
