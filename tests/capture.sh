#!/usr/bin/env bash
# Takes messages of real responders off a link of network namespaces, for the benchmark: Avahi, python-zeroconf, systemd-resolved and our own responder, each
# with one service and its host's addresses. Prints rust/bench/packets/captured.txt anew:
#   tests/capture.sh >captured.txt      needs root, the peers of tests/interop.sh --install, and systemd-resolved's program
# systemd-resolved is run from its unpacked package (RESOLVED names another program), since installing it replaces /etc/resolv.conf. It needs no systemd: it has
# a user, a run folder and a host name of its own in namespaces. A peer that can't be had is left out, and stderr says so.
set -uo pipefail
root=$(cd "$(dirname "$0")/.." && pwd)
skip() { echo "skipped: $*" >&2; exit 0; }
. "$root/tests/interop/link.sh"
. "$root/tests/interop/peers.sh"

# systemd-resolved on machine c, with a service.
start_resolved() { # HOST
    local program=${RESOLVED:-}
    if [ -z "$program" ]; then
        (cd "$work" && timeout 100 apt-get download systemd-resolved && dpkg -x systemd-resolved_*.deb resolved) >/dev/null 2>&1
        program=$work/resolved/lib/systemd/systemd-resolved
    fi
    [ -x "$program" ] || { echo "left out: systemd-resolved can't be had" >&2; return 1; }
    { grep -v '^systemd-resolve:' /etc/passwd; echo 'systemd-resolve:x:995:995::/:/usr/sbin/nologin'; } >"$work/passwd"
    { grep -v '^systemd-resolve:' /etc/group; echo 'systemd-resolve:x:995:'; } >"$work/group"
    chmod 644 "$work/passwd" "$work/group"
    # shellcheck disable=SC2016
    start_on c resolved.log unshare -m -u sh -c '
        mount --bind "$1/passwd" /etc/passwd && mount --bind "$1/group" /etc/group && mount -t tmpfs none /run/systemd && chmod 755 /run/systemd || exit 1
        mkdir -p /run/systemd/resolved.conf.d /run/systemd/dnssd /run/systemd/netif/links
        printf "ADMIN_STATE=configured\nOPER_STATE=routable\nMDNS=yes\n" >"/run/systemd/netif/links/$(cat /sys/class/net/wire/ifindex)"
        printf "[Resolve]\nMulticastDNS=yes\nLLMNR=no\nDNSStubListener=no\nDNS=\nFallbackDNS=\n" >/run/systemd/resolved.conf.d/mdns.conf
        printf "[Service]\nName=$2\nType=_voice._tcp\nPort=4003\nTxtText=room=11\n" >/run/systemd/dnssd/voice.dnssd
        hostname "$2"
        exec "$0"' "$program" "$work" "$1"
}

find_peers
"$root/tools/library" && cargo build --release --quiet --manifest-path "$root/rust/udp/Cargo.toml" || exit 1
responder=$root/rust/target/release/responder
work=$(mktemp -d)
chmod 755 "$work"
trap 'stop_all; remove_link; rm -rf "$work"' EXIT
make_link
ip -n "$link-bridge" addr add 10.77.0.9/24 dev bridge
start_bus

# Listens for so many seconds while what comes after is started.
listen() { # SECONDS NAME=ADDRESS...
    start_on bridge listen.log sh -c 'exec "$@" 2>>'"$work/listen.err >>$work/heard" sh "$python" "$root/tests/capture/listen.py" 10.77.0.9 "$@"
    listener=$last
    wait_for 5 listen.err listening >&2
}

listen 15 ours=10.77.0.1 avahi=10.77.0.2 zeroconf=10.77.0.3
start_responder a ours --instance booth --service _voice._tcp --host dock --port 4000 --txt room=3 --txt PassReq --address6 fd77::1
avahi_is_up other >&2 && start_on b peer avahi-publish -s parlour _voice._tcp 4001 room=7 PassReq
start_on c zeroconf.log "$python" "$root/tests/interop/zeroconf_publish.py" 10.77.0.3 _voice._tcp.local. 'Hall, west' hall.local. 4002 room=9
wait "$listener"
stop_started
rm -f "$work/listen.err"
listen 15 resolved=10.77.0.3
start_resolved annex
wait "$listener"

echo "# Messages of real responders, taken off a link by tests/capture.sh: the sender's name and the message in hexadecimal."
zeroconf=$("$python" -c 'import zeroconf; print(zeroconf.__version__)')
echo "# ours: rust/udp's responder; avahi: $(avahi-daemon --version); zeroconf: python-zeroconf $zeroconf;" \
    "resolved: systemd-resolved $(dpkg-query -W -f '${Version}' systemd)"
sort -s -k1,1 "$work/heard"
