# systemd-resolved on machine b, without a running systemd: a daemon on this script's own D-Bus. Where it isn't installed, its Debian packages are unpacked into
# the work folder and no more: to install them would change the machine's /etc/resolv.conf.

# Finds it, or fetches it where the script may install peers; else its case is not tried.
find_resolved() {
    resolved=
    [ -x /lib/systemd/systemd-resolved ] && command -v resolvectl >/dev/null 2>&1 && return 0
    resolved=$work/resolved
    [ -z "$may_install" ] || fetch_resolved
    [ -x "$resolved/usr/bin/resolvectl" ] && return 0
    echo "skipped: systemd-resolved can't be had here (tests/interop.sh --install), so its case is not tried"
    cases=${cases/systemd_finds_us/}
}

fetch_resolved() {
    local package
    mkdir -p "$resolved"
    (cd "$resolved" && timeout 60 apt-get download systemd-resolved libsystemd-shared) >/dev/null 2>&1
    for package in "$resolved"/*.deb; do dpkg-deb -x "$package" "$resolved" 2>/dev/null; done
}

resolve() { # ARGUMENTS of resolvectl...
    on b env "LD_LIBRARY_PATH=$resolved/usr/lib/$(uname -m)-linux-gnu/systemd" "$resolved/usr/bin/resolvectl" "$@" 2>&1
}

# In a mount namespace, with the user that it drops root's rights for, and settings of its own.
start_resolved() {
    chmod 711 "$work"
    cp /etc/passwd "$work/passwd"
    id systemd-resolve >/dev/null 2>&1 || echo "systemd-resolve:x:$(id -u daemon):$(id -g daemon)::/:/usr/sbin/nologin" >>"$work/passwd"
    printf '[Resolve]\nMulticastDNS=yes\nLLMNR=no\nDNSStubListener=no\n' >"$work/resolved.conf"
    start_on b resolved.log env "LD_LIBRARY_PATH=$resolved/usr/lib/$(uname -m)-linux-gnu/systemd" unshare -m sh -c \
        'mount --bind "$0/passwd" /etc/passwd && mkdir -p /run/systemd && mount -t tmpfs none /run/systemd && mkdir /run/systemd/resolved.conf.d &&
         cp "$0/resolved.conf" /run/systemd/resolved.conf.d && exec "$1/lib/systemd/systemd-resolved"' "$work" "$resolved"
}

# systemd-resolved, with Multicast DNS on the wire.
resolved_is_up() {
    local tries=50
    start_resolved
    until resolve mdns wire yes >/dev/null; do
        tries=$((tries - 1))
        [ "$tries" -gt 0 ] || { echo "    systemd-resolved does not come up: $(resolve mdns wire yes)"; return 1; }
        sleep 0.1
    done
}
