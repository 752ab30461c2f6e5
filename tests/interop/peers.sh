# The peers: Avahi with a D-Bus of its own, on machine b, python-zeroconf and dig; and how they are started and ended.

# As start_on, with each line behind the time at which it came.
start_stamped_on() { # MACHINE FILE COMMAND...
    local machine=$1 file=$2
    shift 2
    # shellcheck disable=SC2016
    start_on "$machine" "$file" sh -c 'stamp=$1 python=$2; shift 2; stdbuf -oL "$@" 2>&1 | "$python" "$stamp"' sh "$root/tests/interop/stamp.py" "$python" "$@"
}

# What a case starts is ended with it; the bus stays until here.
stop_bus() { [ -z "${bus_id:-}" ] || kill "$bus_id" 2>/dev/null; }

installs="tests/interop.sh --install"

find_peers() {
    find_tools ip unshare timeout dbus-daemon avahi-daemon avahi-browse avahi-publish cargo
    find_python || skip "python3-zeroconf is not installed ($installs)"
    command -v dig >/dev/null 2>&1 && return 0
    echo "skipped: dig is not installed ($installs), so its case is not tried"
    cases=${cases/dig_is_answered/}
}

# A Debian package is for Debian's own interpreter, which need not be the first.
find_python() {
    for python in python3 /usr/bin/python3; do
        "$python" -c 'import zeroconf' 2>/dev/null && return 0
    done
    return 1
}

peer_versions() {
    echo "peers: $(avahi-daemon --version 2>/dev/null), python-zeroconf $("$python" -c 'import zeroconf; print(zeroconf.__version__)')," \
        "$(command -v dig >/dev/null && dig -v 2>&1 | head -n 1 || echo "no dig"), $(uname -s) $(uname -r | cut -d. -f1-2)"
}

start_bus() {
    cat >"$work/bus.conf" <<XML
<!DOCTYPE busconfig PUBLIC "-//freedesktop//DTD D-Bus Bus Configuration 1.0//EN" "http://www.freedesktop.org/standards/dbus/1.0/busconfig.dtd">
<busconfig>
  <listen>unix:path=$work/bus</listen>
  <auth>EXTERNAL</auth>
  <policy context="default">
    <allow send_destination="*" eavesdrop="false"/>
    <allow receive_sender="*"/>
    <allow own="*"/>
    <allow user="*"/>
  </policy>
</busconfig>
XML
    export DBUS_SYSTEM_BUS_ADDRESS=unix:path=$work/bus
    timeout 300 dbus-daemon --config-file="$work/bus.conf" --nofork --nopidfile >"$work/bus.log" 2>&1 &
    bus_id=$!
    local tries=100
    until [ -S "$work/bus" ]; do
        tries=$((tries - 1))
        [ "$tries" -gt 0 ] || skip "a D-Bus of its own can't be started here"
        sleep 0.05
    done
}

# Avahi on machine b, under a host name.
start_avahi() { # HOST
    write_avahi_settings "$work/avahi" "$1" yes
    start_avahi_on b avahi.log "$work/avahi"
}

# Avahi, with its host name settled.
avahi_is_up() { # HOST
    start_avahi "$1" && wait_for 10 avahi.log 'Server startup complete'
}

start_responder() { # MACHINE FILE OPTIONS...
    local machine=$1 file=$2
    shift 2
    start_on "$machine" "$file" "$responder" --interface "$(address_of "$machine")" --seconds 50 "$@"
}

start_browser() { # MACHINE FILE OPTIONS...
    local machine=$1 file=$2
    shift 2
    start_on "$machine" "$file" "$browser" --interface "$(address_of "$machine")" --seconds 50 "$@"
}
