# Machines that want the same two names, "Booth 3" and "dock.local", each with data of its own, and one that watches who holds them.

. "$root/tests/machines/machines.sh"
. "$root/tests/machines/avahi.sh"

# One of our responders: each has a port and an address of its own.
start_ours() { # NUMBER OPTIONS...
    local number=$1
    shift
    start_on "$number" "dock-$number" "$responder" --interface "$(address_of "$number")" --seconds 50 \
        --instance 'Booth 3' --service _voice._tcp --host dock --port $((4000 + number)) "$@"
}

# Avahi with the same two names and data of its own, from a moment of the wall clock on, behind a command that runs it where one is given. It needs no D-Bus.
start_avahi() { # NUMBER MOMENT [COMMAND...]
    local number=$1 moment=$2
    shift 2
    write_avahi_settings "$work/avahi-$number" dock no
    cat >"$work/avahi-$number/booth.service" <<XML
<?xml version="1.0" standalone='no'?>
<!DOCTYPE service-group SYSTEM "avahi-service.dtd">
<service-group>
  <name>Booth 3</name>
  <service><type>_voice._tcp</type><port>$((4000 + number))</port></service>
</service-group>
XML
    start_avahi_on "$number" "dock-$number" "$work/avahi-$number" python3 "$root/tests/holders/at.py" "$moment" "$@"
}

has_avahi() { command -v avahi-daemon >/dev/null 2>&1 && command -v unshare >/dev/null 2>&1; }

hardware_of() { ip netns exec "$net-$1" cat /sys/class/net/wire/address; } # MACHINE

# Watches, from machine NUMBER, who of the others answers for the two names, for so many seconds after the moment that `set_moment` tells; the line that it
# prints goes to the file 'watch'.
start_watch() { # NUMBER SECONDS MACHINE...
    local number=$1 seconds=$2 machine addresses=
    shift 2
    rm -f "$work/watch" "$work/moment"
    for machine; do
        addresses="$addresses $(address_of "$machine")"
        # it need not look for one that is not joined yet, which it would do once a second
        ip -n "$net-$number" neigh replace "$(address_of "$machine")" lladdr "$(hardware_of "$machine")" dev wire nud permanent
    done
    # shellcheck disable=SC2086
    start_on "$number" watch python3 "$root/tests/holders/watch.py" "$(address_of "$number")" "$work/moment" "$seconds" $addresses
    watch=$last
    wait_for 10 watch watching
}

set_moment() { # MILLISECONDS from now
    moment=$(($(now) + $1))
    echo $moment >"$work/moment.new"
    mv "$work/moment.new" "$work/moment"
}
