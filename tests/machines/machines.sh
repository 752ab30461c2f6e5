# Machines for tests: network namespaces, each joined by a veth to a bridge in a namespace of bridges. Nothing of the machine's own network is touched; all is
# removed at the end. A script that reads this file has its own folder in `work` and the repository in `root`; it may say `address_of` otherwise.

net=kurgashel$$
machines=
running=
# packet.py, for the python programs on the machines
export PYTHONPATH=$root/tests/machines PYTHONDONTWRITEBYTECODE=1

skip() { echo "skipped: $*"; exit 0; }

# Goes on as root alone, and where these commands are installed.
find_tools() { # COMMAND...
    local command
    [ "$(id -u)" = 0 ] || skip "network namespaces need root"
    for command; do command -v "$command" >/dev/null 2>&1 || skip "$command is not installed${installs:+ ($installs)}"; done
}

make_bridges() { # NAME...
    local bridge
    ip netns add "$net-bridges" 2>/dev/null || skip "network namespaces can't be made here"
    for bridge; do
        ip -n "$net-bridges" link add "$bridge" type bridge mcast_snooping 0 2>/dev/null || skip "a bridge can't be made here"
        ip -n "$net-bridges" link set "$bridge" up
    done
}

# The address of a machine whose name is a number.
address_of() { echo "10.79.0.$1"; } # MACHINE

# A machine with an interface 'wire'. Its IPv6 addresses are good at once: no one else has them, so nothing is asked first (no duplicate address detection).
make_machine() { # MACHINE BRIDGE
    machines="$machines $1"
    ip netns add "$net-$1" || skip "a network namespace can't be made here"
    ip netns exec "$net-$1" sh -c 'for which in all default; do echo 0 >/proc/sys/net/ipv6/conf/$which/accept_dad; done' 2>/dev/null
    ip -n "$net-$1" link set lo up
    add_wire "$1" wire "to-$1" "$2" "$(address_of "$1")"
}

# Joins a machine to a bridge by an interface, which has a carrier from the start, and waits until its IPv6 address is there, where IPv6 is.
add_wire() { # MACHINE INTERFACE OTHER-END BRIDGE ADDRESS
    local tries=20
    ip -n "$net-$1" link add "$2" type veth peer name "$3" netns "$net-bridges" 2>/dev/null || skip "a veth can't be made here"
    ip -n "$net-$1" addr add "$5/24" dev "$2"
    ip -n "$net-bridges" link set "$3" master "$4" up
    ip -n "$net-$1" link set "$2" up
    [ -e /proc/net/if_inet6 ] || return 0
    until has_ipv6 "$1" "$2" || [ "$tries" = 0 ]; do
        tries=$((tries - 1))
        sleep 0.05
    done
}

# Whether an interface has an IPv6 address of the link's own that may be used.
has_ipv6() { ip -n "$net-$1" -6 addr show dev "$2" scope link -tentative 2>/dev/null | grep -q inet6; } # MACHINE INTERFACE

# Runs a command on a machine, for at most 60 s, or as many as `longest` says.
on() { # MACHINE COMMAND...
    local machine=$1
    shift
    timeout -k 2 "${longest:-60}" ip netns exec "$net-$machine" "$@"
}

# Starts a command on a machine in the background, with its output in a file of the work folder; its process id is then in $last. It reads from $input.
start_on() { # MACHINE FILE COMMAND...
    local machine=$1 file=$2
    shift 2
    timeout -k 2 "${longest:-60}" ip netns exec "$net-$machine" "$@" >"$work/$file" 2>&1 <"${input:-/dev/null}" &
    last=$!
    running="$running $last"
}

# Ends what was started.
stop_started() {
    local id
    for id in $running; do kill "$id" 2>/dev/null; done
    for id in $running; do wait "$id" 2>/dev/null; done
    running=
}

remove_all() {
    local machine
    stop_started
    for machine in $machines bridges; do ip netns del "$net-$machine" 2>/dev/null; done
    rm -rf "$work"
}

# Waits until a file of the work folder has a line that matches, or so many.
wait_for() { # SECONDS FILE PATTERN [COUNT]
    local tries=$(($1 * 20)) count=${4:-1}
    while [ "$tries" -gt 0 ]; do
        [ "$(cat "$work/$2" 2>/dev/null | grep -cE -- "$3")" -ge "$count" ] && return 0
        sleep 0.05
        tries=$((tries - 1))
    done
    echo "    after $1 s $2 has fewer lines '$3' than $count"
    return 1
}

# Milliseconds of the wall clock since 1970; and those at which a program began that says so (our responder, at.py).
now() { date +%s%3N; }
begun_at() { sed -nE 's/^begun (on .* )?at ([0-9]+).*/\2/p' "$work/$1"; } # FILE

# How busy the machine is, in words.
how_busy() { echo "load average $(cut -d ' ' -f 1-3 /proc/loadavg) on $(nproc) cores"; }
