#!/usr/bin/env bash
# Forty responders on a bad link: packets that are late, doubled and out of order, responders that are killed and started again, links that go down and up. Do two
# ever hold one name outside what demand 3 allows, does a program die, does memory grow? Then, with packets lost, which demand 3 does not allow: how long until a
# name has one holder, beside Avahi?
#   tests/soak.sh [MINUTES]             as root; MINUTES (60) of faults, then TRIALS (10) of each row of the table, some 20 minutes more
#   tests/soak.sh --short               45 s of faults, and one trial of ours with 30 % lost: about a minute
#   tests/soak.sh --table               the table alone
#   SEED=3 tests/soak.sh ..             other faults: which, whose and when; else seed 1
#   TRIALS=0 tests/soak.sh ..           without the table
#   PROGRAMS=FOLDER tests/soak.sh ..    with programs that are built already
#   KINDS=avahi tests/soak.sh ..        the table of one of the two kinds alone, ours or avahi
# Each machine is a network namespace, joined to all others by a relay (tests/soak/relay.c), which delays, loses and doubles; the kernel's netem is not needed. Who
# holds a name is told by the responders' lines, and by who answers for it. Where namespaces can't be made it says 'skipped: ...' and succeeds. It ends by itself.
set -uo pipefail
root=$(cd "$(dirname "$0")/.." && pwd)
count=40
minutes=60
trials=${TRIALS:-10}
losses='0 100 300' # of 1,000
short=
case ${1:-} in
--short) short=yes trials=${TRIALS:-1} losses=300 ;;
--table) minutes=0 ;;
'') ;;
*[!0-9]* | 0) sed -n 2,16p "$0" >&2; exit 2 ;;
*) minutes=$1 ;;
esac
seconds=$((minutes * 60))
[ -z "$short" ] || seconds=45
seed=${SEED:-1}
work=$(mktemp -d)
. "$root/tests/holders/holders.sh"
. "$root/tests/interop/programs.sh"
export PYTHONPATH=$PYTHONPATH:$root/tests/soak
watcher=$((count + 1))
contenders=8
watched=10 # seconds of a trial
delay=100
doubled=50 # of 1,000

# A machine whose only neighbour is the relay. All know each other's hardware address: to ask for it would take a packet more.
make_star() {
    local number
    ip netns add "$net-bridges" 2>/dev/null || skip "network namespaces can't be made here"
    for number in $(seq "$watcher"); do
        echo "neigh replace $(address_of "$number") lladdr $(printf '02:00:00:00:00:%02x' "$number") dev wire nud permanent"
    done >"$work/neighbours"
    for number in $(seq "$watcher"); do
        machines="$machines $number"
        ip netns add "$net-$number" || skip "a network namespace can't be made here"
        ip -n "$net-$number" -batch - <<LINES || skip "a veth can't be made here"
link set lo up
link add wire address $(printf '02:00:00:00:00:%02x' "$number") type veth peer name to-$number netns $net-bridges
addr add $(address_of "$number")/24 dev wire
link set wire up
LINES
        ip -n "$net-bridges" link set "to-$number" up
        ip -n "$net-$number" -batch "$work/neighbours" 2>/dev/null
    done
}

# Starts the relay with so many lost of 1,000, in place of the one before.
start_relay() { # LOST
    stop_relay
    ip netns exec "$net-bridges" "$work/relay-program" "$watcher" "$delay" "$doubled" "$1" "$seed" "$watcher" >"$work/relay" 2>&1 &
    relay=$!
    wait_for 10 relay '^relaying$'
}
relay=
stop_relay() {
    [ -n "$relay" ] || return 0
    kill "$relay" 2>/dev/null
    wait "$relay" 2>/dev/null
    relay=
}

# The faults; judged by tests/soak/judge.py.
soak() {
    local status=0
    start_relay 0 || return 1
    echo "soak: $count responders for $seconds s, delays of 0 to $delay ms, $doubled of 1,000 packets doubled, seed $seed; $(how_busy)"
    ip netns exec "$net-$watcher" python3 "$root/tests/soak/soak.py" "$net" "$work" "$responder" "$seconds" "$seed" "$count" 2>"$work/faults" || status=1
    stop_relay
    tail -n 1 "$work/relay"
    [ "$status" = 0 ] || tail -n 40 "$work/faults"
    echo "soaked: $(how_busy)"
    return "$status"
}

# One trial: all that contend begin at one moment, somebody asks for both names once a second, and it is watched who answers.
trial() { # KIND LOST
    local number
    stop_started
    rm -f "$work"/dock-*
    # shellcheck disable=SC2046
    start_watch "$watcher" "$watched" $(seq "$contenders") || return 1
    start_on "$watcher" asker python3 "$root/tests/soak/ask.py" "$(address_of "$watcher")" $((watched + 3)) 'Booth 3._voice._tcp.local/SRV' dock.local/A
    set_moment $((200 + 100 * contenders))
    for number in $(seq "$contenders"); do
        if [ "$1" = ours ]; then start_ours "$number" --ipv4-only --at "$moment"; else start_avahi "$number" "$moment"; fi
    done
    for number in $(seq "$contenders"); do wait_for 10 "dock-$number" '^begun ' || return 1; done
    wait "$watch"
    echo "0 $(tail -n 1 "$work/watch")" >>"$work/trials-$1-$2"
    stop_started
}

table() {
    local kinds=ours kind lost number cases=
    [ -n "$short" ] || ! has_avahi || kinds=${KINDS:-ours avahi}
    for lost in $losses; do
        start_relay "$lost" || return 1
        for kind in $kinds; do
            cases="$cases $kind-$lost"
            for number in $(seq "$trials"); do
                trial "$kind" "$lost" || { tail -n 5 "$work"/dock-*; stop_started; echo "$kind, $lost of 1,000 lost, trial $number: did not begin"; }
            done
        done
    done
    echo "loss: $contenders begin at once, $watched s are watched; $(how_busy)"
    # shellcheck disable=SC2086
    python3 "$root/tests/holders/loss_table.py" "$watched" "$work" $cases
}

trap 'stop_relay; remove_all' EXIT
find_tools ip timeout python3 cargo cc
make_star
cc -O2 -Wall -Wextra -o "$work/relay-program" "$root/tests/soak/relay.c" || exit 1
find_programs || exit 1
status=0
[ "$seconds" = 0 ] || soak || status=1
[ "$trials" = 0 ] || table || status=1
exit "$status"
