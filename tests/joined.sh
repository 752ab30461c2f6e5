#!/usr/bin/env bash
# Two floors, each a bridge with a machine that holds "Booth 3" and "dock.local", with different data; then a cable joins them, and a browser on one floor asks.
# How long do both hold a name, and when is one holder left?
#   tests/joined.sh [TRIALS]          as root; TRIALS of ours (20), and as many of Avahi's daemons in the same set-up where it is installed; about 6 minutes
#   tests/joined.sh --short           two trials of ours, about 15 s: fails where at the end a name has not one holder
#   PROGRAMS=FOLDER tests/joined.sh   with programs that are built already
#   KINDS=avahi tests/joined.sh       one of the two kinds alone, ours or avahi
# Each machine is a network namespace, the cable a veth between two bridges, the only one there is; all is made and removed here. Who holds a name is told by
# who answers for it (tests/holders/watch.py). Where namespaces can't be made it says 'skipped: ...' and succeeds. Its last lines are a table.
set -uo pipefail
root=$(cd "$(dirname "$0")/.." && pwd)
trials=20
short=
case ${1:-} in
--short) short=yes trials=2 ;;
'') ;;
*[!0-9]*) sed -n 2,10p "$0" >&2; exit 2 ;;
*) trials=$1 ;;
esac
work=$(mktemp -d)
. "$root/tests/holders/holders.sh"
. "$root/tests/interop/programs.sh"

# The cable is plugged into the lower floor's bridge, and is plugged into the upper one's to join them.
make_floors() {
    make_bridges lower upper
    ip -n "$net-bridges" link add cable type veth peer name plug
    ip -n "$net-bridges" link set cable master lower up
    ip -n "$net-bridges" link set plug up
    make_machine 1 lower
    make_machine 2 upper
    make_machine 3 lower # the browser's
}
part_floors() { ip -n "$net-bridges" link set plug nomaster; }

both_hold_ours() {
    start_ours 1
    start_ours 2
    wait_for 8 dock-1 ' held ' 2 && wait_for 8 dock-2 ' held ' 2 && sleep 1.5
}

both_hold_avahi() {
    start_avahi 1 0
    start_avahi 2 0
    local number
    for number in 1 2; do wait_for 12 "dock-$number" 'startup complete. Host name is dock.local|"Booth 3" .* successfully established' 2 || return 1; done
    # its announcements go on for some three seconds
    sleep 3.5
}

# One trial: both hold, the floors are joined, a browser begins to ask, and 5 s are watched. When they were joined stands before what the watch saw.
trial() { # ours|avahi
    local joined
    rm -f "$work"/dock-*
    part_floors
    "both_hold_$1" || return 1
    start_watch 3 5 1 2 || return 1
    # shellcheck disable=SC2016
    start_on 3 browser sh -c 'read -r word <"$0/joined"; exec "$@"' "$work" "$browser" --interface "$(address_of 3)" --service _voice._tcp --seconds 5
    set_moment 0
    ip -n "$net-bridges" link set plug master upper
    joined=$(($(now) - moment))
    echo now >"$work/joined"
    wait "$watch"
    echo "$joined $(tail -n 1 "$work/watch")" >>"$work/trials-$1"
    stop_started
}

trap remove_all EXIT
find_tools ip timeout python3 cargo
make_floors
find_programs || exit 1
mkfifo "$work/joined"
kinds=ours
[ -n "$short" ] || ! has_avahi || kinds=${KINDS:-ours avahi}
echo "joined: $trials trials, $(how_busy)"
for kind in $kinds; do
    for number in $(seq "$trials"); do
        trial "$kind" || { tail -n 5 "$work"/dock-*; stop_started; echo "$kind, trial $number: did not begin"; }
    done
done
echo "done: $(how_busy)"
# shellcheck disable=SC2086
python3 "$root/tests/holders/joined_table.py" "$trials" "$work" $kinds
