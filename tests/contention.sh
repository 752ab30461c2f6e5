#!/usr/bin/env bash
# 2, 4 and 8 machines on one link begin in one millisecond, and all want "Booth 3" and "dock.local", with different data. When has each name one holder?
#   tests/contention.sh [TRIALS]          as root; for each number TRIALS (20) of ours with random draws and as many with equal ones, and the same of Avahi's
#                                         daemons where it is installed; 51 minutes on a busy machine
#   tests/contention.sh --short           one trial of each of ours, about 30 s: fails where in the end a name has not one holder
#   PROGRAMS=FOLDER tests/contention.sh   with programs that are built already
#   KINDS=avahi tests/contention.sh       one of the two kinds alone, ours or avahi
# Each machine is a network namespace at one bridge, all made and removed here. Who holds a name is told by who answers for it (tests/holders/watch.py). A draw
# is the wait before the first probe, 0 to 250 ms; equal ones are 0. A trial in which one begins later than in the moment's millisecond is begun anew, up to
# twice (--short: never); then it is taken as it is, and the table says so. Where namespaces can't be made it says 'skipped: ...' and succeeds. Its last
# lines are a table.
set -uo pipefail
root=$(cd "$(dirname "$0")/.." && pwd)
trials=20
seconds=5
tries=3
short=
case ${1:-} in
--short) short=yes trials=1 seconds=3 tries=1 ;;
'') ;;
*[!0-9]*) sed -n 2,12p "$0" >&2; exit 2 ;;
*) trials=$1 ;;
esac
work=$(mktemp -d)
. "$root/tests/holders/holders.sh"
. "$root/tests/interop/programs.sh"
watcher=9

# Avahi can't be given a draw: it has equal ones by a rand() that always gives 1, in place of the C library's. With 0 it never probes.
equal_draws=$work/equal_draws.so
make_equal_draws() { echo 'int rand(void) { return 1; }' | cc -shared -fPIC -x c -o "$equal_draws" - 2>/dev/null; }

# How each kind is started with either draws.
start_ours_random() { start_ours "$1" --at "$moment"; } # NUMBER
start_ours_equal() { start_ours "$1" --at "$moment" --draw 0; } # NUMBER
start_avahi_random() { start_avahi "$1" "$moment"; } # NUMBER
start_avahi_equal() { start_avahi "$1" "$moment" env LD_PRELOAD="$equal_draws"; } # NUMBER

# Begins so many at one moment, with the watch; how many milliseconds after it the last began is then in $late. A later try leaves more time to start them.
begin() { # KIND DRAWS COUNT TRY
    local number
    stop_started
    rm -f "$work"/dock-*
    # shellcheck disable=SC2046
    start_watch "$watcher" "$seconds" $(seq "$3") || return 1
    set_moment $(((200 + 100 * $3) * $4))
    for number in $(seq "$3"); do "start_$1_$2" "$number"; done
    for number in $(seq "$3"); do wait_for 10 "dock-$number" '^begun ' || return 1; done
    late=$(($(for number in $(seq "$3"); do begun_at "dock-$number"; done | sort -n | tail -n 1) - moment))
}

trial() { # KIND DRAWS COUNT
    local try
    for try in $(seq "$tries"); do
        begin "$@" "$try" || return 1
        [ "$late" != 0 ] || break
    done
    wait "$watch"
    echo "$late $(tail -n 1 "$work/watch")" >>"$work/trials-$1-$2-$3"
    stop_started
}

trap remove_all EXIT
find_tools ip timeout python3 cargo
make_bridges bridge
for number in $(seq $watcher); do make_machine "$number" bridge; done
find_programs || exit 1
kinds=ours
[ -n "$short" ] || ! has_avahi || kinds=${KINDS:-ours avahi}
cases=
for kind in $kinds; do
    for draws in random equal; do
        [ "$kind-$draws" != avahi-equal ] || make_equal_draws || { echo "there is no C compiler: Avahi is not tried with equal draws"; continue; }
        for count in 2 4 8; do cases="$cases $kind-$draws-$count"; done
    done
done
echo "contention: $trials trials of each, $(how_busy)"
for case in $cases; do
    for number in $(seq "$trials"); do
        # shellcheck disable=SC2086
        trial ${case//-/ } || { tail -n 5 "$work"/dock-*; stop_started; echo "$case, trial $number: did not begin"; }
    done
done
echo "done: $(how_busy)"
# shellcheck disable=SC2086
python3 "$root/tests/holders/contention_table.py" "$trials" "$work" $cases
