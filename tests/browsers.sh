#!/usr/bin/env bash
# Three browsers on one link, ours, avahi-browse and python-zeroconf's, while instances appear, change and leave: is the list of each right in the end, how
# soon, and how many packets does each send?
#   tests/browsers.sh [COUNT ..]           as root; about 5 minutes; so many instances (3, 40 and 300), in three kinds of run; prints the rows of a table
#   tests/browsers.sh --short              as in the gate: 3 instances, resolved, and none that falls silent; about 10 s
#   KINDS='names late' tests/browsers.sh   some kinds alone: names, names for browsers that begin when all instances are there, resolved
#   ONLY=BROWSER tests/browsers.sh ..      with one of the three alone on the link: ours, avahi or zeroconf
#   PROGRAMS=FOLDER tests/browsers.sh ..   with a browser that is built already
# Each browser, Avahi's with its daemon, is alone in a network namespace, and so are the two publishers, of python-zeroconf: of COUNT instances all but one are
# on the first, and the last, whose PTR lives for 20 s, is on the second. The browsers begin, the instances appear, a tenth gets another port and TXT, a third
# says goodbye, and the second publisher is killed. Every wait has an end; it fails where a list is not right at the end. Where namespaces can't be made or a
# peer is missing it says 'skipped: ...' and succeeds.
set -uo pipefail
root=$(cd "$(dirname "$0")/.." && pwd)
is_short=
cases=
longest=150 # seconds that a program may run
counts="3 40 300"
kinds=${KINDS:-"names late resolved"}
case ${1:-} in
--short) is_short=yes counts=3 kinds=resolved ;;
*[!0-9]*) sed -n 2,12p "$0" >&2; exit 2 ;;
?*) counts=$* ;;
esac
work=$(mktemp -d)
. "$root/tests/machines/machines.sh"
. "$root/tests/machines/avahi.sh"
. "$root/tests/interop/peers.sh"
. "$root/tests/interop/programs.sh"

service=_voice._tcp
publisher=1 silent=2 ours=3 avahi=4 zeroconf=5 # machines

# Whether a browser takes part.
is_there() { [ "${ONLY:-$1}" = "$1" ]; } # ours|avahi|zeroconf

mark() { echo "$1 $(now)" >>"$work/phases"; } # PHASE

# Avahi's daemon, which publishes nothing here.
start_quiet_avahi() {
    write_avahi_settings "$work/avahi-settings" other yes
    sed -i 's/^\[publish\]/&\ndisable-publishing=yes/' "$work/avahi-settings/avahi.conf"
    start_avahi_on $avahi avahi.log "$work/avahi-settings"
    wait_for 10 avahi.log 'Server startup complete'
}

start_browsers() { # KIND
    local kind=names names=--names resolve=
    [ "$1" != resolved ] || kind=resolved names='' resolve=r
    ! is_there ours || start_stamped_on $ours ours "$browser" --ipv4-only --interface "$(address_of $ours)" --service $service ${names:+"$names"}
    ! is_there avahi || start_stamped_on $avahi avahi avahi-browse -p$resolve $service
    ! is_there zeroconf ||
        start_stamped_on $zeroconf zeroconf "$python" "$root/tests/browsers/zeroconf_browse.py" "$(address_of $zeroconf)" $service.local. $kind
}

# The first publisher reads what it is to do from a pipe, which is held open here.
start_publishers() { # COUNT
    rm -f "$work/words"
    mkfifo "$work/words" && exec 7<>"$work/words"
    input=$work/words start_on $publisher published "$python" "$root/tests/browsers/publish.py" "$(address_of $publisher)" "$1" most
    # shellcheck disable=SC2016
    start_on $silent kept sh -c '"$@"; true' sh "$python" "$root/tests/browsers/publish.py" "$(address_of $silent)" "$1" silent
    wait_for 30 published '^appear$' && wait_for 30 kept '^appear$'
}

# The browsers begin, and 2 s later the publishers; or the publishers, and the browsers 3 s after all is announced.
start_all() { # COUNT KIND
    if [ "$2" = late ]; then
        start_publishers "$1" && sleep 3 && start_quiet_avahi || return 1
        mark appear
        start_browsers "$2"
    else
        start_quiet_avahi && start_browsers "$2" && sleep 2 || return 1
        mark appear
        start_publishers "$1"
    fi
}

# Waits until the browsers have printed so many lines each; where one has not, the judge tells.
wait_for_lines() { # SECONDS FILE PATTERN COUNT [FILE PATTERN COUNT ..]
    local seconds=$1
    shift
    while [ $# -gt 0 ]; do
        ! is_there "$1" || wait_for "$seconds" "$1" "^[0-9]+ $2" "$3"
        shift 3
    done
    sleep 1
}

# Has the first publisher do something, and waits until it is done.
tell_publisher() { # PHASE
    mark "$1"
    echo "$1" >&7
    wait_for 20 published "^$1\$"
}

# Kills the second publisher, and lets the 20 s pass that its PTR lives for at most.
fall_silent() {
    mark silent
    kill -9 "$(sed -n 's/^process //p' "$work/kept")"
    sleep 20
}

run() { # COUNT KIND
    local count=$1 kind=$2 found='\+;' shown=added changed left status
    changed=$(chosen changing "$count")
    left=$(chosen leaving "$count")
    [ "$kind" != resolved ] || found='=;' shown=found
    start_bus
    start_on bridges capture "$python" "$root/tests/browsers/capture.py"
    wait_for 10 capture capturing && start_all "$count" "$kind" || return 1
    wait_for_lines 20 ours found "$count" avahi "$found" "$count" zeroconf $shown "$count"
    tell_publisher change || return 1
    [ "$kind" != resolved ] || wait_for_lines 20 ours changed "$changed" zeroconf found $((count + changed))
    tell_publisher leave || return 1
    wait_for_lines 20 ours gone "$left" avahi '-;' "$left" zeroconf removed "$left"
    if [ -z "$is_short" ]; then
        fall_silent
        wait_for_lines 10 ours gone $((left + 1)) avahi '-;' $((left + 1))
    fi
    mark end
    [ "$kind" != resolved ] || on $avahi avahi-browse -rpt $service >"$work/avahi-end"
    stop_started
    stop_bus
    "$python" "$root/tests/browsers/judge.py" "$work" "$count" "$kind"
    status=$?
    [ -z "${KEEP:-}" ] || cp -r "$work" "$KEEP/$count-$kind"
    rm -rf "${work:?}"/*
    return "$status"
}

# How many instances change or leave.
chosen() { "$python" -c "import sys; sys.path.insert(0, '$root/tests/browsers'); import instances; print(len(instances.$1($2)))"; } # changing|leaving COUNT

trap 'remove_all; stop_bus' EXIT
find_peers
find_programs || exit 1
make_bridges bridge
for machine in $publisher $silent $ours $avahi $zeroconf; do make_machine "$machine" bridge; done
peer_versions
how_busy
printf '| %s | %s ' instances list browser 'whole after the last appeared' 'right after the last changed' 'right after the last goodbye' \
    "right after the silent one's last word" 'packets sent' 'bytes sent' 'right at the end'
echo '|'
echo "|---|---|---|---|---|---|---|---|---|---|"
failed=0
for count in $counts; do
    for kind in $kinds; do
        run "$count" "$kind" || failed=$((failed + 1))
    done
done
how_busy
runs=$(($(wc -w <<<"$counts") * $(wc -w <<<"$kinds")))
echo "browsers: in $((runs - failed)) of $runs runs every list was right at the end"
[ "$failed" = 0 ]
