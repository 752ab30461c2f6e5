#!/usr/bin/env bash
# Links: our responder and our browser by IPv4 and IPv6, on two interfaces, over links that go down and up and addresses that change, with names that are picked
# anew, under a supervisor; and with which status they end. In network namespaces made and removed here.
#   tests/links.sh             as root; about a minute
#   tests/links.sh CASE ..     runs these cases alone
#   PROGRAMS=FOLDER tests/links.sh ..   with programs that are built already
# Where namespaces can't be made it says 'skipped: ...' and succeeds. Every wait has an end. Its last line is 'links: N passed, M failed'.
set -uo pipefail
root=$(cd "$(dirname "$0")/.." && pwd)
. "$root/tests/machines/machines.sh"
. "$root/tests/interop/programs.sh"

cases="ipv6_alone both_families nothing_beyond_the_link two_interfaces a_link_down_and_up a_quick_flap a_flap_untold an_address_changed an_interface_that_comes_later
    names_picked_anew every_name_is_taken ends_with_a_status the_port_is_taken idle_is_idle a_supervisor_is_told"
service=_voice._tcp
booth=booth._voice._tcp.local
names="--instance booth --service $service --host dock --port 4000 --txt room=3"

# Machine a is on two links, b on the first, c on the second.
address_of() { # MACHINE
    case $1 in a) echo 10.79.1.1 ;; b) echo 10.79.1.2 ;; c) echo 10.79.2.3 ;; esac
}

make_links() {
    make_bridges first second
    make_machine a first
    make_machine b first
    make_machine c second
    add_wire a wire2 to-a2 second 10.79.2.1
    ip -n "$net-a" addr add fd79:1::1/64 dev wire
    ip -n "$net-b" addr add 10.79.1.4/24 dev wire
    has_ipv6 a wire && has_ipv6 a wire2 && has_ipv6 b wire && has_ipv6 c wire || skip "there is no IPv6 here"
}

run_case() { # NAME
    local begun=$SECONDS
    printf '\n-- %s\n' "${1//_/ }"
    if "$1"; then
        passed=$((passed + 1))
        echo "ok ($((SECONDS - begun)) s)"
    else
        failed=$((failed + 1))
        echo "FAILED"
        tail -n 15 "$work"/ours* "$work"/peer* 2>/dev/null | sed 's/^/    | /'
    fi
    stop_started
    rm -f "$work"/ours* "$work"/peer*
}

# Shows the first line that matches, indented; answers whether there is one.
has() { # FILE PATTERN
    grep -m 1 -E -- "$2" "$work/$1" | sed 's/^/    /'
    grep -qE -- "$2" "$work/$1" && return 0
    echo "    no line '$2' in $1"
    return 1
}

# How many lines of a file match.
count() { grep -cE -- "$2" "$work/$1"; } # FILE PATTERN

start_ours() { # MACHINE FILE OPTIONS...
    local machine=$1 file=$2
    shift 2
    # shellcheck disable=SC2086
    start_on "$machine" "$file" "$responder" $names --seconds 50 "$@"
}

start_browser() { # MACHINE FILE OPTIONS...
    local machine=$1 file=$2
    shift 2
    start_on "$machine" "$file" "$browser" --service $service --seconds 50 "$@"
}

start_listener() { # MACHINE FILE INTERFACE
    start_on "$1" "$2" python3 "$root/tests/links/listen.py" "$3" && wait_for 5 "$2" listening
}

holds() { # FILE [INSTANCE HOST]
    wait_for 8 "$1" "held +${2:-booth}\\._voice\\._tcp\\.local" && wait_for 5 "$1" "held +${3:-dock}\\.local"
}

# The id of the program itself, behind those that run it.
program_of() { pgrep -P "$1"; } # ID

# By IPv6 alone, both ways: nothing of ours goes to 224.0.0.251.
ipv6_alone() {
    start_listener b peer wire || return 1
    start_ours a ours --interface wire --ipv6-only && holds ours && sleep 1.2 || return 1
    start_browser b ours-b --interface wire --ipv6-only
    wait_for 5 ours-b 'room=3' && has ours-b '^found +booth$' && has ours-b 'address +10\.79\.1\.1$' && has ours-b 'address +fd79:1::1$' || return 1
    has peer '^ipv6 query from fe80' && has peer '^ipv6 response from fe80' && ! grep '^ipv4 ' "$work/peer"
}

# By both: each packet goes out twice, and one who speaks either finds us.
both_families() {
    start_listener b peer wire || return 1
    start_ours a ours --interface 10.79.1.1 && holds ours || return 1
    has ours '^begun on wire \(10\.79\.1\.1, fe80' && has peer '^ipv4 query from 10\.79\.1\.1$' && has peer '^ipv6 query from fe80' &&
        has peer '^ipv4 response from 10\.79\.1\.1$' && has peer '^ipv6 response from fe80' || return 1
    start_browser b ours-b4 --interface wire --ipv4-only
    start_browser b ours-b6 --interface wire --ipv6-only
    wait_for 5 ours-b4 'room=3' && wait_for 5 ours-b6 'room=3' && has ours-b4 '^found +booth$' && has ours-b6 '^found +booth$'
}

# A plain resolver asks by IPv6: from a source that is near it is answered, from the address that it asked or, where that was the group, from the link's own;
# from one in no subnet of ours it is not, though there is a route (RFC 6762 section 11).
nothing_beyond_the_link() {
    local from to
    for to in fd79:1::2 fd99::2; do ip -n "$net-b" addr replace $to/64 dev wire nodad; done
    ip -n "$net-a" route replace fd99::/64 dev wire && start_ours a ours --interface wire && holds ours || return 1
    for to in fd79:1::1 ff02::fb%wire; do
        for from in fd79:1::2 fd99::2; do
            on b python3 "$root/tests/interop/plain_ask.py" "$from" "$to" dock.local 28 | sed "s/^/from $from to $to: /" >>"$work/peer"
        done
    done
    has peer '^from fd79:1::2 to fd79:1::1: reply from fd79:1::1 port 5353$' && has peer '^from fd99::2 to fd79:1::1: no reply$' &&
        has peer '^from fd79:1::2 to ff02::fb%wire: reply from fe80::.* port 5353$' && has peer '^from fd99::2 to ff02::fb%wire: no reply$' || return 1
    kill "$last"
    wait_for 3 ours dropped && has ours '^2 packets were dropped'
}

# A responder for each interface, which tells there the addresses that are good there; and a browser on both.
two_interfaces() {
    start_ours a ours --all-interfaces
    wait_for 5 ours '^wire: .*held +dock' && wait_for 5 ours '^wire2: .*held +dock' || return 1
    start_browser b ours-b --interface wire
    start_browser c ours-c --interface wire
    wait_for 5 ours-b 'room=3' && wait_for 5 ours-c 'room=3' || return 1
    has ours-b 'address +10\.79\.1\.1$' && ! grep '10\.79\.2' "$work/ours-b" || return 1
    has ours-c 'address +10\.79\.2\.1$' && ! grep '10\.79\.1\|fd79:1' "$work/ours-c" || return 1
    stop_started
    start_ours b ours-b2 --interface wire --instance one && start_ours c ours-c2 --interface wire --instance two
    holds ours-b2 one && holds ours-c2 two || return 1
    start_browser a ours-a --all-interfaces
    wait_for 5 ours-a '^wire: found +one' && wait_for 5 ours-a '^wire2: found +two' && has ours-a '^wire: found +one' && has ours-a '^wire2: found +two'
}

# What is heard of ours on the link after a new start: three probes and an announcement, by both families.
begun_anew() { # FILE OF A LISTENER, OURS
    wait_for 8 "$2" 'anew +on wire' && wait_for 8 "$2" 'held +dock\.local' 2 || return 1
    has "$2" 'anew +on wire \(10\.79\.1\.[0-9]+, fe80.*\) at [0-9]{13}, start draw' || return 1
    [ "$(count "$1" 'question dock\.local\. type 255')" -ge 6 ] && has "$1" '^record dock\.local\. type 1 ttl 120 10\.79'
}

# The bridge's end goes down: the carrier is lost, and comes back. Our browser says that what it found is gone, and finds it again.
a_link_down_and_up() {
    start_ours a ours --interface wire && holds ours || return 1
    start_browser b ours-b --interface wire
    wait_for 5 ours-b '^found +booth' && sleep 1.2 || return 1
    ip -n "$net-bridges" link set to-a down && wait_for 5 ours 'down +wire' && has ours 'down +wire' || return 1
    start_listener b peer wire && sleep 0.5 && ip -n "$net-bridges" link set to-a up && begun_anew peer ours || return 1
    ip -n "$net-bridges" link set to-b down && wait_for 5 ours-b '^gone +booth' && ip -n "$net-bridges" link set to-b up &&
        wait_for 8 ours-b '^found +booth' 2 && has ours-b '^gone +booth'
}

# Down and up while the program does not run: the names are claimed anew all the same.
a_quick_flap() {
    local id
    start_ours a ours --interface 10.79.1.1 && holds ours || return 1
    id=$(program_of "$last") && start_listener b peer wire && kill -STOP "$id" || return 1
    printf 'link set wire down\nlink set wire up\naddr replace fd79:1::1/64 dev wire\n' | ip -n "$net-a" -batch - && sleep 0.5
    kill -CONT "$id" && begun_anew peer ours
}

# When it last began anew, by the wall clock.
last_anew() { sed -nE 's/.* ms  anew .* at ([0-9]+), start draw.*/\1/p' "$work/$1" | tail -n 1; } # FILE

# Linux tells of a lost carrier at most once a second, where an interface's number is that of its other end, as of one that is on a cable: of a second flap within
# that time it says only that the carrier is there. The names are claimed anew after it all the same.
a_flap_untold() {
    local flapped=0 tries=60
    ip -n "$net-b" link add cable index 77 type veth peer name to-b2 index 77 netns "$net-bridges" && ip -n "$net-b" addr add 10.79.1.5/24 dev cable &&
        ip -n "$net-bridges" link set to-b2 master first up && ip -n "$net-b" link set cable up && sleep 1.2 || return 1
    start_ours b ours --interface cable --ipv4-only && holds ours && sleep 1.2 || return 1
    for _ in 1 2; do
        flapped=$(now)
        ip -n "$net-bridges" link set to-b2 down && sleep 0.1 && ip -n "$net-bridges" link set to-b2 up && sleep 0.1
    done
    until [ "$(last_anew ours)0" -gt "${flapped}0" ] || [ "$tries" = 0 ]; do sleep 0.05 && tries=$((tries - 1)); done
    ip -n "$net-b" link del cable
    has ours 'anew +on cable' && echo "    the last $(($(last_anew ours) - flapped)) ms after the second flap began" && [ "$tries" -gt 0 ]
}

# Another IPv4 address: it is told to all, and to those who ask.
an_address_changed() {
    start_ours a ours --interface wire && holds ours || return 1
    start_browser b ours-b --interface wire
    wait_for 5 ours-b 'address +10\.79\.1\.1$' && start_listener b peer wire || return 1
    printf 'addr add 10.79.1.9/24 dev wire\naddr del 10.79.1.1/24 dev wire\naddr replace 10.79.1.9/24 dev wire\n' | ip -n "$net-a" -batch -
    begun_anew peer ours && has peer '^record dock\.local\. type 1 ttl 120 10\.79\.1\.9$' &&
        wait_for 5 ours-b '^changed +booth' && wait_for 5 ours-b 'address +10\.79\.1\.9$'
    local answer=$?
    printf 'addr del 10.79.1.9/24 dev wire\naddr replace 10.79.1.1/24 dev wire\n' | ip -n "$net-a" -batch -
    return $answer
}

an_interface_that_comes_later() {
    start_ours c ours --interface later
    start_browser c ours-b --interface later
    wait_for 5 ours '^waiting for later' && wait_for 5 ours-b '^waiting for later' && has ours '^waiting for later' || return 1
    add_wire c later to-c2 first 10.79.1.3
    holds ours && wait_for 5 ours-b '^found +booth' && has ours 'anew +on later \(10\.79\.1\.3'
    local answer=$?
    ip -n "$net-c" link del later
    return $answer
}

# Two that were told the same names: the second takes others, and data that are changed meanwhile stay changed.
names_picked_anew() {
    start_ours a ours --interface wire && holds ours && sleep 1 || return 1
    start_ours b ours-b --interface wire --rename --port 4001
    holds ours-b 'booth \(2\)' dock-2 && has ours-b 'lost +booth' && has ours-b "renamed +'booth \(2\)'" || return 1
    ! grep -E 'held +(booth\._voice|dock\.local)' "$work/ours-b" || return 1
    start_ours b ours-b3 --interface 10.79.1.4 --ipv4-only --rename --port 4002
    holds ours-b3 'booth \(3\)' dock-3 && has ours-b3 'held +booth \(3\)' && has ours-b3 'held +dock-3\.local'
}

# Someone holds every name that is probed for: after fifteen conflicts each try waits for five seconds (RFC 6762 section 8.1).
every_name_is_taken() {
    local tries
    start_on b peer python3 "$root/tests/links/oppose.py" wire && wait_for 5 peer opposing || return 1
    start_ours a ours --interface wire --ipv4-only --rename --draw 0
    wait_for 8 ours 'renamed .* in 5000 ms' && has ours 'renamed .* in 5000 ms' || return 1
    tries=$(count ours 'renamed')
    sleep 4
    echo "    renamed $tries times, then not for 4 s: $(count ours 'renamed')"
    [ "$tries" -ge 8 ] && [ "$tries" -le 16 ] && [ "$(count ours 'renamed')" = "$tries" ] && ! grep ' held ' "$work/ours" &&
        wait_for 5 ours 'renamed .* in 5000 ms' 2
}

# The status with which a program ends, and its last words.
status_of() { # MACHINE STATUS WORDS COMMAND...
    local machine=$1 status=$2 words=$3 said got
    shift 3
    said=$(on "$machine" "$@" 2>&1)
    got=$?
    echo "    status $got: $(tail -n 1 <<<"$said")"
    [ "$got" = "$status" ] && grep -qE -- "$words" <<<"$said"
}

ends_with_a_status() {
    # shellcheck disable=SC2086
    status_of b 2 "no option '--dog'" "$responder" --dog && status_of b 2 "no option '--dog'" "$browser" --dog &&
        status_of b 2 'refusal 7' "$responder" $names --host "$(printf 'x%.0s' {1..64})" --interface wire &&
        status_of b 1 'no interface of this machine has the address 192\.0\.2\.9' "$responder" $names --interface 192.0.2.9 &&
        status_of b 3 '' "$browser" --service _none._tcp --interface wire --count 1 --seconds 1 || return 1
    start_ours a ours --interface wire && holds ours || return 1
    # shellcheck disable=SC2086
    status_of b 3 'both names are lost' "$responder" $names --port 4001 --interface wire --seconds 8 &&
        status_of b 0 '^found' "$browser" --service $service --interface wire --count 1 --seconds 8 || return 1
    kill "$last" && wait "$last"
    echo "    status $? after SIGTERM" && has ours '^stopped$'
}

the_port_is_taken() {
    start_on b peer python3 "$root/tests/links/take_port.py" && wait_for 5 peer taken || return 1
    # shellcheck disable=SC2086
    status_of b 4 "^port 5353 is taken by a program that doesn't share it" "$responder" $names --interface wire --seconds 5 &&
        status_of b 4 "^port 5353 is taken by a program that doesn't share it" "$browser" --service $service --interface wire --seconds 5
}

# What a program did in 5 s in which nothing was to be done: how often it woke up, and its time on the processor in hundredths of a second.
done_in_5_s() { # ID
    local before after
    before="$(awk '/^voluntary/ { print $2 }' "/proc/$1/status") $(awk '{ print $14 + $15 }' "/proc/$1/stat")"
    sleep 5
    after="$(awk '/^voluntary/ { print $2 }' "/proc/$1/status") $(awk '{ print $14 + $15 }' "/proc/$1/stat")"
    awk '{ print $3 - $1, $4 - $2 }' <<<"$before $after"
}

# A wait ends by a packet or by what is due, and by nothing else: on a silent link a responder sleeps on; a browser wakes up for its questions.
idle_is_idle() {
    local wakes time
    start_ours a ours --all-interfaces
    wait_for 5 ours '^wire: .*held +dock' && wait_for 5 ours '^wire2: .*held +dock' && sleep 1.5 || return 1
    read -r wakes time <<<"$(done_in_5_s "$(program_of "$last")")"
    echo "    responder: woke up $wakes times in 5 s, $((time * 10)) ms on the processor"
    [ "$wakes" -le 5 ] && [ "$time" -le 1 ] || return 1
    stop_started
    start_browser a ours-b --all-interfaces
    sleep 1.5
    read -r wakes time <<<"$(done_in_5_s "$(program_of "$last")")"
    echo "    browser: woke up $wakes times in 5 s, $((time * 10)) ms on the processor"
    [ "$wakes" -le 12 ] && [ "$time" -le 1 ]
}

a_supervisor_is_told() {
    start_on a peer python3 "$root/tests/links/supervise.py" "$work/supervisor" && wait_for 5 peer supervising || return 1
    # shellcheck disable=SC2086
    start_on a ours env NOTIFY_SOCKET="$work/supervisor" WATCHDOG_USEC=1000000 "$responder" $names --interface wire --seconds 3
    wait_for 3 peer '^READY=1$' && wait_for 3 peer "^STATUS=$booth held, dock.local held" && wait_for 5 peer '^STOPPING=1$' || return 1
    has peer '^READY=1$' && has peer "^STATUS=$booth held, dock.local held" && has peer '^STOPPING=1$' || return 1
    echo "    signs of life in 3 s, one every 500 ms: $(count peer '^WATCHDOG=1$')"
    [ "$(count peer '^WATCHDOG=1$')" -ge 4 ] && [ "$(count peer '^WATCHDOG=1$')" -le 7 ]
}

for case; do
    case " $(echo $cases) " in *" $case "*) ;; *) sed -n 2,7p "$0" >&2; exit 2 ;; esac
done
[ $# = 0 ] || cases="$*"

find_tools ip timeout python3 cargo pgrep awk
find_programs || exit 1
work=$(mktemp -d)
trap remove_all EXIT
make_links
passed=0
failed=0
for case in $cases; do
    run_case "$case"
done
echo "links: $passed passed, $failed failed"
[ "$failed" = 0 ]
