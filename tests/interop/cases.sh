# The cases. Each prints what was seen and answers 0 where it is as it should be.

cases="avahi_finds_us avahi_finds_us_by_ipv6 zeroconf_finds_us systemd_finds_us we_find_avahi we_find_avahi_by_ipv6 we_find_zeroconf says_that_there_is_no_aaaa
    yields_the_instance_to_avahi yields_the_host_to_avahi yields_the_instance_to_zeroconf
    keeps_the_instance_against_avahi keeps_the_host_against_avahi keeps_the_instance_against_zeroconf
    dig_is_answered a_reply_as_it_lies no_reply_beyond_the_link
    a_unicast_answer_as_it_lies the_browser_asks_all yields_beside_avahi
    a_client_elsewhere_finds_us avahi_elsewhere_finds_us what_the_proxy_says_itself a_long_answer_by_tcp
    avahi_sees_our_changes zeroconf_sees_our_changes our_browser_sees_our_changes
    two_of_ours_by_chance two_of_ours_in_step"

service=_voice._tcp
booth=booth._voice._tcp.local
begun_apart=

# Runs a case; one with a peer is run once more where it fails, since on a busy machine a peer may be late.
run_case() { # NAME
    local begun=$SECONDS tries=2
    case $1 in two_of_ours_*) tries=1 ;; esac
    printf '\n-- %s\n' "${1//_/ }"
    while ! "$1"; do
        tries=$((tries - 1))
        echo "FAILED"
        tail -n 12 "$work"/*.log "$work"/ours* "$work"/peer* 2>/dev/null | sed 's/^/    | /'
        clear_case
        if [ "$tries" = 0 ]; then
            failed=$((failed + 1))
            return
        fi
        echo "    once more:"
    done
    passed=$((passed + 1))
    echo "ok ($((SECONDS - begun)) s)"
    clear_case
}

clear_case() {
    stop_started
    rm -f "$work"/*.log "$work"/ours* "$work"/peer*
}

# Shows lines, indented; answers whether one of them matches.
has() { # TEXT PATTERN
    grep -E -- "$2" <<<"$1" | head -n 1 | sed 's/^/    /'
    grep -qE -- "$2" <<<"$1" && return 0
    echo "    no line '$2' in:"
    sed 's/^/    | /' <<<"$1"
    return 1
}

# Our responder on machine a, with both names held. Its two announcements are over, so that a peer which starts now has to ask.
we_hold() { # OPTIONS...
    start_responder a ours --instance booth --service $service --host dock --port 4000 --txt room=3 --txt PassReq --address6 fd77::1 "$@"
    wait_for 5 ours "held +$booth" && wait_for 5 ours 'held +dock.local' && sleep 1.2
}

avahi_finds_us() {
    local seen
    we_hold && avahi_is_up other || return 1
    seen=$(on b avahi-browse -rpt $service 2>&1)
    has "$seen" '^=;wire;IPv4;booth;_voice._tcp;local;dock\.local;10\.77\.0\.1;4000;("PassReq" "room=3"|"room=3" "PassReq")' || return 1
    seen=$(on b avahi-resolve -4 -n dock.local 2>&1)
    has "$seen" '^dock\.local\s+10\.77\.0\.1$' || return 1
    seen=$(on b avahi-resolve -6 -n dock.local 2>&1)
    has "$seen" '^dock\.local\s+fd77::1$'
}

avahi_finds_us_by_ipv6() {
    local seen
    we_hold && avahi_speaks=ipv6 avahi_is_up other || return 1
    seen=$(on b avahi-browse -rpt $service 2>&1)
    has "$seen" '^=;wire;IPv6;booth;_voice._tcp;local;dock\.local;(fd77::1|10\.77\.0\.1);4000;("PassReq" "room=3"|"room=3" "PassReq")' && ! grep ';IPv4;' <<<"$seen" || return 1
    seen=$(on b avahi-resolve -6 -n dock.local 2>&1)
    has "$seen" '^dock\.local\s+fd77::1$'
}

zeroconf_finds_us() {
    local seen
    we_hold || return 1
    seen=$(on c "$python" "$root/tests/interop/zeroconf_browse.py" 10.77.0.3 $service.local. 3 2>&1)
    has "$seen" '^added booth\._voice\._tcp\.local\.$' || return 1
    seen=$(on c "$python" "$root/tests/interop/zeroconf_find.py" 10.77.0.3 $service.local. booth 2>&1)
    has "$seen" '^host dock\.local\.$' && has "$seen" '^port 4000$' && has "$seen" '^address 10\.77\.0\.1$' &&
        has "$seen" '^address fd77::1$' && has "$seen" '^txt room=3$' && has "$seen" '^txt PassReq$'
}

# systemd-resolved asks for A by IPv4 and for AAAA by IPv6 alone.
systemd_finds_us() {
    local seen
    we_hold && resolved_is_up || return 1
    seen=$(resolve query -4 dock.local)
    has "$seen" '^dock\.local: 10\.77\.0\.1 ' || return 1
    seen=$(resolve query -6 dock.local)
    has "$seen" '^dock\.local: fd77::1 ' || return 1
    seen=$(resolve service booth $service local)
    has "$seen" '^booth/_voice\._tcp/local: dock\.local:4000 ' && has "$seen" '^ +room=3$' && has "$seen" '^ +PassReq$'
}

# Finds a service of Avahi, and sees it go when its publisher ends.
we_find_avahi() {
    local seen publisher
    avahi_is_up other || return 1
    start_on b peer avahi-publish -s parlour $service 4001 room=7 PassReq
    publisher=$last
    # Avahi announces for some three seconds; after that we have to ask
    wait_for 5 peer Established && sleep 3.5 || return 1
    start_browser a ours --service $service --factory volume=5
    wait_for 8 ours 'volume=5' || return 1
    seen=$(cat "$work/ours")
    has "$seen" '^found +parlour$' && has "$seen" '^  host +other\.local$' && has "$seen" '^  port +4001$' &&
        has "$seen" '^  address +10\.77\.0\.2$' && has "$seen" '^  txt +room=7$' && has "$seen" '^  txt +PassReq$' &&
        has "$seen" '^  txt +volume=5 \(factory\)$' || return 1
    kill "$publisher"
    wait_for 5 ours '^gone +parlour$' && has "$(cat "$work/ours")" '^gone +parlour$'
}

we_find_avahi_by_ipv6() {
    local seen
    avahi_speaks=ipv6 avahi_is_up other || return 1
    start_on b peer avahi-publish -s parlour $service 4001 room=7
    # Avahi announces for some three seconds; after that we have to ask
    wait_for 5 peer Established && sleep 3.5 || return 1
    start_browser a ours --service $service --ipv6-only
    wait_for 8 ours 'room=7' || return 1
    seen=$(cat "$work/ours")
    has "$seen" '^found +parlour$' && has "$seen" '^  host +other\.local$' && has "$seen" '^  address +fe80::'
}

we_find_zeroconf() {
    local seen
    start_on c peer "$python" "$root/tests/interop/zeroconf_publish.py" 10.77.0.3 $service.local. 'Hall, west' hall.local. 4002 room=9
    wait_for 8 peer published || return 1
    start_browser a ours --service $service
    wait_for 8 ours 'room=9' || return 1
    seen=$(cat "$work/ours")
    has "$seen" '^found +Hall, west$' && has "$seen" '^  host +hall\.local$' && has "$seen" '^  port +4002$' &&
        has "$seen" '^  address +10\.77\.0\.3$' && has "$seen" '^  txt +room=9$'
}

# A host without AAAA: what its NSEC changes for those who ask. Avahi 0.8 and python-zeroconf 0.47 ask for both kinds of address; how long each takes is shown.
says_that_there_is_no_aaaa() {
    local seen begun
    start_responder a ours --ipv4-only --instance booth --service $service --host dock --port 4000 --txt room=3
    wait_for 5 ours "held +$booth" && wait_for 5 ours 'held +dock.local' && sleep 1.2 || return 1
    start_browser b peer --service $service
    wait_for 8 peer 'no IPv6' && has "$(cat "$work/peer")" 'no IPv6' || return 1
    kill "$last"
    begun=$(date +%s%N)
    seen=$(on c "$python" "$root/tests/interop/zeroconf_find.py" 10.77.0.3 $service.local. booth 2>&1)
    echo "    zeroconf: $((($(date +%s%N) - begun) / 1000000)) ms"
    has "$seen" '^address 10\.77\.0\.1$' && ! grep -q 'address fd77' <<<"$seen" || return 1
    avahi_is_up other || return 1
    begun=$(date +%s%N)
    seen=$(on b avahi-resolve -6 -n dock.local 2>&1)
    echo "    avahi-resolve -6: $((($(date +%s%N) - begun) / 1000000)) ms"
    has "$seen" 'Failed to resolve host name'
}

# Asks our responder as any DNS client does: +tcp off, since dig asks for ANY by TCP.
dig_us() { # NAME TYPE
    on b dig -p 5353 @10.77.0.1 +time=1 +tries=1 +notcp +noall +answer +comments "$1" "$2" 2>&1
}

# dig is answered for all that we hold, and not for a name that we don't, nor for a type that is not there.
dig_is_answered() {
    local seen
    we_hold || return 1
    seen=$(dig_us $booth SRV)
    has "$seen" "^$booth\\.\s+10\s+IN\s+SRV\s+0 0 4000 dock\.local\.$" || return 1
    seen=$(dig_us $booth TXT)
    has "$seen" "^$booth\\.\s+10\s+IN\s+TXT\s+\"room=3\" \"PassReq\"$" || return 1
    seen=$(dig_us $service.local PTR)
    has "$seen" "^_voice\._tcp\.local\.\s+10\s+IN\s+PTR\s+booth\._voice\._tcp\.local\.$" || return 1
    seen=$(dig_us dock.local A)
    has "$seen" '^dock\.local\.\s+10\s+IN\s+A\s+10\.77\.0\.1$' || return 1
    seen=$(dig_us DOCK.Local AAAA)
    has "$seen" '^dock\.local\.\s+10\s+IN\s+AAAA\s+fd77::1$' || return 1
    seen=$(dig_us $booth ANY)
    has "$seen" 'ANSWER: 2,' && has "$seen" 'IN\s+SRV' && has "$seen" 'IN\s+TXT' || return 1
    for asked in "other.local A" "dock.local MX"; do
        # shellcheck disable=SC2086
        has "$asked: $(dig_us $asked | tr '\n' ' ')" 'no servers could be reached' || return 1
    done
}

# Asks from machine c, from an address of its own.
ask_us() { # FROM TO NAME TYPE
    on c "$python" "$root/tests/interop/plain_ask.py" "$@" 2>&1
}

# The packet itself: ID and question repeated, the asker's spelling too; TTL 10; class 1; the SRV target in full, a PTR's cut. Sent to our address or to the
# group, the reply comes from our address and port 5353.
a_reply_as_it_lies() {
    local seen to
    we_hold --verbose || return 1
    for to in 10.77.0.1 224.0.0.251; do
        seen=$(ask_us 10.77.0.3 $to Booth._VOICE._tcp.local 33)
        has "$seen" '^reply from 10\.77\.0\.1 port 5353$' && has "$seen" '^id repeated flags 8400 counts 1 1 0 0$' &&
            has "$seen" '^question repeated byte for byte$' && has "$seen" 'type 33 class 1 ttl 10 target dock\.local\. whole$' &&
            has "$seen" '^ends there$' || return 1
    done
    seen=$(ask_us 10.77.0.3 10.77.0.1 $service.local 12)
    has "$seen" 'type 12 class 1 ttl 10 target booth\._voice\._tcp\.local\. cut$' || return 1
    # a query that can't be replied to doesn't end the responder
    on c "$python" "$root/tests/interop/portless.py" 10.77.0.3 10.77.0.1 dock.local 1
    wait_for 3 ours 'the reply to 10.77.0.3:0 failed' && has "$(cat "$work/ours")" 'the reply to 10.77.0.3:0 failed' || return 1
    seen=$(ask_us 10.77.0.3 10.77.0.1 dock.local 255)
    has "$seen" '^id repeated flags 8400 counts 1 2 0 0$' && has "$seen" 'type 1 class 1 ttl 10$' && has "$seen" 'type 28 class 1 ttl 10$'
}

# Someone with an address of another subnet, to which there is a route, gets no reply by unicast, while the same machine does from its other address
# (RFC 6762 section 11).
no_reply_beyond_the_link() {
    local to
    we_hold || return 1
    ip -n "$net-c" addr replace 10.99.0.3/24 dev wire && ip -n "$net-a" route replace 10.99.0.0/24 dev wire || return 1
    for to in 10.77.0.1 224.0.0.251; do
        has "from 10.99.0.3 to $to: $(ask_us 10.99.0.3 $to dock.local 1)" ': no reply$' || return 1
        has "from 10.77.0.3 to $to: $(ask_us 10.77.0.3 $to dock.local 1 | head -n 1)" ': reply from 10\.77\.0\.1 port 5353$' || return 1
    done
    kill "$last"
    wait_for 3 ours 'dropped' && has "$(cat "$work/ours")" '^2 packets were dropped'
}

yields_the_instance_to_avahi() {
    avahi_is_up other || return 1
    start_on b peer avahi-publish -s booth $service 4001
    wait_for 5 peer Established || return 1
    start_responder a ours --instance booth --service $service --host dock --port 4000
    wait_for 5 ours "lost +$booth" && wait_for 5 ours 'held +dock.local' || return 1
    has "$(cat "$work/ours")" "lost +$booth" && ! grep -E "held +$booth" "$work/ours"
}

yields_the_host_to_avahi() {
    avahi_is_up dock || return 1
    start_responder a ours --instance booth --service $service --host dock --port 4000
    wait_for 5 ours 'lost +dock.local' && wait_for 5 ours "held +$booth" || return 1
    has "$(cat "$work/ours")" 'lost +dock.local' && ! grep -E 'held +dock.local' "$work/ours"
}

yields_the_instance_to_zeroconf() {
    start_on c peer "$python" "$root/tests/interop/zeroconf_publish.py" 10.77.0.3 $service.local. booth hall.local. 4002
    wait_for 8 peer published || return 1
    start_responder a ours --instance booth --service $service --host dock --port 4000
    wait_for 5 ours "lost +$booth" && wait_for 5 ours 'held +dock.local' || return 1
    has "$(cat "$work/ours")" "lost +$booth" && ! grep -E "held +$booth" "$work/ours"
}

# Our claim was held and is held now.
still_held() { # NAME
    [ "$(grep -E " $1\$" "$work/ours" | tail -n 1 | awk '{print $3}')" = held ] && echo "    ours: held  $1"
}

keeps_the_instance_against_avahi() {
    we_hold && avahi_is_up other || return 1
    start_on b peer avahi-publish -s booth $service 4001
    wait_for 8 peer 'ollision' || return 1
    has "$(cat "$work/peer")" 'ollision' || return 1
    wait_for 8 peer 'Established' && has "$(cat "$work/peer")" 'Established' && still_held "$booth"
}

keeps_the_host_against_avahi() {
    we_hold && start_avahi dock || return 1
    wait_for 10 avahi.log 'Host name is dock-2\.local|startup complete. Host name is dock-2' || return 1
    has "$(cat "$work/avahi.log")" 'conflict' && has "$(cat "$work/avahi.log")" 'startup complete. Host name is dock-2' && still_held dock.local
}

# python-zeroconf looks for a name by asking for the service's PTR, which is no probe for the name, with the unicast bit. It asks in the second after our second
# announcement, in which no PTR may be multicast again: our answer comes by unicast. It opens its sockets after that announcement, so it heard neither.
keeps_the_instance_against_zeroconf() {
    local at=$(($(date +%s%3N) + 1500))
    start_responder a ours --instance booth --service $service --host dock --port 4000 --draw 0 --at $at
    # held 750 ms after that, announced again 1,000 ms later
    start_on c peer env AT=$((at + 1850)) "$python" "$root/tests/interop/zeroconf_publish.py" 10.77.0.3 $service.local. booth hall.local. 4002
    wait_for 8 ours "held +$booth" && wait_for 8 peer NonUniqueNameException || return 1
    has "$(cat "$work/peer")" '^asked for .* ms after' && has "$(cat "$work/peer")" NonUniqueNameException && still_held "$booth"
}

# Asks from machine c, from port 5353.
ask_group() { # NAME TYPE BIT ..
    on c "$python" "$root/tests/interop/unicast_ask.py" 10.77.0.3 "$@" 2>&1
}

# A question with the unicast bit, in the second after our second announcement: PTR and SRV come at once, to the asker alone, with the query's ID and their own
# classes and TTLs; without the bit there is no answer then. After that second a record that some question without the bit asks for too goes to the group.
a_unicast_answer_as_it_lies() {
    local seen at=$(($(date +%s%3N) + 1500))
    start_responder a ours --instance booth --service $service --host dock --port 4000 --draw 0 --at $at
    # held 750 ms after that, announced again 1,000 ms later
    export AT=$((at + 1850))
    seen=$(ask_group $service.local 12 qu booth.$service.local 33 qu , $service.local 12 qm)
    unset AT
    has "$seen" '^answer from 10\.77\.0\.1 port 5353 by unicast after [0-9]+ ms$' && has "$seen" '^id repeated flags 8400 counts 0 2 0 0$' &&
        has "$seen" 'type 12 class 1 ttl 4500 target booth\._voice\._tcp\.local\. cut$' &&
        has "$seen" 'type 33 class 1 flush ttl 120 target dock\.local\. cut$' && has "$seen" '^ends there$' || return 1
    has "$(tail -n 2 <<<"$seen")" '^asked .* qm$' && has "$(tail -n 1 <<<"$seen")" '^no answer$' && ! grep 'to the group' <<<"$seen" || return 1
    sleep 0.5
    seen=$(ask_group $service.local 12 qu $service.local 12 qm booth.$service.local 33 qu)
    has "$seen" '^answer from 10\.77\.0\.1 port 5353 by unicast' && has "$seen" '^id repeated flags 8400 counts 0 1 0 0$' &&
        has "$seen" '^answer from 10\.77\.0\.1 port 5353 to the group after' && has "$seen" '^id 0 flags 8400 counts 0 1 0 0$' &&
        has "$seen" 'type 12 class 1 ttl 4500'
}

# Our browser's questions have no unicast bit, so that all on the link hear the answers, and it finds our instance, also where Avahi has the port.
the_browser_asks_all() {
    local seen
    we_hold && avahi_is_up other || return 1
    start_on c peer "$python" "$root/tests/interop/group_listen.py" 10.77.0.3
    wait_for 5 peer listening || return 1
    has "$(on b "$browser" --interface 10.77.0.2 --service $service --count 1 --seconds 8)" '^found +booth$' || return 1
    seen=$(cat "$work/peer")
    has "$seen" '^question _voice\._tcp\.local\. type 12 class 1$' && has "$seen" '^question booth\._voice\._tcp\.local\. type 33 class 1$' &&
        has "$seen" '^record booth\._voice\._tcp\.local\. type 33 ' && ! grep 'wants unicast' <<<"$seen"
}

# On one machine with Avahi, begun before ours and after it, which is bound to all addresses: what defends a name against our probe is sent to us alone, and
# reaches us.
yields_beside_avahi() {
    local at
    we_hold && avahi_is_up other || return 1
    start_responder b ours-b --instance booth --service $service --host chest --port 4001
    wait_for 5 ours-b "lost +$booth" && has "$(cat "$work/ours-b")" "lost +$booth" && ! grep -E "held +$booth" "$work/ours-b" || return 1
    stop_started
    rm -f "$work"/*.log
    we_hold || return 1
    at=$(($(date +%s%3N) + 4000))
    start_responder b ours-b --instance booth --service $service --host chest --port 4001 --at $at
    # it has opened its sockets by now
    sleep 0.5
    avahi_is_up other || return 1
    [ "$(date +%s%3N)" -lt "$at" ] || { echo "    Avahi came up too late"; return 1; }
    wait_for 9 ours-b "lost +$booth" && has "$(cat "$work/ours-b")" "lost +$booth" && ! grep -E "held +$booth" "$work/ours-b"
}

# Our responder on machine a, which takes lines from a pipe (file descriptor 7).
we_hold_and_take_lines() {
    rm -f "$work/lines"
    mkfifo "$work/lines" && exec 7<>"$work/lines" || return 1
    input=$work/lines we_hold --control
    taker=$last
}

# The time of the wall clock at which our responder did what a line of its tells.
ours_at() { # WORD
    local begun
    begun=$(begun_at ours) && awk -v begun="$begun" -v word="$1" '$3 == word { printf "%.0f", begun + $1; exit }' "$work/ours"
}

# Waits for a stamped line, and says how long it came after what our responder did; at most so many milliseconds.
seen_after() { # WORD MOST FILE PATTERN
    local line after
    wait_for 5 "$3" "$4" || return 1
    line=$(grep -E -- "$4" "$work/$3" | head -n 1)
    after=$((${line%% *} - $(ours_at "$1")))
    echo "    $after ms after our line '$1': ${line#* }"
    [ "$after" -le "$2" ]
}

# Changes the TXT; then says goodbye by SIGTERM.
change_txt() { echo 'txt room=4 PassReq' >&7 && wait_for 5 ours ' updated +txt room=4 PassReq$'; }
say_goodbye() { kill "$taker" && exec 7>&- && wait_for 5 ours ' goodbye$'; }

# A goodbye is to be seen within a second: RFC 6762 section 10.1 has who hears it keep the record for a second; 1,500 ms are allowed, since the machine is
# shared.
avahi_sees_our_changes() {
    avahi_is_up other && we_hold_and_take_lines || return 1
    start_stamped_on b peer avahi-browse -p $service
    wait_for 5 peer ' \+;wire;IPv4;booth;' && change_txt || return 1
    # it shows a TXT once only: so another is begun, which takes it from Avahi's cache
    start_stamped_on b peer2 sh -c "until avahi-browse -rpt $service | grep room=4; do sleep 0.05; done"
    seen_after updated 1500 peer2 '=;wire;IPv4;booth;.*room=4' || return 1
    say_goodbye && seen_after goodbye 1500 peer ' -;wire;IPv4;booth;'
}

zeroconf_sees_our_changes() {
    we_hold_and_take_lines || return 1
    start_stamped_on c peer "$python" "$root/tests/interop/zeroconf_browse.py" 10.77.0.3 $service.local. 20
    wait_for 5 peer 'added booth' && sleep 1 && change_txt && seen_after updated 500 peer 'updated booth.*room=4' || return 1
    say_goodbye && seen_after goodbye 1500 peer 'removed booth'
}

our_browser_sees_our_changes() {
    we_hold_and_take_lines || return 1
    start_stamped_on c peer "$browser" --interface 10.77.0.3 --seconds 50 --service $service
    wait_for 5 peer 'txt +room=3' && change_txt && seen_after updated 500 peer 'txt +room=4' || return 1
    say_goodbye && seen_after goodbye 500 peer 'leaving +booth' && seen_after goodbye 1500 peer 'gone +booth'
}

# Two of our responders that want the same two names with other data, begun in the same millisecond.
begin_together() { # OPTIONS...
    local at=$(($(date +%s%3N) + 400))
    stop_started
    start_responder a ours-a --instance booth --service $service --host dock --port 4000 --at $at "$@"
    start_responder b ours-b --instance booth --service $service --host dock --port 4001 --at $at "$@"
    wait_for 5 ours-a begun && wait_for 5 ours-b begun || return 1
    begun_apart=$(($(begun_at ours-a) - $(begun_at ours-b)))
}

# A busy machine may begin one of them late; then they begin anew.
begin_in_one_millisecond() {
    local try
    for try in 1 2 3 4 5 6 7 8; do
        begin_together "$@" || return 1
        [ "$begun_apart" = 0 ] && return 0
    done
    echo "    begun $begun_apart ms apart in try $try"
    return 1
}

# One of the two holds the name, the other has lost it, in under 3 s.
settled() { # NAME
    local times
    times=$(grep -hE " (held|lost) +$1\$" "$work/ours-a" "$work/ours-b")
    [ "$(grep -c held <<<"$times")" = 1 ] && [ "$(grep -c lost <<<"$times")" = 1 ] && [ "$(awk '{print $1}' <<<"$times" | sort -n | tail -n 1)" -lt 3000 ] || {
        sed 's/^/    | /' "$work/ours-a" "$work/ours-b"
        return 1
    }
    echo "    $1: one holds it at $(awk '$3 == "held" {print $1}' <<<"$times") ms, the other has lost it at $(awk '$3 == "lost" {print $1}' <<<"$times") ms"
}

settle() { # OPTIONS...
    begin_in_one_millisecond "$@" || return 1
    sleep 3
    settled "$booth" && settled dock.local
}

two_of_ours_by_chance() {
    settle && settle
}

two_of_ours_in_step() {
    settle --draw 0
}
