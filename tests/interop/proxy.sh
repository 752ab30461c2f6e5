# A client in another building: machine d, on a link of its own behind machine c, which routes between the two and runs our discovery proxy. What is said on the
# first link by multicast never comes to the second; what d learns, it learns by unicast DNS.

rich='Building 1.example'
hosts=building-1.example
proxy_at=10.78.0.1
client_at=10.78.0.9

# Machine d, behind c, which routes, and the way back for a.
make_annex() {
    case $machines in *" d"*) return 0 ;; esac
    machines="$machines d"
    ip netns add "$net-d" || return 1
    ip -n "$net-d" link set lo up
    ip -n "$net-d" link add wire type veth peer name annex netns "$net-c" || return 1
    ip -n "$net-d" addr add $client_at/24 dev wire
    ip -n "$net-c" addr add $proxy_at/24 dev annex
    ip -n "$net-d" link set wire up
    ip -n "$net-c" link set annex up
    ip -n "$net-d" route add default via $proxy_at
    ip -n "$net-a" route add 10.78.0.0/24 via "$(address_of c)"
    on c sysctl -qw net.ipv4.ip_forward=1
}

# Our proxy on machine c, and the second link.
proxy_is_up() {
    make_annex || return 1
    start_on c ours-proxy "$proxy" --interface "$(address_of c)" --listen $proxy_at --rich "$rich" --host-domain $hosts --server ns.example --seconds 50
    wait_for 5 ours-proxy 'answering on'
}

# What the client in the other building is answered.
asked() { # OPTION-OR-NAME...
    on d dig +tries=1 +time=8 @$proxy_at "$@" 2>&1
}

# The whole way: who there is, where, with which text and address, and a connection to that address through the router.
a_client_elsewhere_finds_us() {
    local seen port address
    we_hold && proxy_is_up || return 1
    seen=$(asked "_voice._tcp.Building 1.example" PTR)
    has "$seen" '^_voice\._tcp\.Building\\0321\.example\..*PTR.*booth\._voice\._tcp\.Building\\0321\.example\.$' || return 1
    seen=$(asked 'booth._voice._tcp.Building 1.example' SRV)
    has "$seen" 'SRV.*0 0 4000 dock\.building-1\.example\.$' || return 1
    port=$(asked +short 'booth._voice._tcp.Building 1.example' SRV | cut -d' ' -f3)
    seen=$(asked 'booth._voice._tcp.Building 1.example' TXT)
    has "$seen" 'TXT.*"room=3" "PassReq"$' || return 1
    seen=$(asked dock.building-1.example A)
    has "$seen" '^dock\.building-1\.example\.\s+([0-9]|10)\s+IN\s+A\s+10\.77\.0\.1$' || return 1
    address=$(asked +short dock.building-1.example A)
    seen=$(asked dock.building-1.example AAAA)
    has "$seen" 'AAAA\s+fd77::1$' || return 1
    start_on a peer-service "$python" "$root/tests/interop/greet.py" "$port"
    wait_for 5 peer-service listening || return 1
    seen=$(on d "$python" "$root/tests/interop/greet.py" "$address" "$port")
    has "$seen" 'hello from booth'
}

# Negative answers at once, with the SOA; the zone's own records at its apex; other names are refused.
what_the_proxy_says_itself() {
    local seen
    we_hold && proxy_is_up || return 1
    seen=$(asked dock.building-1.example SOA)
    has "$seen" 'status: NOERROR' && has "$seen" 'ANSWER: 0, AUTHORITY: 1' &&
        has "$seen" '^building-1\.example\.\s+10\s+IN\s+SOA\s+ns\.example\. hostmaster\.example\. 0 7200 3600 86400 10$' || return 1
    has "$seen" 'Query time: [0-9]{1,2} msec' || return 1
    seen=$(asked building-1.example NS)
    has "$seen" '^building-1\.example\.\s+10\s+IN\s+NS\s+ns\.example\.$' || return 1
    seen=$(asked booth._voice._tcp.local SRV)
    has "$seen" 'status: REFUSED' || return 1
    # a service that nobody has: no error, no answer, after six seconds
    seen=$(asked '_none._tcp.Building 1.example' PTR)
    has "$seen" 'ANSWER: 0, AUTHORITY: 1' && has "$seen" 'Query time: (5999|6[0-9]{3}) msec'
}

# An answer that is too long for UDP is cut and asked for by TCP; a client that says that it takes more gets it whole.
a_long_answer_by_tcp() {
    local seen text instance
    text=$(printf 'x%.0s' {1..195})
    instance=$(printf 'b%.0s' {1..63})
    start_responder a ours --instance "$instance" --service $service --host dock --port 4000 --txt "a=$text" --txt "b=$text"
    wait_for 5 ours 'held +dock.local' && sleep 1.2
    proxy_is_up || return 1
    seen=$(asked +noedns +ignore "$instance._voice._tcp.Building 1.example" TXT)
    has "$seen" 'flags: qr aa tc' || return 1
    seen=$(asked +noedns "$instance._voice._tcp.Building 1.example" TXT)
    has "$seen" 'retrying in TCP mode' && has "$seen" "\"a=$text\" \"b=$text\"$" && has "$seen" 'SERVER: .*\(TCP\)' || return 1
    seen=$(asked "$instance._voice._tcp.Building 1.example" TXT)
    has "$seen" 'SERVER: .*\(UDP\)' && has "$seen" "\"b=$text\"$"
}

# A stock client: avahi-browse on machine d, which asks the proxy by its wide-area side for the rich-text domain.
avahi_elsewhere_finds_us() {
    local seen
    we_hold && proxy_is_up || return 1
    write_avahi_settings "$work/avahi-d" other yes
    sed -i 's/^enable-wide-area=no/enable-wide-area=yes/' "$work/avahi-d/avahi.conf"
    echo "nameserver $proxy_at" >"$work/resolv.conf"
    # shellcheck disable=SC2016
    start_avahi_on d avahi-d.log "$work/avahi-d" sh -c 'mount --bind "$0" /etc/resolv.conf && exec "$@"' "$work/resolv.conf"
    wait_for 10 avahi-d.log 'Server startup complete' || return 1
    seen=$(timeout 25 ip netns exec "$net-d" avahi-browse -rpt -d "$rich" $service 2>&1)
    has "$seen" '^=;n/a;n/a;booth;_voice._tcp;Building.*;dock\.building-1\.example;10\.77\.0\.1;4000;.*"room=3"'
}
