#!/usr/bin/env bash
# The examples that a user copies, c/examples/serve.c and rust/kurgashel/examples/serve.rs: every example is under 80 lines, and these are built without a
# warning; on a link each of the two comes to hold its names, answers a plain resolver, is found by the browser and says goodbye; and the one that comes
# later to the other's link loses the host's name.
#   tests/examples.sh                      as root; about 20 s
#   PROGRAMS=FOLDER tests/examples.sh      with a browser that is built already
# Each is alone in a network namespace that is joined to one bridge. Where namespaces can't be made it says 'skipped: ...' and succeeds, once they are built.
set -uo pipefail
root=$(cd "$(dirname "$0")/.." && pwd)
work=$(mktemp -d)
. "$root/tests/machines/machines.sh"
. "$root/tests/interop/programs.sh"
asker=3

fail() { echo "FAILED: $*"; tail -n 8 "$work"/said-* "$work/browser" 2>/dev/null | sed 's/^/    | /'; exit 1; }

# Starts an example on the machine of its number; it goes on until `end_example`.
start_example() { # NUMBER PROGRAM
    mkfifo "$work/input-$1"
    sleep 60 >"$work/input-$1" &
    writers[$1]=$!
    running="$running $!"
    input=$work/input-$1 start_on "$1" "said-$1" stdbuf --output=L "$2" "$(address_of "$1")" 255.255.255.0
    ids[$1]=$last
}

# Ends the standard input of an example, which then has to end well.
end_example() { # NUMBER
    kill "${writers[$1]}"
    wait "${ids[$1]}" || fail "example $1 ends with status $?"
    rm "$work/input-$1"
}

# Asks for the address of dock.local at an address, or the group, from a port of its own, and prints what is answered.
ask() { # ADDRESS
    on "$asker" python3 - "$1" "$(address_of "$asker")" <<'ASK'
import socket
import sys

from packet import name

query = b"\x12\x34\0\0\0\1\0\0\0\0\0\0" + name("dock.local") + b"\0\1\0\1"
asker = socket.socket(socket.AF_INET, socket.SOCK_DGRAM)
asker.setsockopt(socket.IPPROTO_IP, socket.IP_MULTICAST_IF, socket.inet_aton(sys.argv[2]))
asker.settimeout(3)
asker.sendto(query, (sys.argv[1], 5353))
answer = asker.recv(9000)
print("id", answer[:2].hex(), "answers", answer[7], "address", socket.inet_ntoa(answer[-4:]))
ASK
}

try_example() { # NUMBER PROGRAM
    local asked line address
    address=$(address_of "$1")
    start_example "$1" "$2"
    wait_for 10 "said-$1" '^instance held, host held$' || fail "${2##*/}: its names are not held"
    for asked in "$address" 224.0.0.251; do
        [ "$(ask "$asked")" = "id 1234 answers 1 address $address" ] || fail "${2##*/}: a plain resolver that asks $asked is not answered"
    done
    start_on "$asker" browser stdbuf --output=L "$browser" --interface "$(address_of "$asker")" --service _voice._tcp --seconds 20
    for line in '^found +booth' '^  port +4000' "^  address +$address" '^  txt +room=3'; do
        wait_for 10 browser "$line" || fail "${2##*/}: the browser does not find it"
    done
    end_example "$1"
    wait_for 5 browser '^leaving +booth' || fail "${2##*/}: no goodbye is heard"
    stop_started
    echo "${2##*/}: holds its names, answers a plain resolver, is found, and says goodbye"
}

trap remove_all EXIT
for example in "$root"/c/examples/*.c "$root"/rust/kurgashel/examples/*.rs; do
    lines=$(wc -l <"$example")
    [ "$lines" -lt 80 ] || fail "${example##*/} has $lines lines"
    echo "${example#"$root/"}: $lines lines"
done
"$root/tools/library" || exit 1
cc -O2 -Wall -Wextra -Werror -I"$root/c/include" "$root/c/examples/serve.c" "$root/target/staticlib/libkurgashel.a" -o "$work/serve-in-c" ||
    fail "serve.c is not built"
cargo build --release --quiet --manifest-path "$root/rust/kurgashel/Cargo.toml" --example serve 2>"$work/warnings" ||
    fail "serve.rs is not built: $(cat "$work/warnings")"
[ ! -s "$work/warnings" ] || fail "serve.rs: $(cat "$work/warnings")"
cp "$root/rust/target/release/examples/serve" "$work/serve-in-rust"

find_tools ip timeout python3 cargo stdbuf mkfifo
make_bridges bridge
for number in 1 2 "$asker"; do make_machine "$number" bridge; done
find_programs || exit 1
declare -a writers ids
try_example 1 "$work/serve-in-c"
try_example 2 "$work/serve-in-rust"

rm "$work"/said-*
start_example 1 "$work/serve-in-c"
wait_for 10 said-1 '^instance held, host held$' || fail "the first does not hold its names"
start_example 2 "$work/serve-in-rust"
wait_for 10 said-2 'host lost$' || fail "the second does not lose the host's name, which has another address"
! grep -q 'lost' "$work/said-1" || fail "the first loses a name"
end_example 1
end_example 2
echo "examples: the second to come gives way to the first"
