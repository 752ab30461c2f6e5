#!/usr/bin/env bash
# Forty responders on one link, and a browser that knows them all: its list of known answers takes several packets, all but the last with TC (RFC 6762
# section 7.2). How many responders answer it?
#   tests/forty.sh [COUNT [MOST]]             as root; about 15 s; COUNT responders (40; 1 to 200); fails where more than MOST answer that are known (0)
#   BEFORE=FOLDER tests/forty.sh ..           about 30 s; the same with the responder of another version first, of which the numbers are only told
#   PROGRAMS=FOLDER tests/forty.sh ..         with a responder that is built already
# Each responder, and the browser, is alone in a network namespace that is joined to one bridge; the machine's own network is not touched. Every wait has an
# end. Where namespaces can't be made it says 'skipped: ...' and succeeds. First the browser asks without known answers, for unicast answers and then for answers
# to all, and all have to answer: so it is known that each hears and is heard. The last line is 'forty: of N responders answer N that aren't known, M that are known, K that are known behind others, and J
# where all but one are known': others are instances that are no longer there, and fill the first packet; the one that isn't known has to answer.
set -uo pipefail
root=$(cd "$(dirname "$0")/.." && pwd)
count=${1:-40}
most=${2:-0}
[ "$count" -ge 1 ] 2>/dev/null && [ "$count" -le 200 ] && [ "$most" -ge 0 ] 2>/dev/null || { sed -n 2,10p "$0" >&2; exit 2; }
asker=$((count + 1)) # the browser's machine; the responders' are 1 to count
work=$(mktemp -d)
. "$root/tests/machines/machines.sh"
. "$root/tests/interop/programs.sh"

# As long as an instance's label may be, so that its PTR takes 77 bytes in a list of known answers.
label() { printf 'Audience booth %03d, third floor, east wing, the big registry..' "$1"; }

# Starts all, and has the browser ask them once they hold their names.
ask_all() { # PROGRAM MOST
    local number status
    for number in $(seq "$count"); do
        start_on "$number" "$number" "$1" --interface "$(address_of "$number")" --seconds 50 \
            --instance "$(label "$number")" --service _voice._tcp --host "dock-$number" --port $((4000 + number))
    done
    for number in $(seq "$count"); do wait_for 30 "$number" ' held ' 2 || return 1; done
    # their second announcements come a second after the first, and no PTR goes out again within a second
    sleep 2.5
    on "$asker" python3 "$root/tests/forty_ask.py" "$(address_of "$asker")" "$work/labels" "$2"
    status=$?
    stop_started
    return "$status"
}

trap remove_all EXIT
find_tools ip timeout python3 cargo
make_bridges bridge
for number in $(seq "$asker"); do make_machine "$number" bridge; done
find_programs || exit 1
for number in $(seq "$count"); do label "$number"; echo; done >"$work/labels"
if [ -n "${BEFORE:-}" ]; then
    [ -x "$BEFORE/responder" ] || { echo "there is no program $BEFORE/responder"; exit 1; }
    echo "before:"
    ask_all "$BEFORE/responder" "$count" || exit 1
    echo "after:"
fi
ask_all "$responder" "$most"
