#!/usr/bin/env bash
# Three responders on one link want "Booth 3" and record what happens (responder --trace). The one that holds it is killed without a word, as by a power cut; another
# starts anew and takes the name; then the first is back and loses it. The proved player has to agree with every recorded state, and the timeline to tell who held.
#   tests/recording.sh               as root; about 15 s
#   tests/recording.sh FOLDER        also leaves the recordings, the table and the page there
#   PROGRAMS=FOLDER tests/recording.sh ..   with programs that are built already
# Where namespaces can't be made it says 'skipped: ...' and succeeds.
set -uo pipefail
root=$(cd "$(dirname "$0")/.." && pwd)
keep=${1:-}
work=$(mktemp -d)
. "$root/tests/machines/machines.sh"
. "$root/tests/interop/programs.sh"
player=$root/target/bin/player
name='Booth 3._voice._tcp.local'

# A device of this number; its recording is dock-N.trace, and .2 when it starts again.
start_dock() { # NUMBER
    start_on "$1" "dock-$1" "$responder" --interface "$(address_of "$1")" --seconds 50 --instance 'Booth 3' --service _voice._tcp --host "dock-$1" --port "400$1" \
        --trace "$work/dock-$1.trace"
}

fail() { echo "FAILED: $*"; tail -n 6 "$work"/dock-? | sed 's/^/    | /'; exit 1; }

# The recording as the timeline takes it: its device, the file, and the wall clock's distance.
source_of() { # NUMBER FILE OUTPUT
    echo "dock-$1=$work/$2@$(begun_at "$3")"
}

trap remove_all EXIT
find_tools ip timeout python3 cargo
make_bridges bridge
for number in 1 2 3; do make_machine "$number" bridge; done
find_programs || exit 1
timeline=${responder%/*}/timeline

for number in 1 2 3; do
    start_dock "$number"
    ids[number]=$last
done
wait_for 5 dock-3 "held +$name" || fail "the third does not hold it"
for number in 1 2; do wait_for 5 "dock-$number" "lost +$name" || fail "dock-$number has not lost it"; done
sleep 1
pkill -KILL -f -- "--trace $work/dock-3.trace" || fail "the third was not there"
sleep 1
mv "$work/dock-3" "$work/dock-3-first"
kill "${ids[1]}"
wait "${ids[1]}" 2>/dev/null
mv "$work/dock-1" "$work/dock-1-first"
start_dock 1
wait_for 5 dock-1 "held +$name" || fail "the first does not take it"
start_dock 3
wait_for 5 dock-3 "lost +$name" || fail "the third does not lose it"
sleep 1
stop_started

sources=("$(source_of 1 dock-1.trace dock-1-first)" "$(source_of 1 dock-1.trace.2 dock-1)" "$(source_of 2 dock-2.trace dock-2)"
    "$(source_of 3 dock-3.trace dock-3-first)" "$(source_of 3 dock-3.trace.2 dock-3)")
for recording in "$work"/dock-*.trace*; do
    [ -x "$player" ] || { echo "skipped: the player is not built (target/bin/player)"; break; }
    "$player" <"$recording" >"$work/played" 2>"$work/refused" || fail "${recording##*/}: $(cat "$work/refused")"
    grep -q ' ok$' "$work/played" && ! grep -v ' ok$' "$work/played" || fail "${recording##*/}: the player does not agree"
    echo "${recording##*/}: $(grep -c . "$work/played") states, the player agrees with all"
done
"$timeline" --page "$work/timeline.html" "${sources[@]}" >"$work/table" || fail "no timeline"
cat "$work/table"
held=$(grep -c "^$name  dock-[13]  " "$work/table")
[ "$held" = 2 ] || fail "the name has $held holders in turn, and not two"
! grep -q 'two at once' "$work/table" || fail "two held it at once"
[ "$(grep -o 'class="held"' "$work/timeline.html" | wc -l)" = "$(grep -c . "$work/table")" ] || fail "the page has other intervals than the table"
at=$(($(begun_at dock-1) + 1300))
[ "$("$timeline" --name "$name" --at "$at" "${sources[@]}")" = "$name  dock-1" ] || fail "who held it at $at"
# a power cut in the middle of a record
head -c -5 "$work/dock-2.trace" >"$work/torn"
"$timeline" "dock-2=$work/torn" 2>"$work/said" >/dev/null
grep -q 'torn at byte [0-9]* of the trace: [0-9]* bytes are left out' "$work/said" || fail "a torn end is not told of"
[ -z "$keep" ] || { mkdir -p "$keep" && cp "$work"/dock-*.trace* "$work/table" "$work/timeline.html" "$keep"; }
echo "recording: who held \"$name\" is told, and the player agrees with every recording"
