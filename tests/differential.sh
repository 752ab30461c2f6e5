#!/bin/sh
# Random scripts of every call through the console and the independent reference program, compared line by line. How often each kind of answer came is
# printed, and a kind below that never came fails the run: a run of refusals alone would show.
# Usage: tests/differential.sh [SEEDS [LINES]], by default about a minute.
set -eu
root=$(cd "$(dirname "$0")/.." && pwd)
programs=$root/rust/target/release
work=$(mktemp -d)
trap 'rm -rf "$work"' EXIT
cargo build --release --quiet --manifest-path "$root/rust/reference/Cargo.toml"
for seed in $(seq 1 "${1:-40}"); do
    "$programs/compare" "$root/target/bin/console" "$programs/reference" "$seed" "${2:-60000}" >"$work/report" || {
        echo "seed $seed:"
        cut -c1-400 "$work/report"
        exit 1
    }
    cat "$work/report" >>"$work/all"
    # the lives of a script as traces
    "$programs/compare_players" "$root/target/bin/player" "$programs/player" "$seed" 4000 >"$work/report" || {
        echo "seed $seed, players:"
        cut -c1-400 "$work/report"
        exit 1
    }
    cat "$work/report" >>"$work/all"
done
awk '/ answers compared/ { compared += $1; next }
    { n = $1; sub(/^ *[0-9]+  /, ""); count[$0] += n }
    END { for (kind in count) printf "%9d  %s\n", count[kind], kind | "sort -k2"; close("sort -k2"); print compared " answers are the same" }' "$work/all" >"$work/kinds"
cat "$work/kinds"
missing=0
while read -r kind; do
    grep -q "^ *[0-9]*  $kind\$" "$work/kinds" || {
        echo "never came: $kind"
        missing=1
    }
done <<'KINDS'
bad line
start started with ASCII
start started with UTF-8
start refused 7 with UTF-8
start refused 7 with no UTF-8
start refused 7 with a control byte
recv quiet
recv sent response of 4
recv sent response of 6
recv sent response with 1 NSEC
recv sent response with 2 NSEC
recv refused 7
recv quiet from another port
recv refused 5 from another port
recv refused 6 from another port
recv unicast of 1
recv unicast of 2
recv unicast with PTR
recv unicast with SRV
recv unicast in other case
recv wanted unicast of 1
recv wanted unicast of 2
recv wanted unicast of 3
recv wanted unicast of 4
recv wanted unicast of 5
recv wanted unicast of 6
recv wanted unicast of 7
recv wanted unicast with an ID
recv wanted unicast with PTR
recv wanted unicast with NSEC
recv sent and unicast
recv refused 3
unicast unicast
stop quiet
stop sent response of 1
stop sent response of 2
stop sent response of 3
stop sent response of 4
stop sent response of 5
stop refused 1
stop refused 3
update port sent
update port quiet
update txt sent
update txt quiet
update refused 1
update refused 3
update refused 7
update refused 10
update refused 11
claims updated never
claims updated once
tick sent probe more
tick sent response of 3 more
tick sent response of 5
tick sent response of 6
tick sent response with 1 NSEC
tick sent response with 2 NSEC
holds none
holds of 1
holds of 2
holds of 3
holds of 4
claims instance waiting
claims instance probing
claims instance deferred
claims instance held with second step
claims instance held
claims instance lost
claims host lost
claims reply set
out out
table table
put cached in a table of 1
put cached in a table of 2 to 63
put cached in a table of 64
put cached in a table of 65 to 511
put cached in a table of 512
put turned away by a table of 1
put turned away by a table of 2 to 63
put turned away by a table of 64
put turned away by a table of 65 to 511
put turned away by a table of 512
put cached with passed over
put cached with a restricted NSEC
put cached with another NSEC
put refused 1
put refused 4
put refused 5
put refused 6
put refused 8
put cached from another port
put refused 5 from another port
look slot in a table of 1
look slot in a table of 2 to 63
look slot in a table of 64
look slot in a table of 65 to 511
look slot in a table of 512
look slot past 99
look slot of NSEC
look owner of no label
look owner of 1 label
look owner of 2 to 126 labels
look owner of 127 labels
look none
look refused 1
look refused 6
look refused 8
slot used
slot used by NSEC
slot unused
clear cleared
browse browsing
browse refused 1
browse refused 2
browse refused 7
ask quiet
ask sent query
ask sent query of no known answer
ask sent query with TTL 0
ask sent query of 1,452 bytes
ask sent truncated query more
ask sent truncated query of 1,452 bytes
ask sent rest
ask sent rest more
ask sent rest of 1,452 bytes
ask sent truncated rest more
ask sent truncated rest of 1,452 bytes
ask refused 1
ask refused 3
ask refused 7
ask refused 8
list of none
list of 1
list of several
list refused 1
list refused 7
list refused 8
slot with less than its TTL
txt value received
txt value factory
read message with something
read question of no label
read question of 1 label
read question of 2 to 126 labels
read question of 127 labels
read owner of no label
read owner of 127 labels
read PTR target of no label
read PTR target of 1 label
read PTR target of 127 labels
read SRV target of no label
read SRV target of 1 label
read SRV target of 127 labels
read NSEC next name of no label
read NSEC next name of 1 label
read NSEC next name of 2 to 126 labels
read NSEC next name of 127 labels
read another NSEC owner of no label
read another NSEC owner of 2 to 126 labels
trace of no event
trace with tick
trace with recv
trace with claim
trace with stop
trace with port
trace with txt
trace refused 12 for an unknown kind
trace refused 12 for a claim byte
trace refused 12 for a state byte
trace refused 12 for padding
trace refused 12 for a kind 3 that is not owed
trace refused 12 for a kind 5 that is left out
trace refused 12 for the end where a kind 2 is owed
trace refused 12 for the end where a kind 3 is owed
trace refused 12 for a kind 1 cut short
trace refused 12 for a kind 2 cut short
trace refused 12 for a kind 3 cut short
trace refused 12 for a kind 4 cut short
trace refused 12 for a kind 5 cut short
trace refused 12 for a kind 6 cut short
trace refused 12 for a kind 7 cut short
trace refused 12 for a kind 8 cut short
trace refused 12 for a kind 1 where a kind 3 is owed
trace refused 12 for a kind 2 where a kind 3 is owed
trace refused 12 for a kind 4 where a kind 3 is owed
trace refused 12 for a kind 5 where a kind 3 is owed
trace refused 12 for a kind 6 where a kind 3 is owed
trace refused 12 for a kind 7 where a kind 3 is owed
trace refused 12 for a kind 8 where a kind 3 is owed
trace refused 12 for a kind 1 behind a kind 5
trace refused 12 for a kind 3 behind a kind 5
trace refused 12 for a kind 4 behind a kind 5
trace refused 12 for a kind 5 behind a kind 5
trace refused 12 for a kind 6 behind a kind 5
trace refused 12 for a kind 7 behind a kind 5
trace refused 12 for a kind 8 behind a kind 5
record of no event
record with tick
record with recv
record with claim
record with stop
record with port
record with txt
record refused 3
record refused 12 for a hold draw
record refused 12 for a source port
record refused 12 for a draw
record refused 12 for a claim
record refused 12 for a state
record refused 12 for a port
player instance waiting ok
player instance waiting bad
player instance probing ok
player instance probing bad
player instance deferred ok
player instance deferred bad
player instance held ok
player instance held bad
player instance lost ok
player instance lost bad
player host waiting ok
player host waiting bad
player host probing ok
player host probing bad
player host deferred ok
player host deferred bad
player host held ok
player host held bad
player host lost ok
player host lost bad
player of no claim
player bad line
player refused 1
player refused 2
player refused 7
player refused 12
proxy proxied
proxy refused 7
question ask as it is
question ask as it is of 255 bytes
question ask mapped
question ask mapped of 255 bytes
question negative for type 2
question negative for type 6
question negative for type 43
question refused 6
question refused 7
question refused 13
answer of type 1, owner as it is
answer of type 1, owner mapped
answer left of type 1
answer of type 12, owner as it is
answer of type 12, owner mapped
answer left of type 12
answer of type 16, owner as it is
answer of type 16, owner mapped
answer left of type 16
answer of type 28, owner as it is
answer of type 28, owner mapped
answer left of type 28
answer of type 33, owner as it is
answer of type 33, owner mapped
answer left of type 33
answer of type 12, target mapped
answer of type 33, target mapped
answer left of type 47
answer owner of 255 bytes
answer of class 1
answer of class 255
answer TTL 9 is 9
answer TTL 10 is 10
answer TTL 11 is 10
answer TTL 2147483647 is 10
answer TTL 2147483648 is 0
answer refused 7
answer refused 13
cached record of type 1
cached record of type 12
cached record of type 16
cached record of type 28
cached record of type 33
cached record with TTL 0
cached record with TTL 1
cached record with TTL 9
cached record with TTL 10
cached left
cached refused 1
cached refused 7
cached refused 8
cached refused 13
KINDS
exit "$missing"
