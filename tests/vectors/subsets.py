#!/usr/bin/env python3
# Turns the lines of the reference program's `packets` (standard input) into the table of crates/readings/specs/Subsets.antt: every response that can be
# written of the five records of three set-ups, and ten with NSEC, as one statement for each set-up that the definitions give those bytes. Run by make.sh.
import sys

# the fields of the instance's and of the host's NSEC in a set of own records
INSTANCE, HOST = "instancensec", "hostnsec"

HEAD = '''-- Every non-empty subset of the five own records as a response, for three set-ups, against the bytes that the reference program writes,
-- and ten with NSEC: each alone, both, PTR or SRV with the instance's, SRV or A with the host's, TXT with both, all that goes out at once, and all seven.
-- `responsePacket` is what the contract of `own_packets::respond` says of the buffer. A packet stands as one number, its bytes after a 1. Made by
-- tests/vectors/subsets.py. Assumes nothing.
use Rattle.std.specs.Prelude.{ℕ, ◌+◌, ◌*◌, ◌≡◌, refl, Bool, true, false, List, [], ◌∷◌}
use Rattle.wire.specs.name_pieces.Pieces.{piece_at}
use Rattle.wire.specs.names.Names.{read_from, from_run, name_at}
use Rattle.wire.specs.case_folding.Fold.{same_name}
use Rattle.wire.specs.nsec.Nsec.{names, is_block, is_nsec}
use Rattle.wire.specs.expansion.Equal.{same_bytes}
use Rattle.own.specs.declared.records.Setup.{Setup}
use Rattle.own.specs.records.Setups.{service_labels, instance_labels, host_labels}
use Rattle.own.specs.records.Records.{has_record, own_labels, own_name, srv_rdata, own_rdata}
use Rattle.claims.specs.records.Sets.{picked}
use Rattle.writer.specs.compression.Compression.{stands_at, place_of, cut_from, name_bytes, name_places}
use Rattle.wire.specs.labels.Counted.{starts}
use Rattle.writer.specs.Fit.{form_for}
use Rattle.writer.specs.Items.{put_name, data_bytes, data_places, put_fields}
use Rattle.writer.specs.own_packets.Packets.{packet_of}
use Rattle.writer.specs.own_packets.Styles as styles
use Rattle.writer.specs.own_packets.Own.{response_packet, response_records, response_of}
use Rattle.readings.specs.Examples.{padded, example}

-- the bytes after a 1, as one number
unfoldable pub number : ℕ → List ℕ → ℕ
number n [] = n
number n (b ∷ bs) = number (n * 256 + b) bs

-- The specification's example with an AAAA and a host label of so many bytes
unfoldable pub hosted : List ℕ → ℕ → Setup
hosted host len = record {
  instance = example.instance;
  service = example.service;
  protocol = example.protocol;
  host = record { bytes = padded 63 host; len = len };
  domain = example.domain;
  port = example.port;
  txt = example.txt;
  a = example.a;
  hasaaaa = true;
  aaaa = 254 ∷ (128 ∷ (0 ∷ (0 ∷ (0 ∷ (0 ∷ (0 ∷ (0 ∷ (0 ∷ (0 ∷ (0 ∷ (0 ∷ (0 ∷ (0 ∷ (0 ∷ (10 ∷ [])))))))))))))));
}

-- the response to all, so with ID 0, with PTR, SRV, TXT, A, AAAA, the instance's NSEC, the host's NSEC or without
abbrev pub written : Setup → Bool → Bool → Bool → Bool → Bool → Bool → Bool → ℕ
written s ptr srv txt a aaaa INSTANCE HOST =
    number 1 (response_packet s 0 (record { ptr = ptr; srv = srv; txt = txt; a = a; aaaa = aaaa; INSTANCE = INSTANCE; HOST = HOST }))
'''.replace("INSTANCE", INSTANCE).replace("HOST", HOST)
NAMES = {
    "dock": ("plain", "a host label that stands nowhere else"),
    "_tcp": ("shared", "a host label that is a label of the service's name"),
    "Booth": ("cased", "a host label that differs from the instance's only in case"),
}
UNFOLDING = "number hosted example name_at from_run read_from piece_at same_bytes has_record own_labels own_name srv_rdata own_rdata service_labels instance_labels host_labels response_packet response_records picked response_of styles.own_record packet_of put_name form_for is_nsec is_block names same_name data_bytes data_places put_fields name_bytes name_places starts cut_from place_of stands_at"


def listed(values):
    return "".join(f"{v} ∷ (" for v in values[:-1]) + f"{values[-1]} ∷ []" + ")" * (len(values) - 1)


rows = {}
for line in sys.stdin:
    host, subset, packet = line.split()
    rows.setdefault(host, []).append((subset, packet))
print(HEAD, end="")
for host, (what, says) in NAMES.items():
    label = list(host.encode())
    chosen = lambda subset: " ".join("true" if digit == "1" else "false" for digit in subset)
    print(f"\n-- {says}\nabbrev pub {what} : Setup\n{what} = hosted ({listed(label)}) {len(label)}\n")
    print(f"abbrev pub {what.capitalize()} : Type 0\n{what.capitalize()} =")
    print("\n    × ".join(["    " + f"(written {what} {chosen(s)} ≡ 0x01{p})" for s, p in rows[host]][:1] + [f"(written {what} {chosen(s)} ≡ 0x01{p})" for s, p in rows[host]][1:]))
    print(f"\npub {what}-subsets : {what.capitalize()}\nunfolding {UNFOLDING}\n{what}-subsets = ({', '.join(['refl'] * len(rows[host]))})")
