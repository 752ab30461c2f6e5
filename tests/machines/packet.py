"""Names, questions and records as they lie in a packet."""

import struct

PTR, SRV = 12, 33


def name(text):
    labels = [label.encode() for label in text.strip(".").split(".")]
    return b"".join(bytes([len(label)]) + label for label in labels) + b"\0"


def read_name(packet, at):
    """The name as text, where what follows it begins, and whether it has a pointer."""
    labels, end, is_cut = read_labels(packet, at)
    return b".".join(labels).decode() + ".", end, is_cut


def read_labels(packet, at):
    """The labels of a name, where what follows it begins, and whether it has a pointer."""
    labels, end = [], None
    while packet[at]:
        if packet[at] >= 0xC0:
            end = end or at + 2
            at = struct.unpack_from("!H", packet, at)[0] & 0x3FFF
        else:
            labels.append(packet[at + 1 : at + 1 + packet[at]])
            at += 1 + packet[at]
    return labels, end or at + 1, end is not None


def target(packet, at, kind):
    if kind not in (PTR, SRV):
        return ""
    text, _, is_cut = read_name(packet, at + (6 if kind == SRV else 0))
    return f" target {text} {'cut' if is_cut else 'whole'}"


def questions(packet):
    """A line for each question, and where the records begin."""
    at, lines = 12, []
    for _ in range(struct.unpack_from("!H", packet, 4)[0]):
        text, at, _ = read_name(packet, at)
        kind, class_ = struct.unpack_from("!HH", packet, at)
        lines.append(f"question {text} type {kind} class {class_ & 0x7FFF}{' wants unicast' if class_ & 0x8000 else ''}")
        at += 4
    return lines, at


def records(packet, at):
    """A line for each record, of which the first begins there, and whether the packet ends behind the last."""
    lines = []
    for _ in range(sum(struct.unpack_from("!3H", packet, 6))):
        owner, at, _ = read_name(packet, at)
        kind, class_, ttl, length = struct.unpack_from("!HHIH", packet, at)
        flush = " flush" if class_ & 0x8000 else ""
        lines.append(f"record {owner} type {kind} class {class_ & 0x7FFF}{flush} ttl {ttl}{target(packet, at + 10, kind)}")
        at += 10 + length
    lines.append("ends there" if at == len(packet) else f"{len(packet) - at} bytes left over")
    return lines


def header(packet, query):
    """The header's line, beside that of the query."""
    number, flags, *counts = struct.unpack_from("!6H", packet)
    repeated = "id repeated" if packet[:2] == query[:2] else f"id {number}"
    return f"{repeated} flags {flags:04x} counts {' '.join(map(str, counts))}"
