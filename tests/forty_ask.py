"""A browser asks for the instances of _voice._tcp.local five times: for unicast answers, without known answers; without known answers; with all instances as
known answers, in as many packets as they take; with as many others before them as fill the first packet; and with all but the last.

ADDRESS LABELS MOST: the interface's address; a file of the instances' labels, one a line; how many may answer that are known. Prints how many answered, and
when. Fails where one is silent that isn't known, or more than so many answer that are."""

import pathlib
import select
import socket
import struct
import sys
import time

from packet import name, read_labels

GROUP, PORT = "224.0.0.251", 5353
MOST = 1452  # bytes of a packet
APART = 0.020  # seconds between the packets of one query
HEARD_FOR = 0.700  # seconds that answers are counted after the last packet of a query
PAUSE = 1.5  # seconds between two queries: no PTR goes out again within a second
TTL = 4500
PTR, CLASS_IN = 12, 1
TC, RESPONSE = 0x0200, 0x8000

SERVICE = name("_voice._tcp.local")
QUESTION = SERVICE + struct.pack("!HH", PTR, CLASS_IN)
UNICAST = 0x80  # in the class's first byte: the answer may come by unicast
TO_SERVICE = b"\xc0\x0c"  # a pointer to what stands right behind the header, always the service's name


def known_answer(owner, label):
    rdata = bytes([len(label)]) + label + TO_SERVICE
    return owner + struct.pack("!HHIH", PTR, CLASS_IN, TTL, len(rdata)) + rdata


def packets(labels):
    """The query: the question and as many known answers as fit, then packets without a question; TC is set in all but the last."""
    lists = [[QUESTION]]
    for label in labels:
        record = known_answer(TO_SERVICE, label)
        if 12 + sum(map(len, lists[-1])) + len(record) > MOST:
            lists.append([])
            record = known_answer(SERVICE, label)
        lists[-1].append(record)
    return [packet(parts, number == 0, number + 1 < len(lists)) for number, parts in enumerate(lists)]


def packet(parts, is_first, is_cut):
    header = struct.pack("!6H", 0, TC if is_cut else 0, int(is_first), len(parts) - int(is_first), 0, 0)
    return header + b"".join(parts)


def pointers(packet):
    """The instances' labels in the PTR records of a response's Answer section."""
    _, flags, questions, answers, _, _ = struct.unpack_from("!6H", packet)
    if not flags & RESPONSE or questions:
        return []
    at, found = 12, []
    for _ in range(answers):
        _, at, _ = read_labels(packet, at)
        kind, _, ttl, length = struct.unpack_from("!HHIH", packet, at)
        if kind == PTR and ttl:
            found.append(read_labels(packet, at + 10)[0][0])
        at += 10 + length
    return found


class Link:
    """A socket for the group and one for what is sent to the own address."""

    def __init__(self, address):
        self.group, self.own = (socket.socket(socket.AF_INET, socket.SOCK_DGRAM) for _ in range(2))
        for opened, bound in ((self.group, GROUP), (self.own, address)):
            opened.setsockopt(socket.SOL_SOCKET, socket.SO_REUSEADDR, 1)
            opened.setsockopt(socket.SOL_SOCKET, socket.SO_RCVBUF, 1 << 20)
            opened.bind((bound, PORT))
        membership = socket.inet_aton(GROUP) + socket.inet_aton(address)
        self.group.setsockopt(socket.IPPROTO_IP, socket.IP_ADD_MEMBERSHIP, membership)
        self.own.setsockopt(socket.IPPROTO_IP, socket.IP_MULTICAST_IF, socket.inet_aton(address))
        self.own.setsockopt(socket.IPPROTO_IP, socket.IP_MULTICAST_TTL, 255)
        self.own.setsockopt(socket.IPPROTO_IP, socket.IP_MULTICAST_LOOP, 0)

    def ask(self, query):
        """Sends a query; gives each answer's source, labels, time since the first packet of the query, and whether it came by unicast."""
        begun, answers = time.monotonic(), []
        for number, packet in enumerate(query):
            self.hear(begun + number * APART, begun, answers)
            self.own.sendto(packet, (GROUP, PORT))
        self.hear(time.monotonic() + HEARD_FOR, begun, answers)
        return answers

    def hear(self, until, begun, answers):
        while (left := until - time.monotonic()) > 0:
            for ready in select.select([self.own, self.group], [], [], left)[0]:
                packet, source = ready.recvfrom(9000)
                if labels := pointers(packet):
                    answers.append((source[0], labels, round((time.monotonic() - begun) * 1000), ready is self.own))


def with_unicast_bit(query):
    """The same for a query of one packet with one question alone."""
    (packet,) = query
    return [packet[:-2] + bytes([packet[-2] | UNICAST, packet[-1]])]


def count(link, words, query):
    """Asks; says how many responders answered, and gives the labels in their answers."""
    answers = link.ask(query)
    responders = len({source for source, _, _, _ in answers})
    unicast = sum(is_unicast for _, _, _, is_unicast in answers)
    times = [time for _, _, time, _ in answers]
    when = f", {min(times)} to {max(times)} ms after the first" if times else ""
    how = f", {unicast} of them by unicast" if unicast else ""
    lengths = "+".join(str(len(packet)) for packet in query)
    print(f"{words}: asked in {len(query)} packets of {lengths} bytes; {len(answers)} packets from {responders} responders{how}{when}", flush=True)
    time.sleep(PAUSE)
    return {label for _, labels, _, _ in answers for label in labels}


def main():
    address, file, most = sys.argv[1:]
    labels = pathlib.Path(file).read_bytes().splitlines()
    others = [labels[0].replace(b"001", b"%d" % (900 + number)) for number in range(MOST // len(known_answer(TO_SERVICE, labels[0])))]
    link = Link(address)
    wanted = count(link, "none known, unicast wanted", with_unicast_bit(packets([])))
    unknown = count(link, "none known", packets([]))
    known = count(link, "all known", packets(labels))
    behind = count(link, "all known, behind others", packets(others + labels))
    but_one = count(link, "all known but one", packets(labels[:-1]))
    print(
        f"forty: of {len(labels)} responders answer {len(unknown)} that aren't known, {len(known)} that are known, "
        f"{len(behind)} that are known behind others, and {len(but_one)} where all but one are known"
    )
    is_heard = wanted == unknown == set(labels) and labels[-1] in but_one
    sys.exit(not is_heard or max(len(known), len(behind), len(but_one) - 1) > int(most))


main()
