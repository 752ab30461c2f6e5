"""Judges a run by what its browsers printed and what was captured: FOLDER COUNT names|late|resolved.

Prints a row of the table for each browser, and fails where a list is not right at the end. 'phases' in the folder has a line for each phase with the time at
which it began, in milliseconds since 1970, and one for the end. How soon a list is right is told from the packet in which the last instance of the phase was
first said to appear, change or leave to the time from which on the list is what it should be until the next phase; of browsers that begin late, from the first
packet of any of them."""

import collections
import pathlib
import re
import struct
import sys

from instances import Instance, changing, leaving, lists, numbers, silent
from packet import read_labels

PTR, TXT, RESPONSE = 12, 16, 0x8000
MACHINES = {"ours": "3", "avahi": "4", "zeroconf": "5"}
PUBLISHERS = ("1", "2")


def events_of_ours(lines):
    """When an instance's lines ended, its name and its data; no data where it is gone."""
    events = []
    for time, line in lines:
        if match := re.match(r"(found|changed) +(\S+)$", line):
            events.append((time, match[2], {}))
        elif match := re.match(r"gone +(\S+)$", line):
            events.append((time, match[1], None))
        elif match := re.match(r"  (host|port|txt) +(.*)$", line):
            _, name, data = events[-1]
            events[-1] = (time, name, data | {match[1]: match[2]})
    whole = lambda data: data and (data["host"], int(data["port"]), data.get("txt", ""))
    return [(time, name, whole(data) if data != {} else ()) for time, name, data in events]


def events_of_avahi(lines):
    events = []
    for time, line in lines:
        sign, *fields = line.split(";")
        if sign == "+":
            events.append((time, fields[2], ()))
        elif sign == "=":
            events.append((time, fields[2], (fields[5], int(fields[7]), fields[8].strip('"'))))
        elif sign == "-":
            events.append((time, fields[2], None))
    return events


def events_of_zeroconf(lines):
    events = []
    for time, line in lines:
        word, *fields = line.split(" ")
        if word == "added":
            events.append((time, fields[0], ()))
        elif word == "found":
            events.append((time, fields[0], (fields[1], int(fields[2]), " ".join(fields[3:]))))
        elif word == "removed":
            events.append((time, fields[0], None))
    return events


READERS = {"ours": events_of_ours, "avahi": events_of_avahi, "zeroconf": events_of_zeroconf}


class Run:
    def __init__(self, folder, count, kind):
        self.folder, self.count, self.kind = pathlib.Path(folder), int(count), kind
        self.is_resolved = kind == "resolved"
        self.right = lists(self.count)
        marks = [line.split() for line in (self.folder / "phases").read_text().splitlines()]
        self.began = {word: int(time) for word, time in marks}
        self.phases = [word for word, _ in marks if word in self.right]
        self.packets = [(int(time), machine, bytes.fromhex(payload)) for time, machine, _, payload in self.captured()]
        self.to_all = [(int(time), machine, bytes.fromhex(payload)) for time, machine, to, payload in self.captured() if to == "all"]

    def captured(self):
        lines = (self.folder / "capture").read_text().splitlines()
        return [line.split() for line in lines if line != "capturing"]

    def stamped(self, file):
        lines = (self.folder / file).read_text().splitlines()
        split = (line.split(" ", 1) for line in lines)
        return [(int(time), rest) for time, rest in split]

    def after(self, phase):
        """When the next phase begins, or the end."""
        marks = list(self.began)
        return self.began[marks[marks.index(phase) + 1]]

    def said(self, phase, is_meant):
        """When each instance was first said, in a response of a publisher in a phase, by the records that are meant: at the latest."""
        first = {}
        for time, machine, packet in self.to_all:
            if machine in PUBLISHERS and self.began[phase] <= time < self.after(phase):
                for name in filter(None, map(is_meant, records(packet))):
                    first.setdefault(name, time)
        return first

    def last_word(self, phase):
        """When the last instance that the phase is about was first said to appear, change or leave; of the silent one, when its PTR was last said."""
        if phase == "silent":
            name = Instance(silent(self.count)).name
            return max(time for time, _, packet in self.to_all for record in records(packet) if live_pointer(record) == name and time < self.after("leave"))
        tests = {"appear": live_pointer, "change": text_of(self.count), "leave": goodbye}
        about = {"appear": numbers, "change": changing, "leave": leaving}[phase]
        wanted = {Instance(number).name for number in about(self.count)}
        first = self.said(phase, tests[phase])
        if wanted - first.keys():
            sys.exit(f"never said in the phase '{phase}': {sorted(wanted - first.keys())}")
        return max(first[name] for name in wanted)

    def list_over_time(self, browser):
        """The list after each time at which it changed: names, with data where they are resolved."""
        now, over = {}, [(0, {})]
        for time, name, data in READERS[browser](self.stamped(browser)):
            if data is None:
                now.pop(name, None)
            elif data or not self.is_resolved:
                now[name] = data
            over.append((time, dict(now)))
        return over

    def expected(self, phase):
        return self.right[phase] if self.is_resolved else dict.fromkeys(self.right[phase], ())

    def right_from(self, browser, phase):
        """The time from which on the list is right until the next phase, if there is one; while some leave, names count alone."""
        end, since, right = self.after(phase), None, self.expected(phase)
        for time, held in self.list_over_time(browser):
            if time >= end:
                break
            if held.keys() != right.keys() or phase in ("appear", "change") and held != right:
                since = None
            elif since is None:
                since = time
        return since

    def soon(self, browser, phase):
        if phase == "change" and not self.is_resolved:
            return "-"
        since = self.right_from(browser, phase)
        if since is None:
            return "kept" if phase == "silent" and browser == "zeroconf" else "not told"
        is_late = self.kind == "late" and phase == "appear"
        word = self.first_question() if is_late else self.last_word(phase)
        return f"{max(0, since - word)} ms"

    def first_question(self):
        """When the first packet of any browser went out."""
        return next(time for time, machine, _ in self.packets if machine in MACHINES.values())

    def sent(self, machine):
        mine = [packet for time, sender, packet in self.packets if sender == machine and time < self.began["end"]]
        return len(mine), sum(map(len, mine))

    def at_end(self, browser):
        """The list at the end; of Avahi, whose browser resolves an instance once, what a further one is told by the same daemon."""
        if browser == "avahi" and self.is_resolved:
            lines = (self.folder / "avahi-end").read_text().splitlines()
            return {name: data for _, name, data in events_of_avahi((0, line) for line in lines) if data}
        return [held for time, held in self.list_over_time(browser) if time < self.began["end"]][-1]

    def differs(self, browser):
        """What is too much and too little in the list at the end. python-zeroconf keeps the silent one: no PTR lives for less than 1125 s there."""
        held, right = self.at_end(browser), self.expected(self.phases[-1])
        kept = Instance(silent(self.count)).name
        if browser == "zeroconf" and self.phases[-1] == "silent":
            right = self.expected("leave")
            assert kept in right
        much = sorted(name for name in held if held[name] != right.get(name))
        little = sorted(name for name in right if name not in held)
        return f"{browser} has wrongly {some(much)} and lacks {some(little)}" if much or little else ""


def some(names):
    """How many there are, and the first of them."""
    return f"{len(names)} ({', '.join(names[:3])}{', ..' if len(names) > 3 else ''})" if names else "none"


def records(packet):
    """Owner, type, TTL and the rdata's first label or bytes of each record of a response."""
    _, flags, questions, *counts = struct.unpack_from("!6H", packet)
    if not flags & RESPONSE:
        return []
    at, found = 12, []
    for _ in range(questions):
        at = read_labels(packet, at)[1] + 4
    for _ in range(sum(counts)):
        owner, at, _ = read_labels(packet, at)
        kind, _, ttl, length = struct.unpack_from("!HHIH", packet, at)
        rdata = read_labels(packet, at + 10)[0][0].decode() if kind == PTR else packet[at + 10 : at + 10 + length]
        found.append((owner[0].decode(), kind, ttl, rdata))
        at += 10 + length
    return found


def live_pointer(record):
    _, kind, ttl, target = record
    return target if kind == PTR and ttl else None


def goodbye(record):
    _, kind, ttl, target = record
    return target if kind == PTR and not ttl else None


def text_of(count):
    changed = {Instance(number, True).name: Instance(number, True).txt.encode() for number in changing(count)}

    def test(record):
        owner, kind, _, rdata = record
        return owner if kind == TXT and rdata[1:] == changed.get(owner) else None

    return test


def main():
    run = Run(*sys.argv[1:])
    labels = {"ours": "ours", "avahi": "Avahi", "zeroconf": "python-zeroconf"}
    kinds = {"names": "names", "late": "names, begun late", "resolved": "resolved"}
    wrong = []
    there = [(browser, machine) for browser, machine in MACHINES.items() if (run.folder / browser).exists()]
    for browser, machine in there:
        times = [run.soon(browser, phase) if phase in run.phases else "-" for phase in run.right]
        wrong.append(run.differs(browser))
        packets, total = run.sent(machine)
        equal = "no" if wrong[-1] else "yes"
        print("|", " | ".join([str(run.count), kinds[run.kind], labels[browser], *times, str(packets), str(total), equal]), "|")
    answers = collections.Counter(machine for time, machine, packet in run.packets if machine in PUBLISHERS)
    begun, end = run.began[run.phases[0]], run.began["end"]
    seconds, packets = round((end - begun) / 1000), sum(answers.values())
    print(f"    ({run.count} {kinds[run.kind]}: {seconds} s from the first instance to the end; the publishers sent {packets} packets)")
    for words in filter(None, wrong):
        print(f"    at the end {words}")
    sys.exit(any(wrong))


main()
