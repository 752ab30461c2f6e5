"""Who holds the names? Asks each machine for both every 20 ms, as a plain resolver does, which changes nothing: a machine holds a name while it answers for it.

OWN FILE SECONDS ADDRESS..: the own address, a file in which a moment of the wall clock will stand, in milliseconds since 1970, how long to watch after that
moment, the machines' addresses. Prints 'watching', and one line of JSON when the time is over. For each of the two names: 'first', the first time at which one
held it; 'two', the last time at which two or more held it; 'one', the time from which on one and the same machine alone held it, up to the end; 'holders', how
many hold it at the end; 'together', for how long in all two or more held it. Times are in milliseconds after the moment, null where there is none.

A machine that answers a question within 100 ms holds the name at the time it was asked. One that answers within a second is slow, as on a busy machine: it did
not hold the name then for 'first' and 'two', and did not give it up for 'one' and 'holders'."""

import json
import pathlib
import select
import socket
import struct
import sys
import time

from packet import name

PORT = 5353
PERIOD, PROMPT, PATIENCE, MOST = 0.020, 0.100, 1.0, 30
A, SRV, CLASS_IN = 1, 33, 1

NAMES = {
    "instance": name("Booth 3._voice._tcp.local") + struct.pack("!HH", SRV, CLASS_IN),
    "host": name("dock.local") + struct.pack("!HH", A, CLASS_IN),
}


def moment_in(file):
    """The moment in seconds, if it stands there yet."""
    return float(file.read_text()) / 1000 if file.exists() else None


def watch(own, file, seconds, machines):
    """The moment, and for each round its time and, for each name, who answered in time and who late."""
    asker = socket.socket(socket.AF_INET, socket.SOCK_DGRAM)
    asker.bind((own, 0))
    rounds, asked, number = [], {}, 0
    print("watching", flush=True)
    due, moment, end = time.time(), None, time.time() + MOST
    while (now := time.time()) < end + PATIENCE:
        if not moment and (moment := moment_in(file)):
            end = moment + seconds
        if now >= due and now < end:
            due = max(due + PERIOD, now)
            rounds.append((now, {which: (set(), set()) for which in NAMES}))
            for which, question in NAMES.items():
                for machine in machines:
                    number = number % 65535 + 1
                    asked[number] = (now, rounds[-1][1][which], machine)
                    asker.sendto(struct.pack("!6H", number, 0, 1, 0, 0, 0) + question, (machine, PORT))
        until = due if due < end else end + PATIENCE
        if select.select([asker], [], [], max(0, until - time.time()))[0]:
            packet, (source, _) = asker.recvfrom(9000)
            sent, answered, machine = asked.get(struct.unpack_from("!H", packet)[0], (0, None, None))
            waited = time.time() - sent
            if machine == source and struct.unpack_from("!H", packet, 6)[0] and waited <= PATIENCE:
                answered[waited > PROMPT].add(machine)
    return moment, rounds


def told(rounds, which, moment):
    after = lambda at: round((at - moment) * 1000) if at else None
    held = [(at, *answered[which]) for at, answered in rounds]
    first = next((at for at, holders, _ in held if holders), None)
    two = next((at for at, holders, _ in reversed(held) if len(holders) > 1), None)
    together = sum(end - at for (at, holders, _), (end, *_) in zip(held, held[1:]) if len(holders) > 1)
    last, one = held[-1][1] | held[-1][2], None
    if len(last) == 1:
        for at, holders, late in reversed(held):
            if holders | late != last:
                break
            one = at if holders else one
    return {"first": after(first), "two": after(two), "one": after(one), "holders": len(last), "together": round(together * 1000)}


def main():
    own, file, seconds, *machines = sys.argv[1:]
    moment, rounds = watch(own, pathlib.Path(file), float(seconds), machines)
    print(json.dumps({which: told(rounds, which, moment) for which in NAMES}))


main()
