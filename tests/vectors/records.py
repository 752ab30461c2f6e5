# Traces for vectors, record by record: one byte of kind, then a body whose length the kind fixes, numbers big-endian. And random ones, whole and broken.

ZERO = bytes(16)
FOUR = bytes(10) + b"\xff\xff" + bytes([10, 0, 0, 1])
LENGTHS = {1: 9, 2: 14, 3: 17, 4: 11, 5: 19, 6: 9, 7: 11, 8: 11}
STATES = ("waiting", "probing", "deferred", "held", "lost")


def number(n, width):
    return n.to_bytes(width, "big")


def tick(now):
    return b"\1" + number(now, 8)


def received(now, length, port=5353, draw=20):
    return b"\2" + number(now, 8) + number(port, 2) + number(draw, 1) + number(length, 2)


def piece(data, fill=b"\0"):
    return b"\3" + data + fill * (16 - len(data))


def pieces(data):
    return b"".join(piece(data[i:i + 16]) for i in range(0, len(data), 16))


def claim(last, which, state):
    return b"\4" + number(last, 8) + bytes([which, state])


def source(address, hold):
    return b"\5" + address + number(hold, 2)


def stop(now):
    return b"\6" + number(now, 8)


def port(now, new):
    return b"\7" + number(now, 8) + number(new, 2)


def text(now, length):
    return b"\x08" + number(now, 8) + number(length, 2)


def packet(now, data, address=ZERO, hold=400, port=5353, draw=20):
    """The records of one packet received."""
    left_out = address == ZERO and hold == 400
    return (b"" if left_out else source(address, hold)) + received(now, len(data), port, draw) + pieces(data)


def txt(now, data):
    return text(now, len(data)) + pieces(data)


def shown(data):
    return data.hex() or "-"


# --- events as the console's words have them, and their records ------------------------------------------------------------

def records(event):
    """The records of an event: a word and its values."""
    word, *v = event
    if word == "tick":
        return tick(*v)
    if word == "recv":
        now, address, from_port, draw, hold, data = v
        return packet(now, data, address, hold, from_port, draw)
    if word == "claim":
        return claim(*v)
    if word == "stop":
        return stop(*v)
    return port(*v) if word == "port" else txt(*v)


def words(event):
    return " ".join(shown(v) if isinstance(v, bytes) else str(v) for v in event)


def some_time(draw):
    return draw.choice((0, 1, 255, 256, 5000, 0x0102030405060708, 1 << 62, (1 << 64) - 1, draw.getrandbits(64), draw.getrandbits(20)))


def some_bytes(draw):
    data = draw.randbytes(draw.choice((0, 1, 2, 12, 15, 16, 17, 30, 31, 32, 33, 48, 60, 100)))
    zeros = draw.choice((0, 0, 1, 5, 16))
    return data[:-zeros or None] + bytes(min(zeros, len(data)))


def some_event(draw):
    now = some_time(draw)
    which = draw.randrange(10)
    if which < 2:
        return ("tick", now)
    if which < 5:
        address = draw.choice((ZERO, ZERO, FOUR, draw.randbytes(16)))
        hold = draw.choice((400, 400, 400, 0, 399, 401, 500, 65535))
        return ("recv", now, address, draw.choice((5353, 0, 53, 65535)), draw.choice((20, 120, 0, 255)), hold, some_bytes(draw))
    if which < 7:
        return ("claim", now, draw.randrange(2), draw.randrange(5))
    if which == 7:
        return ("stop", now)
    if which == 8:
        return ("port", now, draw.choice((0, 80, 4000, 65535)))
    return ("txt", now, some_bytes(draw))


def offsets(trace):
    """Where the records of a whole trace begin, and its end."""
    found = [0]
    while found[-1] < len(trace):
        found.append(found[-1] + LENGTHS[trace[found[-1]]])
    return found


def some_record(draw):
    return draw.choice((tick(3), received(3, draw.choice((0, 1, 16, 17))), piece(b""), piece(b"\1" * 16), claim(3, draw.choice((0, 1, 2, 255)), draw.choice((0, 4, 5, 255))),
                        source(ZERO, 400), source(ZERO, 401), source(FOUR, 400), stop(3), port(3, 4), text(3, draw.choice((0, 1, 16))), b"\0", b"\x09" + bytes(8), b"\xff" * 9))


def broken(draw, trace):
    """A whole trace with something changed: a cut, a record more, fewer or twice, another kind, another byte."""
    places = offsets(trace)
    i = draw.randrange(len(places))
    at, end = places[i], places[min(i + 1, len(places) - 1)]
    which = draw.randrange(8)
    if which == 0:
        return trace[:at]
    if which == 1:
        return trace[:draw.randrange(len(trace) + 1)]
    if which == 2:
        return trace[:at] + some_record(draw) + trace[at:]
    if which == 3:
        return trace[:at] + trace[end:]
    if which == 4:
        return trace[:end] + trace[at:]
    if at == end:
        return trace + some_record(draw)
    if which == 5:
        return trace[:at] + bytes([draw.choice((0, 1, 2, 3, 4, 5, 6, 7, 8, 9, 255))]) + trace[at + 1:]
    if which == 6:
        return trace[:end - 1] + bytes([(trace[end - 1] + draw.choice((1, 255, 16))) % 256]) + trace[end:]
    at += draw.randrange(end - at)
    return trace[:at] + bytes([trace[at] ^ (1 << draw.randrange(8))]) + trace[at + 1:]
