# Packets for vectors, piece by piece: header, names, questions, records (RFC 1035, 4).

A, PTR, TXT, AAAA, SRV, NSEC = 1, 12, 16, 28, 33, 47


def header(qd=0, an=0, ns=0, ar=0, flags=0x8400, ident=0):
    return b"".join(n.to_bytes(2, "big") for n in (ident, flags, qd, an, ns, ar))


def labels(*parts):
    return b"".join(bytes([len(p)]) + p for p in parts)


def name(*parts):
    return labels(*parts) + b"\0"


def pointer(target):
    return (0xC000 | target).to_bytes(2, "big")


def question(owner, rtype=255, cls=1):
    return owner + rtype.to_bytes(2, "big") + cls.to_bytes(2, "big")


def record(owner, rtype, rdata, cls=1, ttl=120, length=None):
    n = len(rdata) if length is None else length
    return question(owner, rtype, cls) + ttl.to_bytes(4, "big") + n.to_bytes(2, "big") + rdata


def filled(n):
    """An uncompressed name of n bytes."""
    parts = []
    left = n - 1
    while left > 64:
        parts.append(b"a" * 63)
        left -= 64
    parts.append(b"b" * (left - 1))
    return name(*parts)


def window(*bits, number=0, length=None):
    """The window block of an NSEC with these bytes of a bitmap (RFC 4034, 4.1.2)."""
    return bytes([number, len(bits) if length is None else length, *bits])


HOST = name(b"dock", b"local")
ANNOUNCED = header(an=1) + record(HOST, A, bytes([10, 0, 0, 7]), cls=0x8001)
