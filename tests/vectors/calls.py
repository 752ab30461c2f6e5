# The responder's calls for vectors: `start`, `recv`, `tick`, `claims`, `holds`, `out` and `unicast`, messages for them, and a responder in each state.
from packets import *

INSTANCE = name(b"booth", b"_voice", b"_tcp", b"local")
SERVICE = name(b"_voice", b"_tcp", b"local")
TEN = bytes([10, 0, 0, 7])
SIX = bytes.fromhex("fe80000000000000000000000000000a")
OWN_SRV = bytes(4) + (4000).to_bytes(2, "big") + HOST
LATE = 4 << 60


def show(what):
    print("\n# " + what)


def text(b):
    return b.hex() or "-"


def start(now=0, draw=0, instance=b"booth", service=b"_voice", protocol=b"_tcp", host=b"dock", domain=b"local", port=4000, txt=b"\0", a=TEN, aaaa=b""):
    print("start", now, draw, text(instance), text(service), text(protocol), text(host), text(domain), port, text(txt), text(a), text(aaaa))


def tick(now, *out):
    print("tick", now, *out)


def recv(now, packet, draw=20, port=5353, out=(), source=bytes([10, 0, 0, 1]), hold=400):
    print("recv", now, text(source), port, draw, hold, text(packet), *out)


def claims():
    print("claims")


def holds():
    print("holds")


def out(at, n):
    print("out", at, n)


def unicast(at, n):
    print("unicast", at, n)


def query(questions, known=(), authority=(), flags=0, ident=0):
    counts = header(qd=len(questions), an=len(known), ns=len(authority), flags=flags, ident=ident)
    return counts + b"".join(questions) + b"".join(known) + b"".join(authority)


def response(answers=(), authority=(), additional=(), questions=()):
    return header(qd=len(questions), an=len(answers), ns=len(authority), ar=len(additional)) + b"".join(questions) + b"".join(answers) + b"".join(authority) + b"".join(additional)


def probe(owner, *records):
    return query([question(owner)], authority=records)


def state(which, aaaa=b""):
    """A responder whose claims are in a state, and the time then. Started at 0 with draw 0."""
    start(aaaa=aaaa)
    if which == "waiting":
        return 0
    steps = {"probing": 1, "probing twice": 2, "probing three times": 3, "deferred": 1, "announced": 4, "held": 4, "lost": 1}[which]
    for i in range(steps):
        tick(250 * i)
        tick(250 * i)
    now = 250 * (steps - 1)
    if which == "held":
        tick(now + 1000)
        tick(now + 1000)
        return now + 1000
    if which == "deferred":
        recv(now, probe(HOST, record(HOST, A, b"\xff" * 4)))
        recv(now, probe(INSTANCE, record(INSTANCE, SRV, b"\xff" * 6 + HOST)))
    if which == "lost":
        recv(now, response([record(HOST, A, b"\xff" * 4), record(INSTANCE, TXT, b"\1x")]))
    return now


STATES = ("waiting", "probing", "probing twice", "probing three times", "deferred", "announced", "held", "lost")
