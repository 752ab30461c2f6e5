#!/usr/bin/env python3
# Talks to a console through pipes, as a caller does: an answer comes before the next line is sent, whatever pieces the lines come in; and input of
# any bytes is survived. Each check compares two consoles.
# usage: tests/vectors/pipes.py CONSOLE REFERENCE
import random
import subprocess
import sys
import time

sys.dont_write_bytecode = True
from packets import *

PROGRAMS = sys.argv[1:3]


def talk(program, sends):
    """Sends each piece and reads the answers that it must bring before the next is sent; then what comes at the end of input."""
    p = subprocess.Popen([program], stdin=subprocess.PIPE, stdout=subprocess.PIPE)
    answers = []
    for piece, count in sends:
        p.stdin.write(piece)
        p.stdin.flush()
        for _ in range(count):
            answers.append(p.stdout.readline())
    p.stdin.close()
    rest = p.stdout.read()
    return answers, rest, p.wait()


def compare(what, sends):
    begin = time.time()
    results = [talk(program, sends) for program in PROGRAMS]
    if any(r != results[0] for r in results) or results[0][2] != 0:
        print("DIFFER:", what)
        for r in results:
            print("  ", [a[:60] for a in r[0]][:9], r[1][:200], r[2])
        sys.exit(1)
    size = sum(len(a) for a in results[0][0]) + len(results[0][1])
    print(f"same: {what} ({size:,} bytes of answers, {time.time() - begin:.1f} s)")


good = b"read " + ANNOUNCED.hex().encode() + b"\n"
compare("line by line, each answered before the next is sent", [(good, 1)] * 100)
compare("a line in single bytes, the LF last", [(bytes([b]), 0) for b in good[:-1]] + [(b"\n", 1)])
compare("two lines and a half, then the other half", [(good + good + good[:20], 2), (good[20:], 1)])
compare("a comment and an empty line have no answer", [(b"# hm\n\n" + good, 1)])
compare("a last piece without LF has no answer", [(good + good[:-1], 1)])
compare("no input at all", [])

every = bytes(range(256))
compare("each byte alone on a line, and in a field", [(b"\n".join(b"read 0" + bytes([b]) for b in every if b != 10) + b"\n", 255), (b"\n".join(bytes([b]) for b in every if b not in b"\n#") + b"\n", 254)])
compare("NULs in front, in the middle and at the end of a line", [(b"\0" + good, 1), (good[:9] + b"\0" + good[9:], 1), (good[:-1] + b"\0\n", 1), (b"\0\n", 1)])
for n in (39999, 40000, 40001, 65535, 65536, 65537, 131072, 1000003):
    compare(f"a line of {n:,} bytes, in one piece and in odd ones, then a good one",
            [(b"read " + b"0" * (n - 5) + b"\n" + good, 2)] + [(b"x" * 997, 0)] * (n // 997) + [(b"x" * (n % 997) + b"\n" + good, 2)])
compare("a comment of 1,000,003 bytes, then a good line", [(b"#" * 1000003 + b"\n" + good, 1)])

count = (8972 - 12 - 259) // 6 + 1
p = header(qd=count) + question(labels(*[b"a"] * 127) + b"\0", 65535, 65535) + question(pointer(12), 65535, 65535) * (count - 1)
compare(f"the longest answer: {count} questions for a name of 255 bytes and 127 labels", [(b"read " + p.hex().encode() + b"\n", 1)] * 3)

draw = random.Random(1)
noise = bytes(draw.choice(b"read 0123456789abcdef-\n\r\t #\0\xff") for _ in range(300000))
compare("300,000 bytes of noise", [(noise, 0)])
