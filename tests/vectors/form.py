#!/usr/bin/env python3
# Writes the console script of the protocol's own form: what is no line, no call, no field, no number, no bytes. Run by make.sh.
import sys


def show(what):
    print("\n# " + what)


def line(text):
    print(text)


GOOD = "read 000000000000000000000000"

show("lines without an answer: this one, an empty one, a comment that would be a call")
line("")
line("#" + GOOD)
line("#")
line(GOOD)

show("spaces: in front, at the end, doubled; a tab; a CR at the end")
line(" " + GOOD)
line(GOOD + " ")
line(GOOD.replace(" ", "  "))
line(GOOD.replace(" ", "\t"))
line(GOOD + "\r")
line("\r")
line(" ")

show("words that are no calls")
for word in ("READ", "Read", "rea", "reads", "read-", "help", "-", "0", "\u00e9"):
    line(word + " 000000000000000000000000")

show("fields that are missing or left over")
line("read")
line("read ")
line(GOOD + " 00")
line(GOOD + " ")

show("bytes: either case, two digits a byte, a hyphen for none")
line("read 0000A4000000000000000000")
line("read 0000a4000000000000000000")
line("read AbCd00000000000000000000")
line("read -")
line("read --")
line("read -00")
line("read 0")
line("read 00000000000000000000000")
for c in ("g", "G", "@", "`", "/", ":", "x", ".", "-", "\u00e9"):
    line("read 0" + c)
    line("read " + c + "0")

show("a line of 39,999 bytes is a call; of 40,001 it is bad, even where its fields are good")
line("read " + "00" * 19997)
line("read " + "00" * 19998)

show("a line of 40,000 and one of 40,001 bytes that are no calls, and one of 70,000 bytes; then a good one")
line("x" * 40000)
line("x" * 40001)
line("read " + "0" * 69995)
line(GOOD)

show("a comment of 40,001 and one of 70,000 bytes; then a good line")
line("#" + "c" * 40000)
line("#" + "c" * 69999)
line(GOOD)

show("a last piece without LF is no line")
sys.stdout.write(GOOD)
