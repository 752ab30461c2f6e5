"""Copies lines, each behind the time of the wall clock at which it came, in milliseconds since 1970."""

import sys
import time

while line := sys.stdin.readline():
    print(round(time.time() * 1000), line, end="", flush=True)
