"""Runs a command from a moment of the wall clock on, and says when: MILLISECONDS COMMAND..."""

import os
import sys
import time

moment = float(sys.argv[1]) / 1000
while (ahead := moment - time.time()) > 0:
    time.sleep(ahead)
print(f"begun at {int(time.time() * 1000)}", flush=True)
os.execvp(sys.argv[2], sys.argv[2:])
