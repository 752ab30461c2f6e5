#!/usr/bin/env python3
"""Fails if a public function of a crate has a `requires`, since every caller may call with anything (specification, R-GEN-8), or no `ensures`.

A function that is `pub(crate)` is not public. Of what a function prints no contract can speak: the console's functions that do nothing else, in the files
below, are proved safe and ending."""
import pathlib
import re
import sys

PRINTING = {
    "crates/console_browser/src/listing.rt",
    "crates/console_calls/src/output.rt",
    "crates/console_calls/src/reader_calls.rt",
    "crates/console_calls/src/reader_calls/pairs.rt",
    "crates/console_calls/src/reader_calls/reading.rt",
    "crates/console_proxy/src/mapping.rt",
    "crates/console_responder/src/showing.rt",
    "crates/console_trace/src/lib.rt",
    "crates/console_trace/src/recording.rt",
    "crates/console_trace/src/showing.rt",
}
root = pathlib.Path(__file__).resolve().parent.parent
wrong, public, printing = [], 0, 0
for source in sorted(root.glob("crates/*/src/**/*.rt")):
    text = re.sub(r"//[^\n]*", "", source.read_text())
    # a public function's head: from `pub` to the brace that opens its body; with clauses that stands on a line of its own, else it ends the signature
    for match in re.finditer(r"\bpub (?:const |unsafe |extern \"C\" )*fn (\w+)", text):
        public += 1
        head = text[match.start():]
        clauses = re.search(r"\{\n|^\s*(?:requires|ensures)\b", head, re.M)
        head = head[: clauses.start()] if clauses and clauses.group().startswith("{") else re.split(r"^\s*\{\n", head, maxsplit=1, flags=re.M)[0]
        name = f"{source.relative_to(root)}: {match.group(1)}"
        if re.search(r"^\s*requires\b", head, re.M):
            wrong.append(f"a public function has a requires: {name}")
        if not re.search(r"^\s*ensures\b", head, re.M):
            printing += 1
            if str(source.relative_to(root)) not in PRINTING:
                wrong.append(f"a public function has no ensures: {name}")
for line in wrong:
    print(line)
print(f"{public} public functions, none with a requires, {printing} that only print without an ensures" if not wrong else f"{len(wrong)} wrong")
sys.exit(1 if wrong or public == 0 else 0)
