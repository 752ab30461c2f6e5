"""What the tables of trials share. A file of trials has a line for each: a number, and watch.py's line."""

import json

NAMES = ("instance", "host")


def trials_in(file):
    """Of each trial the number, and what was seen of the two names; none where there is no such file."""
    lines = [line.split(" ", 1) for line in file.read_text().splitlines()] if file.exists() else []
    return [(int(number), json.loads(line)) for number, line in lines]


def mean(times):
    return f"{sum(times) / len(times):.0f} ms" if times else "-"


def most(times):
    return f"{max(times)} ms" if times else "-"


def show(head, rows):
    for cells in (head, ["---"] * len(head), *rows):
        print(f"| {' | '.join(map(str, cells))} |".replace(" --- ", "---"))
