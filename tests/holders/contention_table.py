"""The table of tests/contention.sh: TRIALS FOLDER KIND-DRAWS-COUNT.., where FOLDER has a file trials-KIND-DRAWS-COUNT of lines: how many milliseconds after the
moment the last one began, and watch.py's line. A trial is about two names, and is counted where either is so. Fails where of ours a name has not one holder in
the end, or a trial is missing."""

import pathlib
import sys

from table import NAMES, mean, most, show, trials_in

HEAD = (
    "programs,draws,how many,trials,instance has one holder: mean,slowest,host: mean,slowest,"
    "nobody in the end,two in the end,two at some time,paused,begun late,latest"
).split(",")


def is_settled(trial):
    return all(trial[which]["holders"] == 1 for which in NAMES)


def count(trials, test):
    """In how many trials it is so of one of the names."""
    return sum(any(test(trial[which]) for which in NAMES) for trial in trials)


def row(case, lines):
    trials = [trial for _, trial in lines]
    late = [late for late, _ in lines if late]
    ones = [[trial[which]["one"] for trial in trials if trial[which]["one"] is not None] for which in NAMES]
    times = [f(each) for each in ones for f in (mean, most)]
    nobody = count(trials, lambda name: name["holders"] == 0)
    two = count(trials, lambda name: name["holders"] > 1)
    once_two = count(trials, lambda name: name["two"] is not None)
    paused = count(trials, lambda name: name["one"] not in (None, name["first"]))
    return [*case.split("-"), len(trials), *times, nobody, two, once_two, paused, len(late), most(late)]


def main():
    trials, folder, *cases = sys.argv[1:]
    failed, rows = False, []
    for case in cases:
        lines = trials_in(pathlib.Path(folder) / f"trials-{case}")
        failed |= case.startswith("ours") and (len(lines) != int(trials) or not all(is_settled(trial) for _, trial in lines))
        rows.append(row(case, lines))
    show(HEAD, rows)
    sys.exit(failed)


main()
