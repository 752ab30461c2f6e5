"""The table of tests/joined.sh: TRIALS FOLDER KIND.., where FOLDER has a file trials-KIND of lines: when the floors were joined, in milliseconds after the
watch's moment, and watch.py's line. Fails where a name of ours has not one holder in the end, or a trial of ours is missing."""

import pathlib
import sys

from table import NAMES, mean, most, show, trials_in

HEAD = "name,trials,both hold it: mean,longest,one holder is left: mean,slowest,nobody after 5 s,two after 5 s".split(",")


def row(kind, which, told):
    """Times after the joining; both held the name until the last time that both were seen to answer, at once no longer where they never were."""
    twos = [max(0, each["two"] - joined) if each["two"] is not None else 0 for joined, each in told]
    ones = [max(0, each["one"] - joined) for joined, each in told if each["one"] is not None]
    nobody = sum(each["holders"] == 0 for _, each in told)
    more = sum(each["holders"] > 1 for _, each in told)
    return [f"{kind}, {which}", len(told), mean(twos), most(twos), mean(ones), most(ones), nobody, more]


def main():
    trials, folder, *kinds = sys.argv[1:]
    failed, rows = False, []
    for kind in kinds:
        lines = trials_in(pathlib.Path(folder) / f"trials-{kind}")
        failed |= kind == "ours" and len(lines) != int(trials)
        for which in NAMES:
            told = [(joined, line[which]) for joined, line in lines]
            failed |= kind == "ours" and any(each["one"] is None for _, each in told)
            rows.append(row(kind, which, told))
    show(HEAD, rows)
    sys.exit(failed)


main()
