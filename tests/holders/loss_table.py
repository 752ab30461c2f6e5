"""The table of tests/soak.sh: SECONDS FOLDER KIND-LOST.., where FOLDER has a file trials-KIND-LOST of lines: 0, and watch.py's line. A row is of both names of
all trials. Only tells: with packets lost nothing is promised. Fails where a trial of ours without loss did not end with one holder."""

import pathlib
import sys

from table import NAMES, mean, most, show, trials_in


def head(seconds):
    words = "programs,lost,trials of a name,one holder: mean,slowest,nobody after {0} s,two after {0} s,two at some time,two held together: mean,longest"
    return words.format(seconds).split(",")


def row(case, names):
    kind, lost = case.split("-")
    ones = [name["one"] for name in names if name["one"] is not None]
    twos = [name["together"] for name in names if name["two"] is not None]
    nobody, more = sum(name["holders"] == 0 for name in names), sum(name["holders"] > 1 for name in names)
    return [kind, f"{int(lost) / 10:.0f} %", len(names), mean(ones), most(ones), nobody, more, len(twos), mean(twos), most(twos)]


def main():
    seconds, folder, *cases = sys.argv[1:]
    failed, rows = False, []
    for case in cases:
        names = [line[which] for _, line in trials_in(pathlib.Path(folder) / f"trials-{case}") for which in NAMES]
        failed |= case == "ours-0" and (not names or any(name["one"] is None for name in names))
        rows.append(row(case, names))
    show(head(seconds), rows)
    sys.exit(failed)


main()
