#!/usr/bin/env python3
"""Fails where a man page is not true to what it is about, or is warned of.

    tests/manual.py PREFIX         the pages, programs and header that were installed under a prefix

A program's page has the options of its --help and no others. The page of the library has the prototypes of the header, in its order, describes each function,
and has the refusals with their numbers. Each page that is referred to, of ours, is there. mandoc and groff, those that are here, warn of nothing."""
import pathlib
import re
import shutil
import subprocess
import sys

PREFIX = pathlib.Path(sys.argv[1])
PAGES = sorted(PREFIX.glob("share/man/man*/kurgashel*.[1-8]"))
wrong = []


def differences(page, what, told, is_so):
    """Says what a page has too little and too much."""
    wrong.extend(f"{page.name} lacks {what} {one}" for one in is_so if one not in told)
    wrong.extend(f"{page.name} has {what} {one}, which is not there" for one in told if one not in is_so)


def look_at_options(page):
    help_text = subprocess.run([PREFIX / "bin" / page.stem, "--help"], capture_output=True, text=True, check=True, timeout=10).stdout
    is_so = re.findall(r"^  (--[\w-]+)", help_text, re.M)
    if not is_so:
        wrong.append(f"{page.stem} --help lists no options")
    differences(page, "the option", [f"-{option}" for option in re.findall(r"^\.It Fl (-[\w-]+)", page.read_text(), re.M)], is_so)


def prototype(kind, name, arguments):
    return f"{kind} {name}({', '.join(arguments)})"


def prototypes_of_header():
    text = re.sub(r"/\*.*?\*/", "", (PREFIX / "include/kurgashel.h").read_text(), flags=re.S)
    found = re.findall(r"^(struct \w+|\w+) (kurgashel_\w+)\(([^)]*)\);", text, re.M)
    return [prototype(kind, name, [" ".join(one.split()) for one in arguments.split(",")]) for kind, name, arguments in found]


def prototypes_of_page(text):
    found = re.findall(r"^\.Ft (.*)\n\.Fo (.*)\n((?:\.Fa \".*\"\n)*)\.Fc$", text, re.M)
    return [prototype(kind, name, re.findall(r"^\.Fa \"(.*)\"$", arguments, re.M)) for kind, name, arguments in found]


def look_at_library(page):
    text, is_so = page.read_text(), prototypes_of_header()
    told = prototypes_of_page(text)
    differences(page, "the prototype", told, is_so)
    if sorted(told) == sorted(is_so) and told != is_so:
        wrong.append(f"{page.name} has the prototypes in another order than the header")
    names = [re.search(r"(\w+)\(", one)[1] for one in is_so]
    if not names:
        wrong.append("the header has no prototypes")
    differences(page, "a description of", re.findall(r"^\.It Fn (\w+)", text, re.M), names)
    refusals = re.search(r"enum \{\n    KURGASHEL_ACCEPTED = 0,\n(.*?)\};", (PREFIX / "include/kurgashel.h").read_text(), re.S)[1]
    is_so = [f"{number} {name}" for name, number in re.findall(r"^    (\w+) = (\d+)", refusals, re.M)]
    differences(page, "the refusal", [" ".join(one) for one in re.findall(r"^\.It (\d+) Dv (\w+)", text, re.M)], is_so)


def look_at_references(page):
    there = {(one.stem, one.suffix[1:]) for one in PAGES}
    for name, section in re.findall(r"^\.(?:It )?Xr (kurgashel\S*) (\d)", page.read_text(), re.M):
        if (name, section) not in there:
            wrong.append(f"{page.name} refers to {name}({section}), which is not there")


def look_for_warnings(page):
    """With each command that is here; how many they were."""
    commands = [["mandoc", "-T", "lint", "-W", "warning"], ["groff", "-mandoc", "-ww", "-T", "utf8", "-z"]]
    here = [command for command in commands if shutil.which(command[0])]
    for command in here:
        said = subprocess.run([*command, page], capture_output=True, text=True, check=False, timeout=60)
        wrong.extend(f"{command[0]}: {line}" for line in (said.stdout + said.stderr).splitlines())
    return [command[0] for command in here]


programs = {program.name for program in PREFIX.glob("bin/kurgashel-*")}
described = {page.stem for page in PAGES if page.suffix == ".1"}
wrong += [f"{program} has no man page" for program in sorted(programs - described)] + [f"there is no program {page}" for page in sorted(described - programs)]
warners = []
if not PAGES:
    wrong.append(f"there are no man pages under {PREFIX}")
for page in PAGES:
    if re.search("@[A-Z]+@", page.read_text()):
        wrong.append(f"{page.name} is not filled in")
    # the player has no options
    if page.suffix == ".1" and page.stem in programs and page.stem != "kurgashel-player":
        look_at_options(page)
    if page.suffix == ".3":
        look_at_library(page)
    look_at_references(page)
    warners = look_for_warnings(page)
with_what = f"{' and '.join(warners)} warn of nothing" if warners else "neither mandoc nor groff is here to warn"
print("\n".join(wrong) if wrong else f"{len(PAGES)} man pages: options, prototypes and refusals are those of the programs and the header; {with_what}")
sys.exit(1 if wrong else 0)
