#!/usr/bin/env python3
"""Tries the wrong programs: each crates/NAME/wrong/*.edit changes one thing in a copy of its crate, and the prover has to refuse the copy because a fact fails.

    tests/wrong_programs.py                    every edit
    tests/wrong_programs.py NAME [LABEL ..]    those of a crate, or some of them
    tests/wrong_programs.py --gate             those that may have come to another end since all were tried, and one in eight of the others
    tests/wrong_programs.py --record [NAME ..] every edit, or those of these crates; where all of a crate are refused tests/wrong_tried.txt says so, of the commit
                                               that is checked out
    tests/wrong_programs.py --apply            only says whether each edit, of must-fail/ too, still applies: no proof, a second
    tests/wrong_programs.py --cover            only says which public functions have fewer than two edits in their own text

A crate is first proved as it stands, by `rt check`. An edit is tried in a copy of it, over a copy of what that check kept, so that only what the edit touches is
checked again. So a refusal here is a test, and never a verdict of proof: nothing is called proved by it. The edits of must-fail/ are tried by `rt ci`.

An edit may say in which file it has to be refused (`first: proofs/Calls.antt`): then a fact has to fail there.

Edits of different functions share a copy, of which only those functions are checked: a function is proved from the contracts of those that it calls, so whether its
own body meets its own contract is what it would be alone, as long as no function in the copy names another whose contract is changed there, nor rests on another.
Each needs a failed fact in the proof of its own function; one that has none there is tried again alone. An edit of anything else (a constant, a definition, a
theorem) is tried alone, in the whole crate.

What is known at each place of a function is called after the conditions and the calls above it (`if-b-gt90`), and so is each goal. Where an edit changes such a
name, the proof as it stands says nothing: it cites what is not there. The copy's proof then has the new name in the place of the old one, and is checked again.

How an edit ends depends on its crate, on what that rests on and on the kit, and on nothing else. tests/wrong_tried.txt has a commit, a kit and the crates of which all
edits were refused then; with --gate those of them are tried whose crate has changed since, edits too, or a crate below it but in its proofs alone, and of the others of
these crates one in eight, other ones at each commit. The edits of crates that it does not name are not known to be refused by this kit: the gate leaves them to
--record, and its last line says how many they are. Where it names none for this kit, crate after crate is tried in an order drawn by the commit, for so many minutes
(--minutes).

An edit fails the run where the copy is not refused, where the prover was not reached, where its text no longer stands exactly once in its file, or where
the refusal only says that the proof no longer has the code's shape (a name that is not there)."""
import argparse
import concurrent.futures
import difflib
import fcntl
import hashlib
import os
import pathlib
import re
import shutil
import subprocess
import sys
import tempfile
import threading
import time

ROOT = pathlib.Path(__file__).resolve().parent.parent
LOGS = ROOT / "target" / "wrong"
TRIED = ROOT / "tests" / "wrong_tried.txt"
PARTS = ("src", "specs", "proofs")
# so many edits share a copy
MOST_TOGETHER = 24
# with --gate, where it can't be told what has changed since all were tried
MINUTES = 20
# so often an edit's proof is given other names
MOST_NAMED = 3
# what is no failed fact: a name, a field or a goal that is not there, a text that does not parse, a tuple of another size
SHAPE = re.compile(
    r"that can be named from here|has no field|has no `|is not in scope|is no name|: error: expected |expected the end|this tuple has \d+ components|cannot continue"
    r"|operand is missing"
)
# what only follows from another failure
FOLLOWS = re.compile(r"was not admitted|it calls `|wait for a callee's proof")
# what the prover says of limits of its own, which it meets wherever it checks the same
LIMITS = re.compile(
    r"antt ran out of (stack|the (steps|memory) that the check of one declaration may (take|use))|(outgrew the memory limit|stopped at the step limit) \("
)


class Unfit(Exception):
    """An edit that cannot be tried, and why."""


class Function:
    """A function in a source file: its lines, and where the proof of it stands."""

    def __init__(self, crate, file, lines, first, last):
        head = re.match(r"\s*(pub )?(?:extern \"C\" )?fn (\w+)", lines[first])
        self.public, self.name = bool(head.group(1)), head.group(2)
        self.file, self.first, self.last = file, first, last
        self.body = next((n for n in range(first, last + 1) if lines[n].rstrip().endswith("{") and not re.match(r"\s*(requires|ensures)\b", lines[n])), first)
        self.words = set(re.findall(r"\w+", "\n".join(lines[first:last + 1]))) - {self.name}
        module = pathlib.Path(file).with_suffix("").parts[1:]
        self.module = () if module in (("lib",), ("main",)) else module
        above = re.match(r"\s*#\[cycle\((\w+)\)\]", lines[first - 1]) if first else None
        self.proof = pathlib.Path("proofs", *self.module, f"+{above.group(1)}" if above else self.name)
        self.path = "::".join((crate.name, *self.module, self.name))

    def concerns(self, path, line):
        """Whether an error at this place is about this function's own body."""
        return path == self.path or pathlib.Path(path).parent == self.proof or (path == self.file and self.first <= line - 1 <= self.last)


def functions(crate, file):
    lines, found, n = (crate / file).read_text().splitlines(), [], 0
    while n < len(lines):
        head = re.match(r"(\s*)(?:pub )?(?:extern \"C\" )?fn \w+", lines[n])
        if head:
            last = next(k for k in range(n, len(lines)) if lines[k].startswith(head.group(1) + "}"))
            found.append(Function(crate, file, lines, n, last))
            n = last
        n += 1
    return found


def uses_of_all():
    """What each crate of this repository is listed to rest on."""
    uses = {}
    for line in (ROOT / "crates.txt").read_text().splitlines():
        words, colon, below = line.split("#")[0].partition(":")
        if colon:
            uses[words.split()[0]] = below.split()
    return uses


def static_libraries():
    """The crates that are static libraries."""
    return re.findall(r"^(\w+) staticlib\b", (ROOT / "crates.txt").read_text(), re.M)


def edits(folder, name=None, labels=()):
    return [e for e in sorted(ROOT.glob(f"crates/{name or '*'}/{folder}/*.edit")) if not labels or e.stem in labels]


def crate_of(edit):
    return edit.parent.parent.name


def title(edit):
    return f"{crate_of(edit)}/{edit.stem}"


def pairs(edit):
    """What an edit replaces: file, old text and new text of each."""
    name = old = ""
    for line in edit.read_text().splitlines():
        if line.startswith("file: "):
            name = line.removeprefix("file: ")
        elif line.startswith("old: "):
            old = line.removeprefix("old: ")
        elif line.startswith("new:"):
            yield name, old, line.removeprefix("new:").removeprefix(" ")
            old = ""


def first_file(edit):
    """The file in which an edit says that it is refused first, if it says so."""
    said = re.search(r"^first: (\S+)$", edit.read_text(), re.M)
    return said and said.group(1)


def applied(edit, texts):
    """Changes `texts`, the new texts of the crate's files, as an edit says."""
    crate, count = edit.parent.parent, 0
    for name, old, new in pairs(edit):
        if name.split("/")[0] not in PARTS or not (crate / name).is_file():
            raise Unfit(f"no file {name} of the crate")
        text = texts.setdefault(name, (crate / name).read_text())
        if not old or text.count(old) != 1:
            raise Unfit(f"the text to replace stands {text.count(old) if old else 0} times in {name}")
        texts[name] = text.replace(old, new)
        count += 1
    if not count:
        raise Unfit("nothing is replaced")
    return texts


def touched(edit, bodies):
    """The functions whose text an edit changes, or whose body alone; None for a change of anything else. What it changes of proofs beside that is not counted."""
    crate, found = edit.parent.parent, []
    code = [pair for pair in pairs(edit) if not pair[0].startswith("proofs/")]
    for name, old, _ in code or pairs(edit):
        here = functions(crate, name) if name.startswith("src/") else []
        line = (crate / name).read_text().partition(old)[0].count("\n")
        found += [next((f for f in here if (f.body if bodies else f.first - 1) < line <= f.last), None)]
    return found


def one_of(edit, bodies):
    """The one function whose text an edit changes, or whose body alone, if it changes nothing else."""
    found = touched(edit, bodies)
    one = found[0] if found else None
    return one if one and all(f and (f.file, f.first) == (one.file, one.first) for f in found) else None


def linked(folder, to):
    """Copies a folder that `rt` keeps, by links where these can be made: a check replaces a file, and never writes into one."""

    def copy(one, other):
        try:
            if one.endswith(".oantt"):
                return os.link(one, other)
        except OSError:
            pass
        return shutil.copy2(one, other)

    shutil.copytree(folder, to, copy_function=copy)


def ran(words, folder):
    """The status of a command, and all that it says."""
    run = subprocess.run(words, cwd=folder, stdin=subprocess.DEVNULL, stdout=subprocess.PIPE, stderr=subprocess.STDOUT, text=True, errors="replace")
    return run.returncode, run.stdout


class Kit:
    """The prover, and copies of crates for it, where `rt ci` reads no source: in .git, where links to what `rt` kept can be made, or among the temporary files."""

    def __init__(self):
        if not shutil.which("rt"):
            sys.exit("the Rattle kit's command rt is missing")
        self.uses = uses_of_all()
        git = ROOT / ".git"
        self.room = git / "wrong-programs" if git.is_dir() else pathlib.Path(tempfile.mkdtemp(prefix="kurgashel-wrong-"))
        # one run at a time in a checkout
        self.turn = (self.room.parent / "wrong-programs.lock").open("w") if git.is_dir() else None
        if self.turn:
            fcntl.flock(self.turn, fcntl.LOCK_EX)
            shutil.rmtree(self.room, ignore_errors=True)
        self.lock, self.proved, self.mine = threading.Lock(), {}, threading.local()
        self.tops = 0

    def close(self):
        shutil.rmtree(self.room, ignore_errors=True)

    def below(self, name):
        found, todo = [], list(self.uses[name])
        while todo:
            one = todo.pop()
            if one in self.uses and one not in found:
                found.append(one)
                todo += self.uses[one]
        return found

    def prove(self, name):
        """Proves a crate as it stands, once; what it rests on is built then too."""
        with self.lock:
            if name not in self.proved:
                status, log = ran(["rt", "check"], ROOT / "crates" / name)
                self.proved[name] = status == 0
                if status != 0:
                    print(f"{name} is not proved as it stands:\n{log[-2000:]}", flush=True)
        return self.proved[name]

    def top(self, name):
        """A repository of this thread's own with what a crate rests on, as it was built; the crate's folder in it is empty."""
        mine = self.mine.__dict__
        if "top" not in mine:
            with self.lock:
                self.tops += 1
                mine["top"] = self.room / str(self.tops)
            (mine["top"] / "crates").mkdir(parents=True)
        top = mine["top"]
        for crate in self.below(name):
            if not (top / "crates" / crate / "out" / "rlib").is_dir():
                shutil.rmtree(top / "crates" / crate, ignore_errors=True)
                for part in (*PARTS, "out/rlib"):
                    if (ROOT / "crates" / crate / part).is_dir():
                        linked(ROOT / "crates" / crate / part, top / "crates" / crate / part)
        lines = [line for line in (ROOT / "crates.txt").read_text().splitlines() if ":" in line.split("#")[0]]
        (top / "crates.txt").write_text("".join(f"{line}\n" for line in lines if line.split(":")[0].split()[0] in (name, *self.below(name))))
        shutil.rmtree(top / "crates" / name, ignore_errors=True)
        (top / "crates" / name).mkdir()
        return top / "crates" / name

    def checked(self, name, label, texts, only=()):
        """What the prover answers of a copy of a crate in which some files have other texts, or of some of its functions alone: its status, and all that it says."""
        copy = self.top(name)
        for part in PARTS:
            if (ROOT / "crates" / name / part).is_dir():
                shutil.copytree(ROOT / "crates" / name / part, copy / part)
        for file, text in texts.items():
            (copy / file).write_text(text)
        linked(ROOT / "crates" / name / "out" / "incremental", copy / "out" / "incremental")
        words = ["rt", "check", "--jobs", "1", *[word for path in only for word in ("--only", path)]]
        status, log = ran(words, copy)
        # another crate may rest on this one as it stands
        shutil.rmtree(copy)
        log = log.replace(f"{copy}/", "")
        (LOGS / name).mkdir(parents=True, exist_ok=True)
        (LOGS / name / f"{label}.log").write_text(log)
        return status, log


def errors(log):
    """What the prover refused: an error in a proof, or a fact that is left open where there is none: the file and line or the function, and what is said of it."""
    for line in log.splitlines():
        place = re.match(r"(?:note: )?(?:\./)?(\S+?):(\d+):\d+: (error\b.*|it is not proved .*)", line)
        if place:
            yield place.group(1), int(place.group(2)), line
        open_goal = re.match(r"fn (\S+?): (no proof: expected .*)", line)
        if open_goal:
            yield open_goal.group(1), 0, line


def is_unread(path, error, changed):
    """Whether the prover could not read a text of src/, of specs/ or of a file that was changed, as it reads one that only says what is false."""
    at = re.search(r": error(?:\[[\w-]+\])?: (?:(`[^`]*`): )?(.*)", error)
    if not at or not (path.startswith(("src/", "specs/")) or path in changed):
        return False
    return not at.group(1) or bool(SHAPE.search(error))


def judged(status, log, changed=(), function=None, first=None):
    """Whether a copy with these files changed was refused for a fact, of this function or in this file if one is given, and in a word or two why not."""
    if status == 0:
        return False, "NOT REFUSED: the crate is still proved with this edit"
    if status == 3 and LIMITS.search(log):
        return True, "refused only by a limit of the prover, which gave no verdict"
    unread = next((error for path, _, error in errors(log) if is_unread(path, error, changed)), None)
    if status != 1 or unread or not re.search(r"^(logic=not-proved|only=)", log, re.M):
        said = unread or next((line for line in log.splitlines() if "error" in line), log.strip()[-200:])
        return False, f"the prover was not reached (exit {status}): {said[:200]}"
    shape = None
    for path, line, error in errors(log):
        if FOLLOWS.search(error) or function and not function.concerns(path, line) or first and path != first:
            continue
        if not SHAPE.search(error):
            return True, f"{path}:{line}" if line else f"{path}, of which no proof is found"
        shape = shape or error
    if shape:
        return False, f"refused by a proof's shape, not by a fact: {shape[:200]}"
    return False, f"nothing in {first} is refused" if first else "refused, and nothing says which fact fails"


def core(name):
    """What a name of a goal or a fact has of its own: `b-gt90` of `returns-then-b-gt90` and of `if-not-b-gt90`."""
    return re.sub(r"^(?:(?:returns|if|not|then|else|in|overflow_\w+|requires|ends|before)-)+", "", name)


def named_anew(log, crate, function, texts):
    """The proof of a function with the names that the edit gives to what is known there, as the prover says them; nothing where it says none."""
    folder = crate / function.proof
    files = {f"{function.proof}/{f.name}": texts.get(f"{function.proof}/{f.name}", f.read_text()) for f in sorted(folder.glob("*.antt"))}
    whole, turned = "\n".join(files.values()), {}
    for line in log.splitlines():
        place = re.match(r"(?:\./)?(\S+?):\d+:\d+: error", line)
        if place and pathlib.Path(place.group(1)).parent == function.proof:
            # a loop that no longer reads a parameter knows it as it was at entry
            unread = re.search(r"record `[^`]*\.Live-[\w-]+` has no field `(\w+)`", line)
            name = f"{function.proof}/Invariants.antt"
            if unread and name in files:
                files[name] = re.sub(rf"(?<![\w.-])(\w+)\.{unread.group(1)}(?![\w-])", rf"\1.fn.{unread.group(1)}", files[name])
            lost = re.search(r"has no field `([^`]+)` \(nearest: ([^)]*)\)", line)
            if lost:
                found = [it.strip().lstrip(".") for it in lost.group(2).split(",")]
                turned[lost.group(1)] = [it for it in found if it not in whole]
        lost = re.match(r"help: `Goals` has no (.*?); rattle asks for (.*?);", line)
        if lost:
            gone, asked = (re.findall(r"`([^`]+)`", part) for part in lost.groups())
            for name in gone:
                turned.setdefault(name, difflib.get_close_matches(name, [it for it in asked if it not in whole], 1))
    for old, new in turned.items():
        if new and core(old) and core(old) != core(new[0]):
            mark = rf"(?<![\w]){re.escape(core(old))}(?![\w])"
            files = {name: re.sub(mark, core(new[0]), text) for name, text in files.items()}
    return {name: text for name, text in files.items() if text != texts.get(name, (crate / name).read_text())}


def reached(crate):
    """The names of the functions that each function of a crate rests on, by the words of their texts."""
    every = [f for source in sorted(crate.glob("src/**/*.rt")) for f in functions(crate, str(source.relative_to(crate)))]
    words = {}
    for f in every:
        words.setdefault(f.name, set()).update(f.words)
    found = {name: {other for other in said if other in words} for name, said in words.items()}
    grows = True
    while grows:
        grows = False
        for rest in found.values():
            more = set().union(*(found[other] for other in rest)) - rest
            rest |= more
            grows = grows or bool(more)
    return found


def go_together(edit, function, other_edit, other, rests):
    apart = function.name not in rests[other.name] and other.name not in rests[function.name]
    return apart and function.proof != other.proof and function.name not in other.words and other.name not in function.words


def batches(every):
    """The edits in groups that share a copy: of one crate and of different functions, none of which rests on another."""
    groups, alone, rests = [], [], {}
    for edit in every:
        function = one_of(edit, False)
        if not function:
            alone.append([(edit, None)])
            continue
        crate = edit.parent.parent
        if crate not in rests:
            rests[crate] = reached(crate)
        fits = lambda g: crate_of(g[0][0]) == crate.name and len(g) < MOST_TOGETHER and all(go_together(edit, function, *other, rests[crate]) for other in g)
        group = next((g for g in groups if fits(g)), None)
        if group:
            group.append((edit, function))
        else:
            groups.append([(edit, function)])
    return sorted(groups + alone, key=lambda g: crate_of(g[0][0]))


def tried_alone(kit, edit):
    """Tries one edit in its whole crate; where its function's proof has other names then, with those."""
    try:
        texts = applied(edit, {})
    except Unfit as why:
        return False, str(why)
    crate, name, first, function = edit.parent.parent, crate_of(edit), first_file(edit), one_of(edit, False)
    for number in range(MOST_NAMED):
        status, log = kit.checked(name, edit.stem + f".{number}" * (number > 0), texts)
        result = judged(status, log, {file for file, _, _ in pairs(edit)}, first=first)
        more = named_anew(log, crate, function, texts) if function and not result[0] and "shape" in result[1] else {}
        if not more:
            return result
        texts.update(more)
    return result


def tried(kit, group):
    """The edits of a group, each with whether it is refused for a fact, and where or why not."""
    began, refused, left = time.monotonic(), [], []
    name, crate = crate_of(group[0][0]), group[0][0].parent.parent
    if not kit.prove(name):
        return [(edit, False, "its crate is not proved as it stands") for edit, _ in group], time.monotonic() - began
    named = {}
    left = [(edit, function) for edit, function in group if function]
    for number in range(MOST_NAMED):
        texts, together = {}, []
        for edit, function in left:
            try:
                texts = applied(edit, dict(texts))
                together.append((edit, function))
            except Unfit:
                pass  # with the others it does not apply
        if not together:
            break
        for edit, _ in together:
            texts.update(named.get(edit, {}))
        label = f"{together[0][0].stem}+{len(together) - 1}" + f".{number}" * (number > 0)
        status, log = kit.checked(name, label, texts, [function.path for _, function in together])
        changed = {file for edit, _ in together for file, _, _ in pairs(edit)}
        results = [(edit, function, *judged(status, log, changed, function)) for edit, function in together]
        refused += [(edit, ok, why) for edit, _, ok, why in results if ok]
        left, renamed = [], False
        for edit, function, ok, why in results:
            more = named_anew(log, crate, function, texts) if not ok and "shape" in why else {}
            if more:
                named[edit] = {**named.get(edit, {}), **more}
                left.append((edit, function))
        if not left:
            break
    done = {edit for edit, _, _ in refused}
    return refused + [(edit, *tried_alone(kit, edit)) for edit, _ in group if edit not in done], time.monotonic() - began


def apply_all():
    every, wrong = edits("must-fail") + edits("wrong"), 0
    for edit in every:
        try:
            applied(edit, {})
        except Unfit as why:
            wrong += 1
            print(f"{edit.relative_to(ROOT)}: {why}")
    print(f"{len(every) - wrong} of {len(every)} wrong programs apply")
    return wrong == 0 and len(every) > 0


def cover_all(name):
    public = short = 0
    for crate in sorted((ROOT / "crates").glob(name or "*")):
        if crate.name in static_libraries():
            continue  # each export calls the function of the same name, with the same clauses
        count = {}
        for edit in edits("must-fail", crate.name) + edits("wrong", crate.name):
            for key in {(f.file, f.name) for f in touched(edit, False) if f}:
                count[key] = count.get(key, 0) + 1
        for source in sorted(crate.glob("src/**/*.rt")):
            for f in functions(crate, str(source.relative_to(crate))):
                public += f.public
                if f.public and count.get((f.file, f.name), 0) < 2:
                    short += 1
                    print(f"{'::'.join((crate.name, *f.module, f.name))}: {count.get((f.file, f.name), 0)}")
    print(f"{public - short} of {public} public functions have two wrong programs or more in their own text")
    return short == 0


def said(*words):
    """What a command prints; None where it fails."""
    run = subprocess.run(words, cwd=ROOT, stdout=subprocess.PIPE, stderr=subprocess.DEVNULL, text=True)
    return run.stdout.strip() if run.returncode == 0 else None


def changed_crates(commit):
    """The crates that have changed since a commit, and those that rest on one that has changed in more than its proofs; None where it can't be told."""
    files = said("git", "diff", "--name-only", commit, "--", "crates", "crates.txt")
    others = said("git", "ls-files", "--others", "--exclude-standard", "crates")
    if files is None or others is None or "crates.txt" in files.split():
        return None
    parts = {tuple(file.split("/")[1:3]) for file in (files + "\n" + others).split()}
    changed, moved = {crate for crate, _ in parts}, {crate for crate, part in parts if part in ("src", "specs")}
    while more := {crate for crate, below in uses_of_all().items() if moved.intersection(below)} - moved:
        moved |= more
    return changed | moved


def drawn(words):
    """A number that is another at each commit."""
    head = said("git", "rev-parse", "HEAD") or ""
    return int.from_bytes(hashlib.sha256(f"{head} {words}".encode()).digest()[:4], "big")


def recorded():
    """The commit of tests/wrong_tried.txt and the crates that it names, where it is of this kit; else nothing."""
    lines = TRIED.read_text().splitlines() if TRIED.is_file() else []
    commit, _, kit = lines[0].partition(" ") if lines else ("", "", "")
    return (commit, lines[1:]) if lines and kit == said("rt", "version") else (None, [])


def chosen_for_gate(every):
    """The edits that the gate tries, in a line which they are, and whether it is known which were refused."""
    commit, crates = recorded()
    changed = changed_crates(commit) if crates else None
    if changed is None:
        return every, "it can't be told what has changed since all wrong programs were tried with this kit: crate after crate is tried, by the clock", False
    known = [edit for edit in every if crate_of(edit) in crates]
    some = [edit for edit in known if crate_of(edit) in changed or drawn(title(edit)) % 8 == 0]
    which = f"of crates changed since {commit[:12]} ({len(changed.intersection(crates))}), where all of theirs were refused, and one in eight of the other {len(crates)} crates tried then"
    left = f"; {len(every) - len(known)} of other crates are left to --record" if len(known) < len(every) else ""
    return some, f"{len(some)} of {len(every)} wrong programs: {which}{left}", True


def record(names):
    """Says that all edits of these crates, or of all, were refused at the commit that is checked out, if no source differs from it."""
    if said("git", "status", "--porcelain", "crates", "crates.txt") != "":
        sys.exit("not recorded: the sources are not those of a commit")
    commit, crates = recorded()
    head = said("git", "rev-parse", "HEAD")
    # what was refused at another commit counts on where nothing of it has changed since
    changed = changed_crates(commit) if crates else set()
    kept = [crate for crate in crates if changed is not None and crate not in changed]
    crates = sorted(set(kept) | set(names))
    TRIED.write_text("\n".join([f"{head} {said('rt', 'version')}", *crates]) + "\n")


def try_all(name, labels, jobs, gate=False, minutes=MINUTES):
    every = chosen = edits("wrong", name, labels)
    if labels and len(every) != len(set(labels)):
        sys.exit(f"{name} has no such wrong program: {' '.join(sorted(set(labels) - {e.stem for e in every}))}")
    until = None
    if gate:
        chosen, which, is_known = chosen_for_gate(every)
        until = None if is_known else time.monotonic() + 60 * minutes
        print(which, flush=True)
    groups = batches(chosen)
    if until:
        place = {crate: drawn(crate) for crate in {crate_of(edit) for edit in chosen}}
        groups.sort(key=lambda g: place[crate_of(g[0][0])])
    kit, refused, failed, by_limit = Kit(), 0, [], 0
    # the first group is tried however long it takes
    in_time = lambda group: tried(kit, group) if not until or group is groups[0] or time.monotonic() < until else ([], 0)
    try:
        with concurrent.futures.ThreadPoolExecutor(jobs) as pool:
            for results, seconds in pool.map(in_time, groups):
                for edit, ok, why in results:
                    print(f"{title(edit)}: {'refused, first at ' if ok and 'limit' not in why else ''}{why}", flush=True)
                    refused, failed = refused + ok, failed + ([] if ok else [title(edit)])
                    by_limit += ok and "only by a limit" in why
                if results:
                    print(f"  ({len(results)} in {seconds:.0f} s)", flush=True)
    finally:
        kit.close()
    only = f", {by_limit} of them only by a limit of the prover" if by_limit else ""
    print(f"{refused + len(failed)} of {len(every)} wrong programs tried, {refused} refused for a fact{only}" + (f", FAILED: {' '.join(failed)}" if failed else ""))
    return not failed and refused > 0


def main():
    parser = argparse.ArgumentParser(description="Tries the wrong programs: the prover has to refuse each because a fact fails.")
    parser.add_argument("--apply", action="store_true", help="only say whether each edit still applies")
    parser.add_argument("--cover", action="store_true", help="only say which public functions have fewer than two")
    parser.add_argument("--gate", action="store_true", help="try those that may end otherwise since all were tried, and one in eight of the others")
    parser.add_argument("--minutes", type=float, default=MINUTES, help=f"how long --gate goes on where it can't tell what has changed ({MINUTES})")
    parser.add_argument("--record", nargs="*", metavar="NAME", help="try all, or those of these crates, and record of which crates all are refused")
    parser.add_argument("--jobs", type=int, default=os.cpu_count(), help="so many at a time (the number of cores)")
    parser.add_argument("crate", nargs="?", help="the edits of this crate alone")
    parser.add_argument("label", nargs="*", help="these edits alone")
    words = parser.parse_args()
    if words.record is not None:
        names = words.record or sorted({crate_of(edit) for edit in edits("wrong")})
        refused = [name for name in names if try_all(name, [], words.jobs)]
        record(refused)
        sys.exit(0 if refused == names else 1)
    done = apply_all() if words.apply else cover_all(words.crate) if words.cover else try_all(words.crate, words.label, words.jobs, words.gate, words.minutes)
    sys.exit(0 if done else 1)


if __name__ == "__main__":
    main()
