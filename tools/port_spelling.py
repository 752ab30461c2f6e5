#!/usr/bin/env python3
"""Respells this repository's own definitions, lemmas, constructors and record fields as today's Rattle spells them, once, after port.py.

    tools/port_spelling.py [--check]

Words are in snake case, types and facts in camel case. A dash stays where it joins a definition's name to what a lemma says of it; elsewhere it becomes an
underscore. Two names that would fall together are told apart: a lemma gets `_lem`, and a number after that. Functions of src/, exported names, strings,
inputs and outputs keep their names. With --check nothing is written. Kept so that the port can be made again; it is for the tree that port.py leaves, whose
proofs are Proof.antt files, and does nothing to any other."""
import collections
import pathlib
import re
import sys

ROOT = pathlib.Path(__file__).resolve().parent.parent
WORD = r"[^\s(){}\[\].;,@\"\\«»⌜⌝]+"
KEYWORDS = r"(?:(?:abbrev|unfoldable|pub|opaque|private)\s+)*"
NOT_NAMES = {"let", "in", "use", "mod", "where", "elim", "λ", "record", "data", "unfold", "unfolding", "module", "|", "="}


def sources():
    for crate in sorted((ROOT / "crates").iterdir()):
        for folder in ("specs", "proofs"):
            yield from sorted((crate / folder).rglob("*.antt"))


def is_answer(path):
    return path.name == "Proof.antt"


def declared():
    """Each name that specs/ and lemma files declare, with where: S a definition of specs/, L a lemma, T a type, F a field or constructor of specs/."""
    found = collections.defaultdict(set)
    for path in sources():
        kind = "S" if "specs" in path.relative_to(ROOT).parts else "L"
        if is_answer(path):
            continue
        for line in path.read_text().splitlines():
            m = re.match(rf"(\s*){KEYWORDS}((?:{WORD} )+): ", line + " ")
            if m:
                names = m.group(2).split()
                if not NOT_NAMES & set(names):
                    for name in names:
                        found[name].add("F" if m.group(1) and kind == "S" else kind)
            m = re.match(rf"\s*{KEYWORDS}(?:record|data) ({WORD})", line)
            if m:
                found[m.group(1)].add("T")
    return found


def snake(part):
    """A part of a name in snake case; one that begins with a capital is a type's or a fact's, and stays."""
    if "_" in part:
        return "_".join(snake(it) for it in part.split("_"))
    if not part or part[0].isupper() or not re.search(r"[A-Z]", part):
        return part
    part = re.sub(r"([a-z0-9'′₀-₉])([A-Z])", r"\1_\2", part)
    part = re.sub(r"([A-Z]+)([A-Z][a-z])", r"\1_\2", part)
    return part.lower()


def respelled(name, names, library):
    """The new spelling of a declared name."""
    if not re.search(r"[a-z]", name) or "◌" in name or name.startswith("-"):
        return name
    parts = name.split("-")
    small = [snake(part) for part in parts]
    if len(parts) == 1 or "" in parts:
        return "-".join(small)
    if name not in names or not names[name] <= {"F"}:
        # a lemma on a definition or a fact: its name, a dash, and what is said of it
        for n in range(len(parts) - 1, 0, -1):
            old, new = "-".join(parts[:n]), "_".join(small[:n])
            if any("S" in names.get(it, ()) or "T" in names.get(it, ()) for it in (old, new)) or new in library:
                return new + "-" + "_".join(small[n:])
    return "_".join(small)


def library_names():
    """The names of the kit's library that files import."""
    found = set()
    for path in list(sources()) + list((ROOT / "crates").rglob("*.rt")):
        for m in re.finditer(r"use ([\w.◌]+)\.\{([^}]*)\}", path.read_text()):
            module = m.group(1).split(".")
            if module[0] == "Rattle" and len(module) > 1 and (ROOT / "crates" / module[1]).is_dir():
                continue
            found |= {word.strip().split(" as ")[-1].strip() for word in m.group(2).split(",")}
    return found


def renamings():
    names, library = declared(), library_names()
    new = {name: respelled(name, names, library) for name in names}
    taken = collections.defaultdict(list)
    for name in names:
        taken[new[name]].append(name)
    rank = {"S": 0, "F": 1, "T": 1, "L": 2}
    renamed = {}
    for to, olds in sorted(taken.items()):
        is_defined = any(names[old] & {"S", "F"} for old in olds)
        olds.sort(key=lambda old: (min(rank[k] for k in names[old]), old != to, old))
        used = set()
        for n, old in enumerate(olds):
            it, count = to, 2
            if names[old] == {"L"} and (is_defined or to in used and old != to or to in library and old != to):
                it = to + "_lem"
                while it in used or it in new or it in library:
                    it, count = f"{to}_lem{count}", count + 1
            used.add(it)
            if it != old:
                renamed[old] = it
    return renamed, names


def clause_spans(text):
    """The parts of a source file that are clauses or ghost items."""
    for m in re.finditer(r"^\s*(?:pub )?ghost [^\n]*|(?:requires|ensures)\*?(?: \w+)? \{", text, re.M):
        if m.group(0).lstrip().startswith(("ghost", "pub ghost")):
            end = text.find(";", m.start()) if " use " in m.group(0) else m.end()
            yield m.start(), max(end, m.end())
            continue
        depth, at = 1, m.end()
        while depth and at < len(text):
            depth += {"{": 1, "}": -1}.get(text[at], 0)
            at += 1
        yield m.end(), at


def turn(text, renamed, answers, fields=frozenset()):
    def each(m):
        word, before = m.group(0), text_of[0][max(0, m.start() - 1):m.start()]
        if word not in renamed:
            return word
        # what a goal knows is called after the source: behind a dot of an answer only fields and names in camel case are ours
        if answers and before == "." and word not in fields and not re.search(r"[a-z][A-Z]", word):
            return word
        return renamed[word]

    text_of = [text]
    return re.sub(WORD, each, text)


def main():
    if not any(is_answer(path) for path in sources()):
        sys.exit("this tree is not as port.py leaves it: nothing is done")
    renamed, names = renamings()
    fields = {name for name in names if "F" in names[name]}
    changed = 0
    for path in sources():
        text = path.read_text()
        own = dict(renamed)
        if is_answer(path):
            # the answers of a proof have the names of its goals
            for m in re.finditer(rf"^{KEYWORDS}({WORD}) : ", text, re.M):
                own.pop(m.group(1), None)
        new = turn(text, own, is_answer(path), fields)
        if new != text:
            changed += 1
            if "--check" not in sys.argv:
                path.write_text(new)
    for path in sorted((ROOT / "crates").rglob("src/**/*.rt")):
        text, out, at = path.read_text(), [], 0
        for start, end in clause_spans(text):
            if start < at:
                continue
            out += [text[at:start], turn(text[start:end], renamed, False)]
            at = end
        new = "".join(out) + text[at:]
        # comments name definitions between backquotes
        new = re.sub(r"`([^`\n]+)`", lambda m: "`" + turn(m.group(1), {k: v for k, v in renamed.items() if re.search(r"[a-z][A-Z]", k)}, False) + "`", new)
        if new != text:
            changed += 1
            if "--check" not in sys.argv:
                path.write_text(new)
    # what files call an import, and the one lemma of specs/ that falls together with a definition
    for path in sources():
        text = path.read_text()
        new = re.sub(r"\b(samePackets|linkRevised|byPackets|isLatest|openedPlace|sendsFirst|sendsAgain)\b", lambda m: snake(m.group(1)), text)
        if path.match("capi_cache/specs/Numbered.antt"):
            new = re.sub(r"(?m)^looked_number (?=: \(name|name)|= looked_number (?=name)", lambda m: m.group(0).replace("looked_number", "looked_number_lem"), new)
        if new != text:
            changed += 1
            if "--check" not in sys.argv:
                path.write_text(new)
    table = ROOT / "docs" / "PORT-NAMES.tsv"
    if "--check" not in sys.argv and renamed:
        table.write_text("".join(f"{old}\t{new}\n" for old, new in sorted(renamed.items())))
    print(f"{len(renamed)} of {len(names)} names respelled, {changed} files changed")


if __name__ == "__main__":
    main()
