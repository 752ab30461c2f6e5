#!/usr/bin/env python3
"""Lists the places of a point of docs/DESIGN-PASS.md in a checkout.

    python3 tools/design_places.py ROOT POINT [--kinds]

Prints a line `file:line kind what` for each place of the point in ROOT/crates/*/src (for point 8 in ROOT/crates/*/proofs), in the order of the files. With
`--kinds` it prints how many places there are of each kind, and of all. It reads text and knows no types: a place is one to look at, not a verdict. The crates
`capi_*_c`, which hold nothing but what C links, have no place."""
import collections
import difflib
import pathlib
import re
import sys

WORD = r"[A-Za-z_][A-Za-z0-9_]*"
# A case that says that there is nothing, or why.
EMPTY = {"Malformed", "Nowhere", "Never", "Refused", "Unknown", "Unfit", "NoRoom", "Full", "Bad", "End", "Nothing", "Quiet", "Left", "Absent", "Each", "Idle"}
# A field, parameter, constant or result that stands for a refusal or a kind by its number.
NUMBERED = r"refusal|kind|turn|call|state|claim|buffer|answer|tag|entries|number|refused"
TYPES = {"A", "PTR", "TXT", "AAAA", "SRV", "NSEC", "NS", "SOA", "DS"}
# A comment that says which number stands for nothing.
NOTHING = re.compile(r"0 until|\b0 for none|\b0 where|\bor 0\b|16 for a byte|past the last where there is none|length where there is none|"
                     r"zeros where there is none|"
                     r"of n or more is none|behind every table|0 for the root|is known, or where that is 0|of no address|no bytes where there is none")
EQUALITY = r"same_\w+|is_same\w*|rdata_is|name_is|is_alike|takes_in|is_type_among"
ORDER = r"compare_\w+|lesser\w*|least|later|longer|earlier|sum|capped|in_piece|behind|ms_ago|after|either|both|but_not|" \
        r"all_seven|only_if|or_later|held_len|first_run|is_within"
READING = r"be16|be32|be64|eight|half_at|number_at|byte|wide|number_bytes|put_u16|put16|put64|put_number|address_bytes|put_numbers|head|address_of|address"
NUMBERS = r"\w+_numbers?|numbers_of|state_number|kind_of|claim_tag|claim_due|when_flag|when_time|flag_byte|owed_of|owed_number|browser_of|event_of|told_by|" \
          r"written_of|refusal_of|length_of|unicast_length|answered|made_with|pair_of|claim_of|index_of|own_type|is_later|counts_of|" \
          r"with_numbers|with_table|hex_value|digit"
SHOWN = r"claim|state|timed|untimed|when|verdict|spelled|spell|glyph"


# Of those names some that say something else in these crates.
OTHERS = {("byte", "console_calls"), ("claim", "console_trace"), ("timed", "console_trace"), ("behind", "playing"), ("address", "console_trace"),
          ("digit", "console_text"), ("hex_value", "console_text")}


KEYWORDS = {"if", "else", "match", "while", "loop", "for", "return", "let", "mut", "as", "true", "false", "continue", "break"}


class Function:
    def __init__(self, path, line, name, head, body, crate):
        self.path, self.line, self.name, self.head, self.body, self.crate = path, line, name, head, body, crate

    def parameters(self):
        text = self.head
        start = text.index("(")
        depth, pieces, piece = 0, [], ""
        for c in text[start:]:
            if c in "([{<":
                depth += 1
                if depth == 1:
                    continue
            if c in ")]}>" and not piece.endswith("-"):
                depth -= 1
                if depth == 0:
                    break
            if c == "," and depth == 1:
                pieces.append(piece)
                piece = ""
            else:
                piece += c
        pieces.append(piece)
        return [re.sub(r"\s+", " ", p).strip() for p in pieces if p.strip()]

    def clauses(self):
        text = re.sub(r"\s+", " ", self.head)
        return [(kind, re.sub(r"\s+", " ", what).strip()) for kind, what in re.findall(r"\b(requires|ensures)\b[^{]*(\{.*?\})(?= requires| ensures|$)", text)]


def sources(root):
    for path in sorted((root / "crates").glob("*/src/**/*.rt")):
        crate = path.relative_to(root).parts[1]
        if not crate.endswith("_c"):
            yield crate, path, path.relative_to(root).as_posix(), path.read_text().split("\n")


def code(line):
    return line.split("//")[0].rstrip()


def functions(root):
    for crate, _, name, lines in sources(root):
        i = 0
        while i < len(lines):
            if re.match(r"\s*(pub(\([a-z]+\))? )?(const )?(extern \"C\" )?fn ", lines[i]):
                start = i
                indent = len(lines[i]) - len(lines[i].lstrip())
                # The body is between a line `{`, or one that ends so, and the first line `}` of the same depth.
                open_at = start
                while not (lines[open_at].strip() == "{" or lines[open_at].endswith(" {")) or re.match(r"\s*(requires|ensures)", lines[open_at]):
                    open_at += 1
                    if open_at == len(lines):
                        return
                end = open_at
                while lines[end] != " " * indent + "}":
                    end += 1
                head = "\n".join(code(x) for x in lines[start:open_at] if x.strip()) or code(lines[start])
                if open_at == start:
                    head = code(lines[start])
                body = "\n".join(code(x) for x in lines[open_at + 1 : end])
                word = re.search(r"fn (" + WORD + ")", lines[start]).group(1)
                yield Function(name, start + 1, word, head, body, crate)
                i = end
            i += 1


def types(root):
    """The structs and enums: (file, line, kind, name, fields or cases by line)."""
    for _, _, name, lines in sources(root):
        for i, line in enumerate(lines):
            found = re.match(r"\s*(?:pub(?:\([a-z]+\))? )?(struct|enum) (" + WORD + r")(<[^>]*>)? \{", line)
            if found:
                end = i + 1
                inside = []
                depth = 1
                while depth:
                    text = code(lines[end])
                    if depth == 1 and text.strip() and text.strip() not in "},":
                        inside.append((end + 1, text.strip().rstrip(",")))
                    depth += text.count("{") - text.count("}")
                    end += 1
                yield name, i + 1, found.group(1), found.group(2), inside, lines[max(0, i - 2) : i]


def point_1(root):
    for name, line, kind, word, inside, before in types(root):
        if kind == "enum":
            cases = [re.match(WORD, text).group(0) for _, text in inside]
            payload = any("(" in text or "{" in text for _, text in inside)
            if payload and set(cases) & EMPTY:
                yield name, line, "enum", f"{word} {{{', '.join(cases)}}}"
            if not payload and "Unknown" in cases:
                yield name, line, "enum", f"{word} {{.., Unknown}}"
            for at, text in inside:
                if re.search(r"Refused\(u8\)", text):
                    yield name, at, "number", f"{word}::{text}"
        else:
            c = any("repr(C)" in x for x in before)
            if all(text.endswith(": bool") for _, text in inside):
                continue
            for at, text in inside:
                field = re.match(r"(?:pub )?(" + WORD + r"): (.*)$", text)
                if not field:
                    continue
                if field.group(2) == "bool":
                    yield name, at, "c flag" if c else "flag", f"{word}.{field.group(1)}"
                if field.group(2) in ("u8", "u64") and re.fullmatch(NUMBERED, field.group(1)):
                    yield name, at, "c number" if c else "number", f"{word}.{field.group(1)}: {field.group(2)}"
    for crate, _, name, lines in sources(root):
        for i, line in enumerate(lines):
            found = re.match(r"\s*(?:pub )?const (" + WORD + r"): (u8|u16) = (\d+);", line)
            if found and (found.group(2) == "u8" or found.group(1) in TYPES):
                yield name, i + 1, "number", f"const {found.group(1)}: {found.group(2)} = {found.group(3)}"
            if line.strip().startswith("//") and NOTHING.search(line) and "refusal" not in line and not crate.startswith("capi_"):
                yield name, i + 1, "nothing", line.strip()[3:80]
    for f in functions(root):
        flat = re.sub(r"\s+", " ", f.head)
        if re.search(r"\) -> u8( |$)", flat) and re.search(r"refusal|number|tag|kind|at_end|ended", f.name):
            yield f.path, f.line, "c number" if f.name.startswith("kurgashel_") else "number", f"fn {f.name} -> u8"
        for p in f.parameters():
            found = re.fullmatch(r"(" + NUMBERED + r"): (u8|u64)", p)
            if found:
                yield f.path, f.line, "c number" if f.name.startswith("kurgashel_") else "number", f"fn {f.name}({p})"


def shape(text):
    out = []
    for token in re.findall(r"\"(?:\\.|[^\"])*\"|b?'(?:\\.|[^'])'|0x[0-9A-Fa-f]+|\d+|" + WORD + r"|\S", text):
        if re.fullmatch(WORD, token) and token not in KEYWORDS:
            out.append("i")
        elif token[0].isdigit() or token[0] in "\"'" or token.startswith(("b'", "b\"")):
            out.append("n")
        else:
            out.append(token)
    text = " ".join(out)
    text = re.sub(r"i( : : i)+", "i", text)
    return re.sub(r", (?=[)}\]])", "", text).split()


def point_2(root):
    """Two functions are twins where their bodies have one shape, of 18 tokens or more; or, of 30 tokens or more, where nine parts in ten are alike in one
    file, or seven in ten by one name, or, of 60 or more, nineteen in twenty anywhere. Two structs are where their fields differ in array sizes alone."""
    all_of = [(f, shape(f.body)) for f in functions(root)]
    all_of = [(f, s) for f, s in all_of if 18 <= len(s)]
    group = list(range(len(all_of)))

    def top(i):
        while group[i] != i:
            i = group[i]
        return i

    shapes = collections.defaultdict(list)
    for i, (f, s) in enumerate(all_of):
        shapes[" ".join(s)].append(i)
    for members in shapes.values():
        for j in members[1:]:
            group[top(j)] = top(members[0])
    for i, (f, s) in enumerate(all_of):
        for j in range(i + 1, len(all_of)):
            g, t = all_of[j]
            if top(i) == top(j) or min(len(s), len(t)) < 30 or min(len(s), len(t)) * 1.3 < max(len(s), len(t)):
                continue
            least = 0.7 if f.name == g.name else 0.9 if f.path == g.path else 0.95 if 60 <= min(len(s), len(t)) else 2
            if least < 1:
                m = difflib.SequenceMatcher(None, s, t, autojunk=False)
                if least <= m.real_quick_ratio() and least <= m.quick_ratio() and least <= m.ratio():
                    group[top(j)] = top(i)
    families = collections.defaultdict(list)
    for i in range(len(all_of)):
        families[top(i)].append(all_of[i][0])
    number = 0
    for members in families.values():
        if 1 < len(members):
            number += 1
            for f in members:
                yield f.path, f.line, f"family {number}", f"fn {f.name}"
    # Types that differ in a size alone.
    seen = collections.defaultdict(list)
    for name, line, kind, word, inside, _ in types(root):
        if kind == "struct" and 1 < len(inside):
            key = tuple(sorted(re.sub(r"\[(\w+); \w+\]", r"[\1]", text) for _, text in inside))
            seen[key].append((name, line, word))
    for members in seen.values():
        if 1 < len(members):
            number += 1
            for name, line, word in members:
                yield name, line, f"family {number}", f"struct {word}"


def point_3(root):
    for _, _, name, lines in sources(root):
        for i, line in enumerate(lines):
            text = code(line).strip()
            found = re.match(r"(?:'\w+: )?(while (.*)|loop) \{$", text)
            if not found:
                continue
            test = found.group(2)
            if not test:
                yield name, i + 1, "loop", "loop"
            elif re.match(r"0 < \w+$", test):
                yield name, i + 1, "count down", test
            else:
                body = []
                for after in lines[i + 1 :]:
                    if re.match(r" {%d}\}" % (len(line) - len(line.lstrip())), after):
                        break
                    body.append(code(after).strip())
                index = re.match(r"(\w+) <", test)
                last = body[-1] if body else ""
                yield name, i + 1, "count up" if index and f"{index.group(1)} += 1;" in body and last == f"{index.group(1)} += 1;" else "other", test


def literals(body):
    """The struct literals: (line in the body, type, fields given)."""
    lines = body.split("\n")
    for i, line in enumerate(lines):
        found = re.search(r"\b([A-Z]\w*(?:::\w+)?) \{$", line)
        if not found or re.match(r"\s*(struct|enum|impl|match|if)\b", line):
            continue
        depth, fields = 1, []
        for after in lines[i + 1 :]:
            if depth == 1 and after.strip() and after.strip()[0] != "}":
                fields.append(after.strip().rstrip(","))
            depth += after.count("{") - after.count("}")
            if depth == 0:
                break
        yield i, found.group(1), fields


def point_4(root):
    for f in functions(root):
        for kind, names in (("equality", EQUALITY), ("order", ORDER), ("bytes", READING), ("conversion", NUMBERS), ("printing", SHOWN)):
            if re.fullmatch(names, f.name) and not re.match(r"is_number|are_|first_|takes_|is_within_", f.name) and (f.name, f.crate) not in OTHERS:
                yield f.path, f.line, kind, f"fn {f.name}"
                break
        taken = {}
        for k, line in enumerate(f.body.split("\n")):
            found = re.match(r"\s*let (\w+) = (\w+)\.\w+;$", line)
            if found:
                taken[found.group(1)] = found.group(2)
        if 3 <= len(taken):
            yield f.path, f.line, "fields taken out", f"fn {f.name}: {len(taken)} fields"
        for k, word, fields in literals(f.body):
            given = collections.Counter()
            for field in fields:
                one = re.fullmatch(r"(\w+)", field)
                two = re.fullmatch(r"(\w+): (\w+)\.\1", field)
                if one and one.group(1) in taken:
                    given[taken[one.group(1)]] += 1
                if two:
                    given[two.group(2)] += 1
            if given and 3 <= max(given.values()) and max(given.values()) < len(fields):
                yield f.path, f.line, "rebuilt", f"fn {f.name}: {word}, {max(given.values())} of {len(fields)} fields as they were"


def point_5(root):
    """A place is a `requires` that stands word for word in three functions or more; or a run of three parameters or more, the same by name and type, in four
    functions or more (of two parameters in twelve), but for a run of which half the functions have a run that was found before with two of its parameters."""
    all_of = list(functions(root))
    clause = collections.defaultdict(list)
    for f in all_of:
        for what in {what for kind, what in f.clauses() if kind == "requires"}:
            clause[what].append(f)
    for what, members in clause.items():
        if 3 <= len(members):
            yield members[0].path, members[0].line, "clause", f"{what} in {len(members)}: " + ", ".join(f"{f.crate}::{f.name}" for f in members)
    runs = collections.defaultdict(list)
    for f in all_of:
        p = [re.sub(r"^mut ", "", x) for x in f.parameters()]
        for n in range(2, 7):
            for i in range(len(p) - n + 1):
                runs[tuple(p[i : i + n])].append(f)
    runs = {key: members for key, members in runs.items() if (4 <= len(members) and 3 <= len(key)) or 12 <= len(members)}
    taken = []
    for key, members in sorted(runs.items(), key=lambda x: (-(len(x[0]) - 1) * len(x[1]), x[0])):
        lines = {(f.path, f.line) for f in members}
        if any(2 <= len(set(key) & set(other)) and 0.5 * len(lines) <= len(lines & had) for other, had in taken):
            continue
        taken.append((key, lines))
        crates = sorted({f.crate for f in members})
        yield members[0].path, members[0].line, "parameters", f"({', '.join(x.split(':')[0] for x in key)}) in {len(members)} of {', '.join(crates)}"


def point_6(root):
    for name, line, kind, word, inside, before in types(root):
        c = "c " if any("repr(C)" in x for x in before) else ""
        if kind == "struct":
            arrays = [text for _, text in inside if re.search(r": \[", text)]
            lengths = [text for _, text in inside if re.match(r"(pub )?(len|n|count|length|\w+_length)\b", text)]
            if arrays and lengths:
                yield name, line, c + "buffer and length", f"struct {word}"
            elif 1 < len(arrays):
                yield name, line, c + "several arrays", f"struct {word}"
    for f in functions(root):
        p = f.parameters()
        names = {x.split(":")[0]: x.split(":")[1].strip() for x in p if ":" in x}
        if "text" in names and "used" in names and names["text"].startswith("&mut"):
            yield f.path, f.line, "text and used", f"fn {f.name}"
        if "places" in names and "count" in names:
            yield f.path, f.line, "places and count", f"fn {f.name}"
        if re.search(r"^\s*let (\w+) = (\w+)\.bytes;", f.body, re.M) and re.search(r"\.len;|\.len\b", f.body):
            yield f.path, f.line, "bytes and len", f"fn {f.name}"
        for found in re.finditer(r"let mut (\w+) = \[0u8; \w+\];", f.body):
            if re.search(r"let (\w+) = [\w:]*(fill|bytes|bytes_told|read_all|write_all)\([^;]*&mut " + found.group(1) + r"\b", f.body):
                yield f.path, f.line, "filled array", f"fn {f.name}: {found.group(1)}"
        for x, y in zip(p, p[1:]):
            if re.search(r": &?(mut )?\[", x) and re.fullmatch(r"(n|len|filled|held|m|known): usize", y):
                yield f.path, f.line, "slice and number", f"fn {f.name}: {x.split(':')[0]}, {y.split(':')[0]}"


def point_7(root):
    for f in functions(root):
        words = re.findall(r"same_bytes\(\s*(?:word|\w+::\w+::field\([^()]*\)),\s*b\"", f.body)
        if 1 < len(words):
            yield f.path, f.line, "call by word", f"fn {f.name}: {len(words)} words"
        arms = re.findall(r"^\s*[A-Z]\w*::\w+(?:\([^)]*\)|\s*\{[^}]*\})? => (?:\{\s*(?:let \w+ = )?)?([a-z][\w:]*)\(", f.body, re.M)
        if 3 <= len(set(arms)):
            yield f.path, f.line, "function by case", f"fn {f.name}: {', '.join(dict.fromkeys(arms))}"
        if re.search(r"if \w+\.kind [!=]= ", f.body) or re.search(r"^\s*\d+ => ", f.body, re.M):
            yield f.path, f.line, "number to case", f"fn {f.name}"
        if re.search(r"flags\[i\] = ", f.body) and "while" in f.body:
            yield f.path, f.line, "one test, each record", f"fn {f.name}"
        if re.search(r"while 0 < left", f.body) and re.search(r"here = \w+\.next;|at = \w+\.next;|here = next;", f.body):
            yield f.path, f.line, "one thing, each item", f"fn {f.name}"


def point_8(root):
    """The proof of a function: what is chosen for a loop, and the answers to goals. An answer is short where it cites no lemma; and one that stands in three
    functions or more is listed once more as repeated, at its first place."""
    texts = collections.defaultdict(list)
    for path in sorted((root / "crates").glob("*/proofs/**/*.antt")):
        if path.name not in ("Answers.antt", "Invariants.antt"):
            continue
        name = path.relative_to(root).as_posix()
        text = path.read_text()
        starts = [(m.start(), m.group(1), m.group(2)) for m in re.finditer(r"^(?:abbrev )?pub (\S+) : goal\.(\S+)$", text, re.M)] + [(len(text), "", "")]
        for (at, word, goal), (end, _, _) in zip(starts, starts[1:]):
            line = text.count("\n", 0, at) + 1
            if path.name == "Invariants.antt":
                yield name, line, "decreases" if goal.startswith("decreases") else "invariant", goal
                continue
            body = re.sub(r"\s+", " ", text[at:end].split("\n", 1)[1]).strip()
            body = re.sub(r"(^| )" + re.escape(word) + r" \w+ = ", r"\1", body, count=1)
            texts[body].append((name, line, goal))
            yield name, line, "short answer" if re.fullmatch(r"[\s(),]*((tt|refl|cc|omega|arith|c\.requires)[\s(),]*)+", body) else "answer", goal
    for body, members in texts.items():
        if 3 <= len({x[0] for x in members}):
            yield members[0][0], members[0][1], "repeated", f"{len(members)} answers: {body[:100]}"


def main():
    if len(sys.argv) < 3:
        sys.exit(__doc__)
    root, point = pathlib.Path(sys.argv[1]), sys.argv[2]
    found = list(globals()["point_" + point](root))
    if "--kinds" in sys.argv:
        for kind, n in collections.Counter(x[2] for x in found).items():
            print(f"{n:5} {kind}")
        print(f"{len(found):5} in all")
        return
    for name, line, kind, what in found:
        print(f"{name}:{line} {kind}: {what}")


if __name__ == "__main__":
    main()
