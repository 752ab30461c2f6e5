#!/usr/bin/env python3
"""Fails where a document names what is not there: a link to a file, a file of a crate, a wrong program, or a requirement without its row.

Every R-id of docs/SPECIFICATION.md has a row in docs/TRACEABILITY.md, and no other has one. A file of a crate is named by its path without its ending, as
`wire/specs/message/Layout`; what stands in backticks before such a path in brackets has to stand in that file too."""
import pathlib
import re
import sys

ROOT = pathlib.Path(__file__).resolve().parent.parent
DOCUMENTS = [*ROOT.glob("*.md"), *ROOT.glob("docs/**/*.md")]
CRATES = "|".join(sorted((c.name for c in (ROOT / "crates").iterdir()), key=len, reverse=True))
PART = rf"\b(?:crates/)?((?:{CRATES})/(?:src|specs|proofs)(?:/[\w+]+)*)"
wrong = []


def file_of(path):
    """The file, or the folder, that a path without its ending means."""
    for ending in ("", ".antt", ".rt"):
        if (ROOT / "crates" / f"{path}{ending}").exists():
            return ROOT / "crates" / f"{path}{ending}"
    return None


def ids(document):
    """The requirements of a document: R-READ-1, and 2 and 3 of 'R-CLAIM-2, 3'."""
    found = set()
    for start, more in re.findall(r"\b(R-[A-Z0-9]+(?:-\d+)?)((?:, \d+)*)", document.read_text()):
        stem = start.rpartition("-")[0]
        found |= {start, *(f"{stem}-{n}" for n in re.findall(r"\d+", more))}
    return found


def look(document):
    text, name = document.read_text(), document.relative_to(ROOT)
    for link in re.findall(r"\]\(([^)#:\s]+)(?:#[^)]*)?\)", text):
        if not (document.parent / link).exists():
            wrong.append(f"{name}: no file {link}")
    for path in re.findall(PART, text):
        if not file_of(path):
            wrong.append(f"{name}: no file crates/{path}")
    for said, path in re.findall(rf"((?:`[^`]+`(?:, | and )?)+) \({PART}\)", text):
        file = file_of(path)
        for word in re.findall(r"`([^`\s]+)`", said) if file and file.is_file() else []:
            if not re.search(rf"(?<![\w-]){re.escape(word)}(?![\w-])", file.read_text()):
                wrong.append(f"{name}: {word} does not stand in crates/{path}")
    for programs in re.findall(rf"wrong programs? ((?:(?:{CRATES})/\w+(?:, )?)+)", text):
        for crate, label in re.findall(r"(\w+)/(\w+)", programs):
            if not any((ROOT / "crates" / crate / folder / f"{label}.edit").exists() for folder in ("wrong", "must-fail")):
                wrong.append(f"{name}: no wrong program {crate}/{label}")


for document in DOCUMENTS:
    look(document)
stated, traced = ids(ROOT / "docs" / "SPECIFICATION.md"), ids(ROOT / "docs" / "TRACEABILITY.md")
wrong += [f"docs/TRACEABILITY.md has no row of {i}" for i in sorted(stated - traced)]
wrong += [f"docs/SPECIFICATION.md has no {i}" for i in sorted(traced - stated)]
print("\n".join(wrong) if wrong else f"{len(DOCUMENTS)} documents name only what is there, and all {len(stated)} requirements have a row")
sys.exit(1 if wrong or not stated else 0)
