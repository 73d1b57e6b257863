#!/usr/bin/env python3
"""Check that the documents name what is there: docs_check.py

In README.md and docs/*.md, but for PORT.md and DESIGN-PASS.md, which speak of what was, every link leads to a file; every
path below crates/, docs/ and examples/ is there; every name of a source file between backticks ends the path of one; every
other name between backticks (a span that is one name, or names joined by :: or /) is somewhere in the sources, or is an
edit, an example or a crate; every edit of a table of edits is there; every row of a printout that GUIDE.md shows is a row
of a printout of examples/; and AUDIT.md's counts of lines are those of the files. What the sentences say it cannot check.
"""
import pathlib
import re
import sys

OF_THE_PAST = ("PORT.md", "DESIGN-PASS.md")
DOCUMENTS = [pathlib.Path("README.md"), *sorted(p for p in pathlib.Path("docs").glob("*.md") if p.name not in OF_THE_PAST)]
SOURCES = [
    path
    for folder in ("crates", "docs/src", "examples", ".ci")
    for path in pathlib.Path(folder).rglob("*")
    if "out" not in path.parts and path.is_file() and path.suffix in ("", ".rt", ".antt", ".rs", ".py", ".sh", ".csv")
]
# Where the prover refuses an edit: a goal that the kit names, and a place.
REFUSED_AT = re.compile(r"\| `[^`]+`, \S+:\d+ \|$", re.M)
# Names of other programs, and of the paper's figures.
FOREIGN = {"rt", "rustc", "python3", "csv", "wc", "axioms", "rattle_errno", "addr", "hdr", "newval", "pid", "retval"}


def edits():
    return {path.stem for part in ("must-fail", "more-edits") for path in pathlib.Path("crates").glob(f"*/{part}/*.edit")}


def line_count(paths):
    return sum(path.read_text(encoding="utf-8").count("\n") for path in paths)


def counted(cell):
    """The files that a row of AUDIT.md counts."""
    first, _, rest = cell.partition(":")
    place = pathlib.Path(first.strip(" `"))
    if place.is_file():
        return [place]
    named = [place / f"{name}.antt" for name in re.findall(r"`(\w+)`", rest)]
    return named or sorted(place.glob("*.antt"))


def count_faults():
    for line in pathlib.Path("docs/AUDIT.md").read_text(encoding="utf-8").split("\n"):
        row = re.fullmatch(r"\| (`crates/[^|]*) \| (\d+) \|", line)
        if row and line_count(counted(row.group(1))) != int(row.group(2)):
            yield f"docs/AUDIT.md: {row.group(1)}: {line_count(counted(row.group(1)))} lines, not {row.group(2)}"


def path_faults(document, text):
    for target in re.findall(r"\]\(([^)#]+)[^)]*\)", text):
        if not (document.parent / target).exists():
            yield f"{document}: no {target}"
    for path in re.findall(r"(?:crates|docs|examples)/[\w./*-]*[\w*]", text):
        # out/ holds what is built, and is not there in a fresh checkout
        if "NAME" not in path and "/out/" not in path and not list(pathlib.Path(".").glob(path)):
            yield f"{document}: no {path}"
    for name in re.findall(r"`([\w/-]+\.(?:rt|antt|rs|py|sh))`", text):
        if not any(f"/{path}".endswith(f"/{name}") for path in SOURCES):
            yield f"{document}: no source {name}"


def name_faults(document, text, words):
    spans = re.findall(r"`([^`\n]+)`", re.sub(r"```.*?```", "", text, flags=re.S))
    for name in {name for span in spans for name in re.findall(r"^[A-Za-z][\w-]*(?:(?:::|/)\w+)*$", span)}:
        for part in re.split(r"::|/", name):
            if part not in words:
                yield f"{document}: nothing is called {part} (in {name})"


def edit_faults(document, text, known):
    columns = []
    for line in text.split("\n"):
        cells = [cell.strip() for cell in line.strip("|").split("|")]
        if not line.startswith("|"):
            columns = []
        elif not columns:
            columns = [i for i, cell in enumerate(cells) if cell.startswith("Edit")] or [-1]
        elif columns != [-1]:
            for name in (name for i in columns if i < len(cells) for name in re.findall(r"`(?:\w+/)?(\w+)`", cells[i])):
                if name not in known and not pathlib.Path("crates", name).is_dir():
                    yield f"{document}: no edit {name}"


def row_faults():
    stored = {line for path in pathlib.Path("examples").glob("*.printout.csv") for line in path.read_text().split("\n")}
    for line in pathlib.Path("docs/GUIDE.md").read_text(encoding="utf-8").split("\n"):
        row = re.fullmatch(r"    ((?:no|\d+),.*)", line)
        if row and row.group(1) not in stored:
            yield f"docs/GUIDE.md: no printout of examples/ has the row {row.group(1)}"


def main():
    known = edits()
    crates = {path.name for path in pathlib.Path("crates").iterdir()}
    words = FOREIGN | known | crates | {path.stem for path in SOURCES}
    for path in SOURCES:
        words.update(re.findall(r"[A-Za-z][\w-]*", path.read_text(encoding="utf-8", errors="replace")))
    found = [*count_faults(), *row_faults()]
    for document in DOCUMENTS:
        text = document.read_text(encoding="utf-8")
        found += path_faults(document, text)
        found += name_faults(document, REFUSED_AT.sub("|", text), words)
        found += edit_faults(document, text, known)
    print("\n".join(found) if found else f"{len(DOCUMENTS)} documents name what is there")
    sys.exit(1 if found else 0)


main()
