#!/usr/bin/env python3
"""Check that every must-fail edit can still be made: edits_check.py

The gate tries the edits of crates/NAME/must-fail and not those of crates/NAME/more-edits, so a change of the code could
leave one of these without the text that it replaces, and nobody would see it until docs/src/more_edits.sh is run. Each
edit of both is made here as `rt must-fail` makes it, on a copy in memory and without the prover: each `old:` text stands
in its file exactly once, after the replacements before it. An edit also says in a comment what it shows, changes src/ or
specs/ and no proof, and has a name of its own in its crate.
"""
import pathlib
import sys


def replaced(text, old, new):
    """The text with `new` for `old`, or None and what is wrong."""
    at = text.find(old) if old else -1
    if at < 0:
        return None, "is not there"
    rest = text[at + len(old) :]
    return (None, "is there more than once") if old in rest else (text[:at] + new + rest, None)


def fault(edit):
    crate = edit.parent.parent
    texts, name, old, pairs = {}, None, "", 0
    lines = edit.read_text(encoding="utf-8").split("\n")
    if not any(line.startswith("#") and line[1:].strip() for line in lines):
        return "does not say what it shows"
    for line in lines:
        if line.startswith("file: "):
            name = line.removeprefix("file: ")
        elif line.startswith("old: "):
            old = line.removeprefix("old: ")
        elif line.startswith("new:"):
            if not name or name.split("/")[0] not in ("src", "specs") or not (crate / name).is_file():
                return f"changes no file of src/ or specs/: {name}"
            text = texts.get(name) or (crate / name).read_text(encoding="utf-8")
            texts[name], wrong = replaced(text, old, line.removeprefix("new:").removeprefix(" "))
            if wrong:
                return f"its text {wrong} in {name}: {old}"
            old, pairs = "", pairs + 1
    return None if pairs else "replaces nothing"


def main():
    edits = [e for part in ("must-fail", "more-edits") for e in sorted(pathlib.Path("crates").glob(f"*/{part}/*.edit"))]
    found = [f"{edit}: {wrong}" for edit in edits if (wrong := fault(edit))]
    named = set()
    for edit in edits:
        if (edit.parent.parent, edit.name) in named:
            found.append(f"{edit}: another edit of its crate has that name")
        named.add((edit.parent.parent, edit.name))
    print("\n".join(found) if found else f"{len(edits)} must-fail edits find the text that they replace")
    sys.exit(1 if found else 0)


main()
