#!/usr/bin/env python3
"""Write docs/EDITS.md: edits_table.py LOG..

Each must-fail edit, what it shows, and the fact at which the prover refuses it. Run at the repository's root, on what
`rt must-fail` with no name and docs/src/more_edits.sh wrote. Where an edit is in none of the logs, docs/EDITS.md stays as it
is, standard error names the edits, and the status is 1.
"""
import pathlib
import re
import sys

TABLE = pathlib.Path("docs/EDITS.md")
HEAD = """# Must-fail edits

Each is a wrong program or a wrong rule that keeps the shape of the right one; the prover refuses each at a fact.
The gate tries those of `must-fail`; `docs/src/more_edits.sh` tries those of `more-edits`.
Made by `docs/src/edits_table.py`.
"""

REFUSED = re.compile(r"^rt: must-fail (\w+)/(\w+)\.edit: refused, as it must be: (.*)$", re.M)
AT_A_PROOF = re.compile(r"(?:\./)?(\S+?):(\d+):\d+: error: `([^`]+)`")
AT_THE_CODE = re.compile(r"note: (\S+?):(\d+):\d+: it is not proved that .*?\(`([^`]+)`\)")


def shown(edit):
    lines = edit.read_text(encoding="utf-8").split("\n")
    return " ".join(line[1:].strip() for line in lines if line.startswith("#"))


def refused_at(said):
    found = AT_A_PROOF.match(said) or AT_THE_CODE.match(said)
    if not found:
        return None
    place, line, name = found.groups()
    return f"`{name}`, {place}:{line}"


def edits_of(crate):
    return [e for part in ("must-fail", "more-edits") for e in sorted(pathlib.Path("crates", crate, part).glob("*.edit"))]


def section(crate, answers):
    head = [f"## `{crate}`", "", "| Edit | In | What it shows | Refused at |", "|---|---|---|---|"]
    rows = [f"| `{edit.stem}` | `{edit.parent.name}` | {shown(edit)} | {answer} |" for edit, answer in answers.items()]
    return "\n".join(["", *head, *rows, ""])


def main():
    said = {}
    for log in sys.argv[1:]:
        for crate, name, text in REFUSED.findall(pathlib.Path(log).read_text(encoding="utf-8")):
            said[crate, name] = refused_at(text)
    crates = sorted(path.name for path in pathlib.Path("crates").iterdir())
    tried = {crate: {edit: said.get((crate, edit.stem)) for edit in edits_of(crate)} for crate in crates}
    untold = [edit for answers in tried.values() for edit, answer in answers.items() if answer is None]
    if untold:
        for edit in untold:
            print(f"{edit}: not run, or no refusal in its log", file=sys.stderr)
        sys.exit(1)
    sections = [section(crate, answers) for crate, answers in tried.items() if answers]
    TABLE.write_text(HEAD + "".join(sections), encoding="utf-8")


main()
