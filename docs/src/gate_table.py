#!/usr/bin/env python3
"""Make the table of SPEED.md's section on the gate: gate_table.py GATE_LOG

The log is what `.ci/run` wrote to standard output; keep it outside the checkout. For each crate: how many edits of must-fail
the gate tried, all refused, and how many more-edits it left out. Below the table stand the gate's own lines: what it took,
and its verdict. The kit tells no times of single crates.
"""
import pathlib
import re
import sys

REFUSED = re.compile(r"^rt: must-fail (\w+)/\w+\.edit: refused, as it must be", re.M)
GATE = re.compile(r"^(gate: .* took \d+ s|rt: ok.*|\d+ passed, \d+ failed)$", re.M)


def crates():
    lines = pathlib.Path("crates.txt").read_text(encoding="utf-8").split("\n")
    return [line.split(":")[0] for line in lines if re.match(r"\w+:", line)]


def main():
    gate = pathlib.Path(sys.argv[1]).read_text(encoding="utf-8")
    refused = REFUSED.findall(gate)
    print("| Crate | Edits in the gate | Other edits |")
    print("|---|---|---|")
    for crate in crates():
        others = list(pathlib.Path("crates", crate, "more-edits").glob("*.edit"))
        print(f"| `{crate}` | {refused.count(crate)} | {len(others)} |")
    print("\n" + "\n".join(GATE.findall(gate)))


main()
