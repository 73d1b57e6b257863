#!/usr/bin/env python3
"""Read schedules and printouts as a spreadsheet does: csv_check.py PROGRAM

Each schedule of examples/ is read by Python's csv module, written again by it with CR LF and no quotes, and run by the
program; the printout must have the heading's nine columns in every row and be the stored one. What a spreadsheet saved,
examples/from-a-sheet, must be made the example of the same name by from-sheet.
"""
import csv
import io
import pathlib
import subprocess
import sys

HEADING = ["no", "process", "act", "answer", "open", "v0", "v1", "v2", "v3"]


def written_again(schedule):
    rows = csv.reader(io.StringIO(schedule.decode("ascii"), newline=""), quoting=csv.QUOTE_NONE)
    text = io.StringIO(newline="")
    for row in rows:
        text.write(",".join(row) + "\r\n")
    return text.getvalue().encode("ascii")


def faults(program, path):
    schedule = written_again(path.read_bytes())
    printed = subprocess.run([program], input=schedule, stdout=subprocess.PIPE, check=True).stdout
    stored = path.with_name(path.name.replace(".csv", ".printout.csv")).read_bytes()
    rows = list(csv.reader(io.StringIO(printed.decode("ascii"), newline="")))
    if printed != stored:
        yield "the printout is not the stored one"
    if rows[0] != HEADING:
        yield f"the heading is {rows[0]}"
    if any(len(row) != len(HEADING) for row in rows):
        yield "a row has other than nine columns"


def sheet_faults(path):
    made = subprocess.run(["./from-sheet"], input=path.read_bytes(), stdout=subprocess.PIPE, check=True).stdout
    if made != (path.parent.parent / path.name).read_bytes():
        yield "from-sheet does not make the example of it"


def main():
    program = str(pathlib.Path(sys.argv[1]).resolve())
    schedules = [p for p in sorted(pathlib.Path("examples").glob("*.csv")) if not p.name.endswith(".printout.csv")]
    found = [f"{path}: {fault}" for path in schedules for fault in faults(program, path)]
    sheets = sorted(pathlib.Path("examples/from-a-sheet").glob("*.csv"))
    found += [f"{path}: {fault}" for path in sheets for fault in sheet_faults(path)]
    well = f"{len(schedules)} schedules read, run and read back by the csv module, {len(sheets)} made of a spreadsheet's"
    print("\n".join(found) if found else well)
    sys.exit(1 if found else 0)


main()
