#!/usr/bin/env python3
"""Time the program against the plain stepper, in one run on the same input: speed.py PROGRAM

For each board and number of records: processor seconds, the least of fifteen runs each, turn about; and the ratio.
The plain stepper does the same checks as the program (it does not look at the whole board's good form at each
record: the program proves that form is kept).
"""
import pathlib
import resource
import subprocess
import sys

OUTSIDE = pathlib.Path("target/outside")
BOARDS = [
    "16,many,16,16,4,,",
    "16,many,16,16,1,,",
    "1,many,16,16,4,,",
    "1,many,16,16,1,,",
    "16,one,16,16,1,,",
    "1,one,16,16,1,,",
]
RUNS = 15


def seconds(command, schedule):
    before = resource.getrusage(resource.RUSAGE_CHILDREN)
    with open(schedule, "rb") as source:
        subprocess.run(command, stdin=source, stdout=subprocess.DEVNULL, check=True)
    after = resource.getrusage(resource.RUSAGE_CHILDREN)
    return after.ru_utime + after.ru_stime - before.ru_utime - before.ru_stime


def main():
    ours = [str(pathlib.Path(sys.argv[1]).resolve())]
    plain = [str(OUTSIDE / "plain"), "--no-check-form"]
    schedule = OUTSIDE / "timed.csv"
    print("| Set-up | Records | Program, s | Plain stepper, s | Ratio |")
    print("|---|---|---|---|---|")
    for board in BOARDS:
        for count in (100_000, 1_000_000):
            made = [str(OUTSIDE / "compare"), "--print-long", str(count), "--set-up", board]
            with open(schedule, "wb") as out:
                subprocess.run(made, stdout=out, check=True)
            pairs = [(seconds(ours, schedule), seconds(plain, schedule)) for _ in range(RUNS)]
            program, stepper = min(p for p, _ in pairs), min(s for _, s in pairs)
            print(f"| `{board}` | {count:,} | {program:.3f} | {stepper:.3f} | {program / stepper:.2f} |", flush=True)
    schedule.unlink()


main()
