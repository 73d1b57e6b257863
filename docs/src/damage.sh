#!/bin/sh
# The expected answers to damaged boards, crates/damage/stdout, are those that damage_expected.py works out from
# document 01, and not the program's own. A board is damaged where its open count, column 8, is refused 1, 2 or 3.
cd "$(dirname "$0")/../.." || exit 2
python3 docs/src/damage_expected.py | cmp - crates/damage/stdout || exit 1
awk '{ met[$8]++ } END { print NR " boards; refused 1: " met[1] ", 2: " met[2] ", 3: " met[3] "; sound: " NR - met[1] - met[2] - met[3] }' crates/damage/stdout
