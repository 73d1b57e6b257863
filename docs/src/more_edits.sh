#!/bin/sh
# more_edits.sh [CRATE ..]: tries the must-fail edits that the gate leaves out to save time, crates/NAME/more-edits; the
# prover must refuse each, and each must find its text.
set -eu
cd "$(dirname "$0")/../.."
scratch=$(mktemp -d)
trap 'rm -rf "$scratch"' EXIT
# Without what was proved here: the kit finds that by itself.
tar -c --exclude=out crates crates.txt | tar -x -C "$scratch"
cd "$scratch"
for crate in crates/*; do
    rm -rf "$crate/must-fail"
    if [ -d "$crate/more-edits" ]; then mv "$crate/more-edits" "$crate/must-fail"; fi
done
status=0
rt must-fail "$@" >said 2>&1 || status=$?
cat said
if grep -E 'BAD EDIT|NOT REFUSED' said >/dev/null; then status=1; fi
exit $status
