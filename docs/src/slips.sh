#!/bin/sh
# Builds the stepper with one slip at a time (stepper/slip.rs) and shows that the
# comparison and the exhaustive check notice each of them. Ends with 0 only if
# every slip was noticed by both.
set -eu

cd "$(dirname "$0")/../.."
out=target/outside
docs/src/build.sh --slips

# tried STATUS LOG WHAT...: 1 is a difference or violation found; anything
# else, an error of another sort too, is not.
unnoticed=0
tried() {
    status=$1
    log=$2
    shift 2
    if [ "$status" -eq 1 ]; then
        echo "$*: noticed"
        grep -e '^DIFFERENCE' -e '^VIOLATION' "$log" | sed 's/^/    /'
    else
        echo "$*: NOT NOTICED (ended with $status)"
        unnoticed=$((unnoticed + 1))
    fi
}

for slip in $(sed -n 's/.*slip = "\([0-9]*\)".*/\1/p' docs/src/stepper/slip.rs); do
    log=$out/slip-$slip.log
    status=0
    "$out/compare" "$out/plain-slip-$slip" --no-limit >"$log" 2>&1 || status=$?
    tried "$status" "$log" "slip $slip, compared with the plain program"
    status=0
    "$out/exhaustive-slip-$slip" >"$log" 2>&1 || status=$?
    tried "$status" "$log" "slip $slip, all orders on small boards"
    grep 'all orders' "$log" | sed 's/^/    without a violation: /' || true
done

echo "$unnoticed slips unnoticed"
[ "$unnoticed" -eq 0 ]
