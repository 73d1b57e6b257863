#!/bin/sh
# check.sh PROGRAM: runs the plain stepper's own tests, compares PROGRAM with it,
# then holds every answer on small boards against Figure 2. Ends with 0 only if
# nothing differs.
set -eu

if [ $# -ne 1 ] || [ ! -x "$1" ]; then
    echo "usage: check.sh PROGRAM" >&2
    exit 2
fi
program=$(cd "$(dirname "$1")" && pwd)/$(basename "$1")

cd "$(dirname "$0")/../.."
docs/src/build.sh
target/outside/stepper-tests -q
target/outside/compare "$program" --examples examples
target/outside/exhaustive
