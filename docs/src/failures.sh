#!/bin/sh
# failures.sh PROGRAM: PROGRAM says on standard error where its input could not be read to its end or its printout could
# not be written to its end, and says nothing there otherwise. A folder cannot be read; /dev/full takes no byte.
set -eu

cd "$(dirname "$0")/../.."
failed=0
said() {
    if [ "$1" = "$2" ]; then
        echo "standard error: '$2'"
    else
        echo "standard error: '$2', not '$1'"
        failed=1
    fi
}

said '' "$("$1" <examples/listing.csv 2>&1 >/dev/null)"
said 'simulator: the input could not be read to its end' "$("$1" <examples 2>&1 >/dev/null)"
said 'simulator: the printout could not be written to its end' "$("$1" <examples/listing.csv 2>&1 >/dev/full)"
exit $failed
