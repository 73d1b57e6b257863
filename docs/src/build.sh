#!/bin/sh
# Compiles the plain stepper, the plain program, the comparison and the exhaustive
# check into target/outside/. Needs rustc alone. A program is compiled again only
# if one of the sources is newer than it.
set -eu

cd "$(dirname "$0")/../.."
src=docs/src
out=target/outside
mkdir -p "$out"

# The values of cfg(slip) that stepper/slip.rs knows; see slips.sh.
slips=$(sed -n 's/.*slip = "\([0-9]*\)".*/\1/p' "$src/stepper/slip.rs")
known_slips="cfg(slip, values($(printf '"%s",' $slips)))"

# stale FILE: true if FILE is missing or a source is newer.
stale() {
    [ ! -e "$1" ] || [ -n "$(find "$src" \( -name '*.rs' -o -name build.sh \) -newer "$1")" ]
}

# compile OUTPUT SOURCE [OPTION...]
compile() {
    target=$1
    source=$2
    shift 2
    if stale "$out/$target"; then
        rustc -O -C codegen-units=1 --edition 2021 -D warnings \
            --check-cfg 'cfg(test)' --check-cfg "$known_slips" "$@" -o "$out/$target" "$src/$source"
    fi
}

# build SUFFIX PROGRAMS [OPTION...]: a stepper compiled so, and the programs that use it.
build() {
    suffix=$1
    programs=$2
    shift 2
    compile "libstepper$suffix.rlib" stepper/lib.rs --crate-type rlib --crate-name stepper "$@"
    for program in $programs; do
        compile "$program$suffix" "$program/main.rs" --crate-name "$program" \
            --extern "stepper=$out/libstepper$suffix.rlib"
    done
}

build '' 'plain compare exhaustive'
compile stepper-tests stepper/lib.rs --test

# build.sh --slips: the broken variants too, each with its own stepper.
if [ "${1:-}" = --slips ]; then
    for slip in $slips; do
        build "-slip-$slip" 'plain exhaustive' --cfg "slip=\"$slip\""
    done
fi
