#!/usr/bin/env bash
# Proves and builds the static libraries, unless FLOO_LIB_DIR names the folder of all; builds the examples in C over them and runs them, and tries the exported
# functions at lengths of every kind. examples/scan is linked with libfloor_c.a alone, examples/ledger with libledger_c.a alone, examples/display with libforf_c.a alone: that is all that each needs.
set -euo pipefail
cd "$(dirname "${BASH_SOURCE[0]}")/.."
if [ -z "${FLOO_LIB_DIR:-}" ]; then
    embed/libraries.sh
fi
floo=${FLOO_LIB_DIR:-target/staticlib}/libfloo_c.a
floor=${FLOO_LIB_DIR:-target/staticlib}/libfloor_c.a
ledger=${FLOO_LIB_DIR:-target/staticlib}/libledger_c.a
forf=${FLOO_LIB_DIR:-target/staticlib}/libforf_c.a
mkdir -p target/embed

build() {
    "${CC:-cc}" -std=c11 -O2 -Wall -Wextra -Wpedantic -Werror -Iinclude "$1.c" "${@:2}" -o "target/embed/$(basename "$1")"
}

build examples/embed "$floo"
build examples/scan "$floor"
build examples/ledger "$ledger"
build examples/display "$forf"
build embed/displays "$forf"
build embed/lengths "$floo" "$floor"
build embed/ledgers "$floo" "$floor" "$ledger"
target/embed/embed | tee target/embed/embed.out
cmp target/embed/embed.out embed/embed.expected
target/embed/scan examples/scan.floo | tee target/embed/scan.out
cmp target/embed/scan.out examples/scan.expected
target/embed/ledger examples/ledger.csv | tee target/embed/ledger.out
cmp target/embed/ledger.out examples/ledger.expected
target/embed/display examples/display.forf | tee target/embed/display.out
cmp target/embed/display.out examples/display.expected
target/embed/lengths
target/embed/ledgers
target/embed/displays
