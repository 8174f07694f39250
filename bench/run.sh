#!/usr/bin/env bash
# Proves and builds the libraries and the program, and times them. Ghostscript is Debian's package ghostscript; `bench/run.sh scans` prints the table of the floor
# rule alone, `bench/run.sh ledgers` that of the ledger, `bench/run.sh displays` that of Forf, and these need none.
set -euo pipefail
cd "$(dirname "${BASH_SOURCE[0]}")/.."
embed/libraries.sh
(cd crates/floo && rt run > /dev/null)
exec cargo run --quiet --release --manifest-path bench/Cargo.toml -- "$@"
