#!/usr/bin/env bash
# Proves and builds the static libraries, and puts them into target/staticlib, where the other scripts look for them.
set -euo pipefail
cd "$(dirname "${BASH_SOURCE[0]}")/.."
mkdir -p target/staticlib
for library in floo_c floor_c ledger_c forf_c; do
    (cd "crates/$library" && rt lib)
    install -m 644 "crates/$library/out/lib$library.a" "target/staticlib/lib$library.a"
done
