#!/usr/bin/env bash
# Proves and builds the static libraries, unless FLOO_LIB_DIR names the folder of all; then tests the Rust crate over them.
set -euo pipefail
cd "$(dirname "${BASH_SOURCE[0]}")/.."
if [ -z "${FLOO_LIB_DIR:-}" ]; then
    embed/libraries.sh
fi
exec cargo test --manifest-path embed/rust/Cargo.toml
