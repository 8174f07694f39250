#!/usr/bin/env bash
# Turns the proofs of a crate, lays it out and says what its check leaves. usage: tools/port_crate.sh CRATE, at the top, once the crates below it are proved
set -euo pipefail
cd "$(dirname "${BASH_SOURCE[0]}")/.."
python3 tools/turn_proofs.py "$1"
cd "crates/$1"
rt fmt >/dev/null
rt check 2>&1 | grep -vE '^(checked|so far|rt: note|statements|library|rt: rt|logic /)|: proved$' | cut -c1-600
