#!/usr/bin/env bash
# embed/install.sh PREFIX: the headers, the static libraries with their pkg-config files, and, if cargo is there, the command floo with its manual page. Proves and
# builds the libraries, unless FLOO_LIB_DIR names the folder of built ones. PREFIX may be moved afterwards: the pkg-config files go by their own place.
set -euo pipefail
if [ $# -ne 1 ] || [ -z "$1" ]; then
    echo "usage: embed/install.sh PREFIX" >&2
    exit 2
fi
mkdir -p "$1"
prefix=$(cd "$1" && pwd)
if [ -n "${FLOO_LIB_DIR:-}" ]; then
    FLOO_LIB_DIR=$(cd "$FLOO_LIB_DIR" && pwd)
fi
cd "$(dirname "${BASH_SOURCE[0]}")/.."
if [ -z "${FLOO_LIB_DIR:-}" ]; then
    embed/libraries.sh
    FLOO_LIB_DIR=$PWD/target/staticlib
fi
export FLOO_LIB_DIR
version=$(sed -n 's/^version = "\(.*\)"$/\1/p' embed/rust/Cargo.toml)

# a package: its name, its library, what it is
package() {
    install -m 644 "$FLOO_LIB_DIR/lib$2.a" "$prefix/lib/lib$2.a"
    cat > "$prefix/lib/pkgconfig/$1.pc" <<END
prefix=\${pcfiledir}/../..
Name: $1
Description: $3
Version: $version
Cflags: -I\${prefix}/include
Libs: -L\${prefix}/lib -l$2
END
}

install -d "$prefix/include" "$prefix/lib/pkgconfig"
install -m 644 include/floo.h include/floor.h include/forf.h "$prefix/include"
package floo floo_c "Runs Floo 0.5 scripts in lent room, and reads their tokens (floo.h)"
package floor floor_c "The floor rule for late scans (floor.h)"
package forf forf_c "Runs Forf scripts in lent room, and reads their tokens (forf.h)"
package floor-ledger ledger_c "The ledger of a book of sockets (floor.h)"
if command -v cargo > /dev/null; then
    cargo build --quiet --release --manifest-path embed/rust/Cargo.toml
    install -d "$prefix/bin" "$prefix/share/man/man1"
    install -m 755 embed/rust/target/release/floo "$prefix/bin/floo"
    install -m 644 docs/floo.1 "$prefix/share/man/man1/floo.1"
fi
echo "installed in $prefix"
