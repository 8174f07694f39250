#!/usr/bin/env bash
# Installs into a folder that goes again, moves it, and there builds the README's program in C by what pkg-config says of it; then runs it, the other examples in C and
# the command from there.
set -euo pipefail
cd "$(dirname "${BASH_SOURCE[0]}")/.."
folder=$(mktemp -d)
trap 'rm -rf "$folder"' EXIT

fails() {
    echo "run_install.sh: $*" >&2
    exit 1
}

embed/install.sh "$folder/first place"
mv "$folder/first place" "$folder/installed"
export PKG_CONFIG_PATH=$folder/installed/lib/pkgconfig

shown=$(sed 's/^./    &/' examples/first_scan.c)
[[ $(< README.md) == *"$shown"* ]] || fails "README.md does not show examples/first_scan.c"

# what a package's file says, whether pkg-config is there to say it or not
flags() {
    if command -v pkg-config > /dev/null; then
        pkg-config --cflags --libs "$1"
    else
        sed -n "s|\${prefix}|$folder/installed|g; s/^\(Cflags\|Libs\): //p" "$PKG_CONFIG_PATH/$1.pc"
    fi
}

# a program: its name, its package. Nothing of this repository is in reach of the compiler but the one file.
build() {
    cp "examples/$1.c" "$folder/$1.c"
    (cd "$folder" && "${CC:-cc}" -std=c11 -O2 -Wall -Wextra -Wpedantic -Werror "$1.c" $(flags "$2") -o "$1")
}

build first_scan floor
build scan floor
build embed floo
build ledger floor-ledger
build display forf
said=$("$folder/first_scan" examples/scan.floo "0417:rack B-7:1731690000" "0417:shelf A-2:1731600000")
[ "$said" = "$(printf 'socket 417 at rack B-7 since 1731690000\nnot entered: answer 8')" ] || fails "first_scan says $said"
"$folder/scan" examples/scan.floo | cmp - examples/scan.expected
"$folder/embed" | cmp - embed/embed.expected
"$folder/ledger" examples/ledger.csv | cmp - examples/ledger.expected
"$folder/display" examples/display.forf | cmp - examples/display.expected
"$folder/installed/bin/floo" --outcome examples/label.floo | cmp - examples/label.expected
[ -s "$folder/installed/share/man/man1/floo.1" ] || fails "no manual page"
if embed/install.sh 2> "$folder/usage"; then
    fails "no PREFIX is no error"
fi
grep -q "^usage:" "$folder/usage"
echo "run_install.sh: passed"
