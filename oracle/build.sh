#!/bin/sh
# Builds the program: build.sh SKERA_SRC [BUILD_FOLDER [--branches]]
# SKERA_SRC is the src folder of skera 0.6.0. Everything made, the extracted text included, goes to BUILD_FOLDER
# (target/oracle below the current folder if none is given); the program is BUILD_FOLDER/oracle. With --branches the
# extracted text is marked by branches.py, and BUILD_FOLDER/branches.txt lists the marks.
set -eu
if [ $# -lt 1 ] || [ $# -gt 3 ] || [ "${3:---branches}" != --branches ]; then
    sed -n '2,5s/^# //p' "$0" >&2
    exit 2
fi
here=$(cd "$(dirname "$0")" && pwd)
build=${2:-target/oracle}
crate=$build/crate

mkdir -p "$crate"
python3 "$here/extract.py" "$1" "$crate"
cp -R "$here/src/." "$crate/"
if [ "${3:-}" = --branches ]; then
    python3 "$here/branches.py" "$crate" > "$build/branches.txt"
fi

# An overflow in the compared text must be seen, not wrapped.
rust() {
    rustc --edition 2021 -O -C overflow-checks=on "$@"
}
rust --crate-type rlib --crate-name hashbrown -o "$build/libhashbrown.rlib" "$crate/hashbrown.rs"
rust --crate-type rlib --crate-name write_fonts -o "$build/libwrite_fonts.rlib" "$crate/write_fonts.rs"
rust --crate-type bin --crate-name oracle -o "$build/oracle" \
    --extern "hashbrown=$build/libhashbrown.rlib" --extern "write_fonts=$build/libwrite_fonts.rlib" \
    "$crate/main.rs"
echo "built $build/oracle"
