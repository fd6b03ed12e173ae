#!/bin/sh
# Proves every crate below `cleaner_c` and builds the static library that C programs link, as
# target/staticlib/libcleaner.a.
#
#   sh tools/archive.sh
set -eu

root=$(cd "$(dirname "$0")/.." && pwd)
cd "$root/crates/cleaner_c"
rt lib
mkdir -p "$root/target/staticlib"
cp out/libcleaner_c.a "$root/target/staticlib/libcleaner.a"
