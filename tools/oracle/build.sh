#!/bin/sh
# Builds the oracle: the Rust that document 01 names, behind a small driver, but for the
# departures that document 02 asks for (departures.rs, the one table of them).
#
#   sh tools/oracle/build.sh [SOURCE] [BUILD]
#
# SOURCE is the folder that holds crates/refal-ast and crates/refal-core (default
# ../shared/docs/src), BUILD receives the products (default target/oracle). The
# defaults are taken from the repository's root. BUILD/prepare prints the table.
set -eu

here=$(cd "$(dirname "$0")" && pwd)
root=$(cd "$here/../.." && pwd)
source=${1:-"$root/../shared/docs/src"}
build=${2:-"$root/target/oracle"}

mkdir -p "$build"
compile() {
    rustc --edition 2024 -O -L "$build" --out-dir "$build" "$@"
}

cp "$here/departures.rs" "$build/departures.rs"
cat "$source/crates/refal-ast/src/lib.rs" > "$build/refal_ast.rs"
compile --crate-type bin --crate-name prepare -A dead_code "$here/prepare.rs"
"$build/prepare" "$source/crates/refal-core/src/lib.rs" "$here/wrappers.rs" "$build/refal_core.rs"

# Lints are capped because the Rust is not ours to tidy.
compile --cap-lints allow --crate-type rlib --crate-name refal_ast "$build/refal_ast.rs"
compile --cap-lints allow --crate-type rlib --crate-name refal_core \
    --extern refal_ast="$build/librefal_ast.rlib" "$build/refal_core.rs"
compile --crate-type bin --crate-name oracle -A dead_code \
    --extern refal_ast="$build/librefal_ast.rlib" \
    --extern refal_core="$build/librefal_core.rlib" "$here/main.rs"
echo "built $build/oracle"
