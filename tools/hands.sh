#!/bin/sh
# Tests what an author and a firmware engineer take into their hands: the C header and program, the Rust
# wrapper, the command `refal`, the notation, and the steps and figures of the documents.
#
#   sh tools/hands.sh
#
# Needs target/staticlib/libcleaner.a (`sh tools/archive.sh`), cc, c++, cargo and python3. Nothing is fetched.
# A step that this machine cannot take is told as left out. The last line says how many failed; so does the status.
set -u

root=$(cd "$(dirname "$0")/.." && pwd)
cd "$root" || exit 2
archive=$root/target/staticlib/libcleaner.a
if [ ! -f "$archive" ]; then
    echo "there is no $archive: run \`sh tools/archive.sh\` first" >&2
    exit 2
fi
here=$(mktemp -d)
tiny=
trap 'test -z "$tiny" || umount "$tiny"; rm -rf "$here"' EXIT
export CARGO_INSTALL_ROOT="$here" CARGO_NET_OFFLINE=true SHOWCLEAN_LIBRARY="$root/target/staticlib"
PATH="$here/bin:$PATH"
passed=0
failed=0

# A step is a name and a command; what the command prints is shown only if it fails.
step() {
    name=$1
    shift
    if ("$@") > "$here/said" 2>&1; then
        passed=$((passed + 1))
        echo "ok      $name"
    else
        failed=$((failed + 1))
        echo "FAILED  $name"
        sed 's/^/        /' "$here/said"
    fi
}

left_out() {
    echo "left out: $1"
}

# A command must end with a status, and say something.
ends() {
    wanted=$1
    saying=$2
    shift 2
    "$@" > "$here/ends" 2>&1
    status=$?
    cat "$here/ends"
    [ "$status" -eq "$wanted" ] || { echo "status $status, not $wanted"; return 1; }
    grep -qF -- "$saying" "$here/ends" || { echo "it does not say: $saying"; return 1; }
}

# ------------------------------------------------------------------------- C

strict="-Wall -Wextra -Wpedantic -Wconversion -Werror -O2"

# The header and both programs in one standard; C++ takes the test as C++.
compiles() {
    compiler=$1
    standard=$2
    case $standard in
    c++*)
        $compiler -x c++ -std="$standard" $strict -o "$here/test" bindings/c/test.c -x none "$archive" ;;
    *)
        $compiler -std="$standard" $strict -o "$here/test" bindings/c/test.c "$archive" &&
            $compiler -std="$standard" $strict -o "$here/clean" bindings/c/clean.c "$archive" ;;
    esac && "$here/test" examples/removed.image
}

for compiler in gcc clang; do
    for standard in c90 c99 c17 c++11 c++20; do
        driver=$compiler
        case $standard in
        c++*) driver=$(echo "$compiler" | sed 's/gcc/g++/; s/clang$/clang++/') ;;
        esac
        if command -v "$driver" > "$here/said"; then
            step "the header in $standard, $driver" compiles "$driver" "$standard"
        else
            left_out "$standard with $driver"
        fi
    done
done

# What BINDINGS.md says of the archive is what it is.
archive_as_told() {
    [ "$(nm -u "$archive" | awk 'NF == 2 { print $2 }')" = memset ] || { nm -u "$archive"; return 1; }
    size "$archive" | awk 'NR == 2 { exit $2 != 0 || $3 != 0 }' || { echo "it has data"; return 1; }
    bytes=$(size "$archive" | awk 'NR == 2 { print $1 }' | sed ':a; s/\([0-9]\)\([0-9]\{3\}\)\($\|,\)/\1,\2\3/; ta')
    grep -qF "$bytes bytes (\`size\`)" docs/BINDINGS.md || { echo "the code has $bytes bytes"; return 1; }
}
step "the archive: one symbol from outside, no data, code as told" archive_as_told

# ---------------------------------------------------------------------- Rust

# The library's expressions, held to those that a mirror of document 02 makes.
expressions() {
    cc -std=c99 -Wall -Wextra -Werror -O2 -o "$here/expressions" tools/expressions.c "$archive" &&
        python3 tools/expression_vectors.py > "$here/corpus" && "$here/expressions" < "$here/corpus"
}
step "expressions that both patterns match" expressions

step "the wrapper and the command, tested" cargo test -q --manifest-path bindings/rust/Cargo.toml
step "the command installed" cargo install -q --path bindings/rust
if cargo clippy --version > "$here/said" 2>&1; then
    step "clippy" cargo clippy -q --all-targets --manifest-path bindings/rust/Cargo.toml -- -D warnings
    step "layout" cargo fmt --check --manifest-path bindings/rust/Cargo.toml
else
    left_out "clippy and layout"
fi
without_archive() {
    SHOWCLEAN_LIBRARY=$here CARGO_TARGET_DIR=$here/none ends 101 "run \`sh tools/archive.sh\`" \
        cargo build -q --manifest-path bindings/rust/Cargo.toml
}
step "without the archive the build says what to run" without_archive

# A program without the standard library calls the cleaner through the wrapper.
bare() {
    cat > "$here/bare.rs" <<'end'
#![no_std]
#[panic_handler]
fn stop(_: &core::panic::PanicInfo) -> ! {
    loop {}
}
#[no_mangle]
pub extern "C" fn refused() -> u8 {
    showclean::check(&[]).map_or_else(|refusal| refusal.number, |()| 0)
}
end
    echo 'unsigned char refused(void); int main(void) { return refused() != 1; } void rust_eh_personality(void) {}' > "$here/bare.c"
    rustc --edition 2021 -O --crate-type rlib --crate-name showclean --out-dir "$here" bindings/rust/src/lib.rs &&
        rustc --edition 2021 -O -C panic=abort --crate-type staticlib --extern showclean="$here/libshowclean.rlib" \
            --out-dir "$here" "$here/bare.rs" &&
        cc -o "$here/bare" "$here/bare.c" "$here/libbare.a" "$archive" && "$here/bare"
}
step "the wrapper without the standard library" bare

same_words() {
    for number in 1 2 3 4 5 6 7 8 9 10 11 12 13 17; do
        words=$("$here/test" examples/removed.image | sed -n "s/^$number: //p")
        ends 0 "refusal $number: $words" refal explain "$number" || return 1
        grep -qF "| $number | $words |" docs/REPORT.md || { echo "REPORT.md has other words for $number"; return 1; }
    done
}
step "refusals in the same words in C, Rust and REPORT.md" same_words

same_version() {
    version=$(sed -n 's/^#define SHOWCLEAN_VERSION "\(.*\)"/\1/p' bindings/c/showclean.h)
    ends 0 "refal $version" refal --version
}
step "one version in C and Rust" same_version

# ----------------------------------------------------------------- full media

large=$here/large.image
python3 tools/generate.py typical 32768 1 > "$large"

# A command that cannot write must fail, say so, and leave the old file and nothing beside it.
keeps_old() {
    folder=$1
    shift
    echo old > "$folder/out" || return 1
    "$@" "$large" "$folder/out"
    status=$?
    [ "$status" -eq 3 ] || { echo "status $status, not 3"; return 1; }
    [ "$(cat "$folder/out")" = old ] || { echo "the old file is not as it was"; return 1; }
    [ "$(ls -A "$folder")" = out ] || { ls -lA "$folder"; return 1; }
}

limited() {
    # The signal is ignored, so that the write fails in the place of the process.
    (trap '' XFSZ && ulimit -f 8 && keeps_old "$@")
}

writes_new() {
    "$@" "$large" "$here/new" && refal check "$here/new" && refal clean "$here/new" "$here/new"
}

mkdir "$here/limited" "$here/tiny"
for command in "$here/clean" "refal clean"; do
    # shellcheck disable=SC2086 # the command's words are to be split
    step "$(basename "$command"): /dev/full" ends 3 "No space left" $command examples/cascade.image /dev/full
    [ -c /dev/full ] || { echo "/dev/full was replaced"; exit 1; }
    step "$(basename "$command"): a file size limit" limited "$here/limited" $command
    step "$(basename "$command"): a new file" writes_new $command
    step "$(basename "$command"): no such folder" ends 3 "cannot write" $command examples/cascade.image "$here/nowhere/x"
    if mount -t tmpfs -o size=16k none "$here/tiny" 2> "$here/said"; then
        tiny=$here/tiny
        step "$(basename "$command"): a full medium of 16 KB" keeps_old "$tiny" $command
        umount "$tiny" && tiny=
    else
        left_out "$(basename "$command"): a tiny medium cannot be mounted here"
    fi
done
report_to_full() {
    ends 3 "standard output" sh -c '"$@" > /dev/full' sh "$@"
}
step "clean: a report that cannot be printed" report_to_full "$here/clean" examples/cascade.image
step "refal: a report that cannot be printed" report_to_full refal clean examples/cascade.image
step "clean: wrong use" ends 2 "usage:" "$here/clean" --help
step "clean: a refused image" ends 1 "refused 1 at 0: an image shorter" "$here/clean" /dev/null
step "clean: no such file" ends 3 "cannot read" "$here/clean" "$here/nowhere"

# ----------------------------------------------------- the notation, pictures

step "the notation, in both implementations" python3 tools/notation.py "$here/bin/refal" --programs 150

longest_report() {
    python3 tools/figures/images.py shared > "$here/shared.image" && refal clean "$here/shared.image" > "$here/report" || return 1
    told=$(wc -c < "$here/report" | tr -d ' ' | sed ':a; s/\([0-9]\)\([0-9]\{3\}\)\($\|,\)/\1,\2\3/; ta')
    grep -qF "$told bytes" docs/BINDINGS.md || { echo "the report has $told bytes"; return 1; }
}
step "a report of 2.7 MB" longest_report

pictures() {
    for text in examples/*.ref; do
        refal graph "$text" "$here/drawn.svg" && refal graph "$text" "$here/drawn.dot" || return 1
        python3 -c 'import sys, xml.dom.minidom as m; m.parse(sys.argv[1])' "$here/drawn.svg" || return 1
        ! command -v dot > "$here/said" || dot -Tsvg -o "$here/by-dot.svg" "$here/drawn.dot" || return 1
    done
}
step "pictures of the examples" pictures
step "pictures of random programs" python3 tools/pictures.py "$here/bin/refal" --programs 100

# On a terminal, work that takes longer tells how far it is: here patterns that take long to hold to each other.
tells_progress() {
    python3 - > "$here/long.ref" <<'end'
wide = [" ".join(f"e.{i}" for i in range(n % 5 + 6)) + f" 'B{n}' = ;" for n in range(60)]
print("F {", *wide, *(f"'{'A' * 20}{n}' = ;" for n in range(40)), "}")
end
    script -qec "refal lint $here/long.ref" "$here/terminal" && grep -q 'sentences looked at: [0-9]* of 100' "$here/terminal"
}
if command -v script > "$here/said"; then
    step "progress on a terminal" tells_progress
else
    left_out "progress on a terminal: there is no script(1)"
fi

# ------------------------------------------------------------------ documents

# The lines of a fenced block of REPORT.md.
fenced() {
    awk -v fence="\`\`\`$1" '$0 == "```" { inside = 0 } inside; $0 == fence { inside = 1 }' "$root/docs/REPORT.md"
}
report_as_told() {
    cd "$here" && fenced refal > report.ref && fenced report > told.report
    [ -s told.report ] && refal clean report.ref | diff told.report - && refal graph --svg report.ref | cmp - "$root/docs/report.svg"
}
step "REPORT.md's example and its picture" report_as_told

# README's steps but for the proofs, as they stand there, in a folder of their own.
readme_steps() {
    mkdir "$here/reader" && ln -s "$root/bindings" "$here/reader/bindings" && cd "$here/reader" || return 1
    awk '/^## /{ inside = /^## Your first program/ } inside && /^    /{ print substr($0, 5) }' "$root/README.md" > steps
    grep -q 'refal clean swan.image cleaned.image' steps || { echo "README has no steps"; return 1; }
    grep -v '^sh tools/' steps | sh -e > said || { cat said; return 1; }
    for words in 'removed: 1' 'graph: perfect' '-Dark s.Time' 'sentence 3, line 9' 'Cold s.Time = '; do
        grep -qF -- "$words" said || { cat said; echo "no step says: $words"; return 1; }
    done
    [ -s swan.svg ] && [ -s cleaned.image ]
}
step "README's first program" readme_steps

echo "$passed passed, $failed failed"
[ "$failed" -eq 0 ]
