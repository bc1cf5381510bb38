#!/usr/bin/env bash
# compare/run.sh [SOURCES] [short|long|record] [SEED], or [SOURCES] replay: runs the code of this repository beside the crate
# columnar 0.13.3 and compares the answers. SOURCES, or else the environment variable COLUMNAR_SRC, is the folder with the crate's
# lib.rs, bytes.rs and primitive.rs, which are no part of this repository. `short` takes seconds, `long` compares at least ten
# million answers. `record` prints answers of the crate, one a line (compare/src/record.rs), and `replay` compares such lines, from
# standard input, with the answers here; neither is skipped.
# compare/run.sh [SOURCES] bench: measures both (docs/BENCHMARKS.md).
# BESIDE_LIB names a static library that is built already. With COMPARE_PROGRAM the program is put there, and not run.
set -euo pipefail
skip() {
    case $mode in
        record | replay) echo "compare/run.sh: $1" >&2; exit 1 ;;
    esac
    echo "compare/run.sh: skipped, $1"
    exit 0
}
here=$(cd "$(dirname "$0")" && pwd)
sources=${COLUMNAR_SRC:-}
mode=
case ${1:-} in
    '' | short | long | record | replay | bench) ;;
    *) sources=$1; shift ;;
esac
mode=${1:-}
[ -n "$sources" ] || skip "no folder with the crate's sources was named"
[ ! -f "$sources/src/lib.rs" ] || sources=$sources/src
for name in lib.rs bytes.rs primitive.rs; do
    [ -f "$sources/$name" ] || skip "there is no $sources/$name"
done
command -v cargo > /dev/null || skip "there is no cargo"
command -v cc > /dev/null || skip "there is no cc to link with"
command -v nm > /dev/null || skip "there is no nm"
bytemuck=$(find /usr/share/cargo/registry -maxdepth 1 -name "bytemuck-1*" 2> /dev/null | head -n 1 || true)
[ -n "$bytemuck" ] || skip "there is no bytemuck (Debian: librust-bytemuck-dev)"

dir=$(mktemp -d)
trap 'rm -rf "$dir"' EXIT

# The crate without the modules that are not compared; bytes.rs and primitive.rs are as they were published.
mkdir -p "$dir/columnar/src"
cp "$sources/bytes.rs" "$sources/primitive.rs" "$dir/columnar/src"
awk '
    # A text before an item goes where the item goes.
    /^\/\/\// { text = text $0 "\n"; next }
    /^pub mod roaring \{/ { inside = 1 }
    inside { if (/^\}/) inside = 0; text = ""; next }
    /^(pub )?mod (adts|boxed|lookback|string|sums|vector|tuple|arc|rc);/ { text = ""; next }
    /^pub use (lookback|string|sums|vector|columnar_derive)::/ { text = ""; next }
    /^extern crate columnar_derive;/ { text = ""; next }
    { printf "%s", text; text = ""; print }
' "$sources/lib.rs" > "$dir/columnar/src/lib.rs"
cat > "$dir/columnar/Cargo.toml" << 'TOML'
[package]
name = "columnar"
version = "0.13.3"
edition = "2021"

[features]
std = []
serde = []

[dependencies]
bytemuck = { path = "../bytemuck", features = ["extern_crate_alloc", "min_const_generics"] }
TOML
cp -rL "$bytemuck" "$dir/bytemuck"
mkdir "$dir/compare"
cp -r "$here/Cargo.toml" "$here/src" "$dir/compare"

library=${BESIDE_LIB:-}
if [ -z "$library" ]; then
    [ -d "$here/../crates/beside_c" ] || skip "there is no crates/beside_c"
    command -v rt > /dev/null || skip "there is no rt"
    (cd "$here/../crates/beside_c" && rt lib > /dev/null < /dev/null)
    library=$here/../crates/beside_c/out/libbeside_c.a
fi
mkdir "$dir/lib"
cp "$library" "$dir/lib/libbeside_c.a"
functions=$(nm "$dir/lib/libbeside_c.a" | sed -n 's/^[0-9a-f]* T beside_//p' | paste -sd, -)

cd "$dir/compare"
export RUSTFLAGS="-L native=$dir/lib"
export CARGO_TARGET_DIR=$dir/target
cargo build --release --offline --quiet --jobs 2 --features "$functions" > "$dir/log" 2>&1 || {
    cat "$dir/log" >&2
    echo "compare/run.sh: the program was not built" >&2
    exit 1
}
if [ -n "${COMPARE_PROGRAM:-}" ]; then
    cp "$dir/target/release/compare" "$COMPARE_PROGRAM"
    exit 0
fi
"$dir/target/release/compare" "$@"
