#!/bin/sh
# How fast the library is that C, Rust and Python call, on a page of bench/normal.sh in memory, beside html5ever called in memory; of 10
# MB, or of as many as the first argument says. Needs what bindings/build.sh made, python3, cargo, and html5ever from cargo's registry
# (CARGO_FLAGS has what cargo is to be told beside that).
set -e
top="$(cd "$(dirname "$0")/.." && pwd)"
work=$(mktemp -d)
trap 'rm -rf "$work"' EXIT
(cd "$top/bench" && python3 -c "from normal import Page; print(end=Page(1).text(${1:-10} * 1_000_000))") > "$work/page.html"
cd "$top/bindings/bench"
FIGPLIERS_LIB="$top/bindings/out" CARGO_TARGET_DIR="$top/bindings/out/rust" cargo build -q --release $CARGO_FLAGS
"$top/bindings/out/rust/release/outside" 9 "$work/page.html"
