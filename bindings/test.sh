#!/bin/sh
# test.sh: the bindings that build.sh made, on the rows of rows.tsv and tasks.tsv, and the examples of docs/BINDINGS.md: C under the
# address and the undefined-behaviour sanitizer, by the static and by the shared library and by the Debian package; Rust by cargo; Python
# from the wheel. Then whether all have the structs alike, which names are to be seen, and the recipes of docs/AT_SCALE.md. Needs a C compiler with the sanitizers, cargo, python3 with pip, pkg-config or none, dpkg-deb;
# where js/build.sh made the npm package, also node and npm. Types are tested where mypy and tsc are there. The recipes need GNU parallel and the
# program figpliers, in the path or built; and dask.distributed.
here=$(cd "$(dirname "$0")" && pwd)
out=$here/out
work=$(mktemp -d)
trap 'rm -rf "$work"' EXIT
passed=0
failed=0
try() {
    what=$1
    shift
    if "$@" > "$work/log" 2>&1; then
        passed=$((passed + 1))
        echo "ok $what: $(grep -h ' passed' "$work/log" | tail -1)"
    else
        failed=$((failed + 1))
        echo "FAILED $what"
        tail -40 "$work/log"
    fi
}
cc=${CC:-cc}
node=${NODE:-node}
flags="-std=c99 -O1 -g -Wall -Wextra -Werror -fsanitize=address,undefined -fno-sanitize-recover=all"
c_static() { $cc $flags -I"$here/c" "$here/c/test.c" "$out/libfigpliers.a" -o "$work/static" && "$work/static" "$here/rows.tsv"; }
c_shared() {
    $cc $flags -I"$here/c" "$here/c/test.c" -L"$out" -lfigpliers -o "$work/shared" && LD_LIBRARY_PATH=$out "$work/shared" "$here/rows.tsv"
}
cpp_header() {
    echo '#include "figpliers.h"' > "$work/header.cc"
    $cc -x c++ -Wall -Wextra -Werror -fsyntax-only -I"$here/c" "$work/header.cc"
}
package() {
    dpkg-deb -x "$out"/figpliers_*.deb "$work/package" && place=$work/package/usr/lib/x86_64-linux-gnu \
        && $cc -std=c99 -O2 -I"$work/package/usr/include" "$here/c/test.c" -L"$place" -lfigpliers -o "$work/packaged" \
        && LD_LIBRARY_PATH=$place "$work/packaged" "$here/rows.tsv" && test -s "$work/package/usr/share/doc/figpliers/copyright"
}
rust() {
    cd "$here/rust" && CARGO_TARGET_DIR=$out/rust FIGPLIERS_LIB=$out FIGPLIERS_LAYOUT=$work/layout.rust cargo test --offline "$@" \
        && awk '/^test result: ok/ { n += $4 } END { print "Rust: " n " passed" }' "$work/log"
}
python() {
    python3 -m pip install -q --no-deps --no-index --target "$work/python" "$out"/figpliers-*.whl \
        && cd "$work" && PYTHONPATH=$work/python FIGPLIERS_LAYOUT=$work/layout.python python3 "$here/python/tests/test_rows.py"
}
python_types() { cd "$here/python" && mypy --strict figpliers && echo "mypy: 1 passed"; }
python_tasks() { PYTHONPATH=$work/python python3 "$here/python/tests/test_tasks.py"; }
layouts() {
    "$work/static" "$here/rows.tsv" | grep '^fig_' > "$work/layout.c"
    test "$(wc -l < "$work/layout.c")" = 19 && cmp "$work/layout.c" "$work/layout.rust" && cmp "$work/layout.c" "$work/layout.python"
}
c_tasks() { $cc $flags -I"$here/c" "$here/c/tasks.c" "$out/libfigpliers.a" -o "$work/tasks" && "$work/tasks" "$here/tasks.tsv"; }
links() {
    $cc $flags -I"$here/c" "$here/c/links.c" "$out/libfigpliers.a" -o "$work/links" \
        && test "$(echo '<p>See <a href=/a>this <b>one</b></a>,<a>no</a>' | "$work/links")" = "/a this one" && echo "C: 1 passed"
}
javascript() {
    mkdir "$work/js" && cd "$work/js" && npm install --silent --no-audit --no-fund "$out"/figpliers-*.tgz \
        && cp "$here/js/test.mjs" "$here/js/tasks.mjs" "$here/js/testing.mjs" . && $node test.mjs "$here/rows.tsv"
}
javascript_tasks() { cd "$work/js" && $node tasks.mjs "$here/tasks.tsv"; }
types() {
    cp "$here/js/types.mts" "$work/js" && cd "$work/js" \
        && tsc --strict --noEmit --target es2022 --module nodenext --moduleResolution nodenext types.mts && echo "TypeScript: 1 passed"
}
# the example of a language in docs/BINDINGS.md, in a file, and what all of them print
example() {
    python3 "$here/examples.py" "$here/../docs/BINDINGS.md" "$1" > "$2" && python3 "$here/examples.py" "$here/../docs/BINDINGS.md" text > "$work/want"
}
prints() { "$@" > "$work/got" && cmp "$work/got" "$work/want"; }
example_c() { example c "$work/example.c" && $cc $flags -I"$here/c" "$work/example.c" "$out/libfigpliers.a" -o "$work/example" && prints "$work/example"; }
example_rust() {
    mkdir -p "$work/crate/src" && example rust "$work/crate/src/main.rs" && cd "$work/crate" || return 1
    printf '[package]\nname = "example"\nedition = "2021"\n[dependencies]\nfigpliers = { path = "%s" }\n' "$here/rust" > Cargo.toml
    export CARGO_TARGET_DIR="$out/rust" FIGPLIERS_LIB="$out"
    prints cargo run --offline -q
}
example_python() { example python "$work/example.py" && PYTHONPATH=$work/python prints python3 "$work/example.py"; }
example_javascript() { example js "$work/js/example.mjs" && cd "$work/js" && prints $node example.mjs; }
names() {
    nm -D --defined-only "$out/libfigpliers.so" | awk '{ print $3 }' | sort > "$work/names.shared"
    nm -g --defined-only "$out/libfigpliers.a" | awk 'NF == 3 { print $3 }' | sort > "$work/names.static"
    grep -o '^uint32_t fig_[a-z_]*' "$here/c/figpliers.h" | sed 's/.* //' | sort > "$work/names.header"
    cat "$work"/names.* && cmp "$work/names.shared" "$work/names.header" && cmp "$work/names.static" "$work/names.header"
}
# the recipes, on 500 pages with one to seven links each
pages() {
    mkdir -p "$work/scale/pages" && cd "$work/scale" && python3 -c '
for i in range(500):
    with open(f"pages/{i}.html", "w") as page:
        page.write("<!DOCTYPE html><title>t</title>" + f"<p><a href=/{i}>&eacute;</a>" * (i % 7 + 1))'
}
total=1994
with_parallel() {
    pages && mkdir -p "$work/bin" && ln -sf "$program" "$work/bin/figpliers" && PATH=$work/bin:$PATH || return 1
    one=$(find pages -name '*.html' -print0 | xargs -0 figpliers links -h | wc -l)
    python3 "$here/examples.py" "$here/../docs/AT_SCALE.md" sh > recipe.sh && many=$(sh recipe.sh)
    echo "one process $one, parallel $many" && test "$one" -eq $total && test "$many" -eq $total && echo "GNU parallel: 1 passed"
}
with_dask() {
    pages && export PYTHONPATH="$work/python:$PYTHONPATH" && python3 "$here/examples.py" "$here/../docs/AT_SCALE.md" python > recipe.py || return 1
    one=$(python3 -c 'from recipe import *; print(*count(Path("pages").rglob("*.html")))') && many=$(python3 recipe.py)
    echo "one process $one, dask $many" && test "$one" = "$total 0" && test "$many" = "$total 0" && echo "dask.distributed: 1 passed"
}
try "C, static library, sanitizers" c_static
try "C, shared library, sanitizers" c_shared
try "the header in C++" cpp_header
try "C, the usual tasks" c_tasks
try "C, the example of links" links
try "C, the example of the documentation" example_c
try "C, Debian package" package
try "Rust, static library" rust
try "Rust, the example of the documentation" example_rust
export LD_LIBRARY_PATH="$out"
try "Rust, shared library" rust --features shared
unset LD_LIBRARY_PATH
try "Python, wheel" python
try "Python, the usual tasks" python_tasks
if command -v mypy > /dev/null; then try "Python, types" python_types; fi
try "Python, the example of the documentation" example_python
try "sizes and offsets of the structs" layouts
if ls "$out"/figpliers-*.tgz > /dev/null 2>&1; then
    try "JavaScript, npm package" javascript
    try "JavaScript, the usual tasks" javascript_tasks
    try "JavaScript, the example of the documentation" example_javascript
    if command -v tsc > /dev/null; then try "TypeScript, types of the package" types; fi
fi
try "names that are to be seen" names
program=$(command -v figpliers || echo "$here/../crates/figpliers_cli/out/figpliers_cli")
if ! parallel --version 2> /dev/null | grep -q '^GNU parallel'; then
    echo "skipped the recipe with GNU parallel: it is not installed"
elif ! [ -x "$program" ]; then
    echo "skipped the recipe with GNU parallel: the program figpliers is not there"
else
    try "500 pages, GNU parallel and figpliers" with_parallel
fi
if python3 -c 'import dask.distributed' 2> /dev/null; then
    try "500 pages, dask.distributed and the Python package" with_dask
else
    echo "skipped the recipe with dask.distributed: it is not installed"
fi
echo "$passed passed, $failed failed"
[ "$failed" = 0 ]
