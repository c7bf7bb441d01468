#!/bin/sh
# build.sh: makes figpliers.wasm and cleaning.wasm here, and the npm package in bindings/out, of the module that the proved build of
# html_ffi hands to clang. Needs the kit, python3, binaryen's wasm-opt and, for the package, npm.
set -eu
here=$(cd "$(dirname "$0")" && pwd)
top=$(dirname "$(dirname "$here")")
kit=${KIT:-$(dirname "$(dirname "$(readlink -f "$(command -v rt)")")")}
work=$(mktemp -d)
trap 'rm -rf "$work"' EXIT

(cd "$top/crates/html_ffi" && rt lib)
python3 "$here/module.py" capture "$kit" "$top/crates/html_ffi" "$work"
python3 "$here/module.py" retarget "$work/module.ll" "$work/wasm.ll"
compile="$kit/toolchain/bin/clang --target=wasm64-unknown-unknown -mbulk-memory -c"
$compile -Os -mno-multivalue -ffunction-sections -mllvm -trap-unreachable -x ir "$work/wasm.ll" -o "$work/library.o"
$compile -O3 -fno-builtin-malloc "$here/heap.c" -o "$work/heap.o"
ln -s "$kit/toolchain/bin/ld.lld" "$work/wasm-ld"

# the module of a name, with the calls that a pattern picks. fig_decode is in none: its tables are 190 KB by gzip, and browsers and Node
# have TextDecoder.
linked() {
    calls=$(grep -o '^uint32_t fig_[a-z_]*' "$top/bindings/c/figpliers.h" | sed 's/.* //' | grep -v fig_decode | grep "$2" "$3")
    # shellcheck disable=SC2086,SC2046
    "$work/wasm-ld" -mwasm64 --no-entry --gc-sections -z stack-size=1048576 --stack-first -O2 $(printf -- '--export=%s\n' $calls) \
        "$work/library.o" "$work/heap.o" -o "$work/linked.wasm"
    python3 "$here/module.py" strip "$work/linked.wasm" "$work/64.wasm"
    wasm-opt --enable-memory64 --enable-bulk-memory --enable-sign-ext --enable-mutable-globals --enable-nontrapping-float-to-int \
        --memory64-lowering "$work/64.wasm" -o "$here/$1.wasm"
    echo "$1.wasm, gzipped: $(gzip -9 -c "$here/$1.wasm" | wc -c) bytes"
}
linked figpliers -v 'clean\|policy'
linked cleaning -e 'clean\|policy'

cp "$top/LICENSE" "$here/LICENSE"
cp "$kit/rattle/memchr/LICENSE-MIT" "$here/LICENSE-memchr"
cp "$kit/rattle/thiserror/LICENSE" "$here/LICENSE-thiserror"
mkdir -p "$top/bindings/out"
(cd "$here" && npm pack --silent --pack-destination "$top/bindings/out")
ls -l "$here"/*.wasm "$top"/bindings/out/figpliers-*.tgz
