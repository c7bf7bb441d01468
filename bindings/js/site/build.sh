#!/bin/sh
# build.sh: the playground with the library, as a folder of files for any web server, in bindings/out/site. After ../build.sh.
set -eu
here=$(cd "$(dirname "$0")" && pwd)
site=$(dirname "$(dirname "$here")")/out/site
rm -rf "$site"
mkdir -p "$site/figpliers"
cp "$here/index.html" "$here/site.css" "$here/site.mjs" "$site/"
for file in index.mjs core.mjs cleaning.mjs library.mjs tree.mjs part.mjs figpliers.wasm cleaning.wasm \
    LICENSE LICENSE-memchr LICENSE-thiserror; do
    cp "$here/../$file" "$site/figpliers/"
done
ls "$site" "$site/figpliers"
