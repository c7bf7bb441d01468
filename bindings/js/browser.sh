#!/bin/sh
# browser.sh FOLDER: the npm package in headless Chromium, on the pages of a folder (*.html, at most 2,000) that have neither scripts nor
# noscript: whether the normal text is what the browser's DOMParser makes of the page, and whether cleaned attacks run anything. Needs
# chromium, python3 and npm, after build.sh.
set -eu
here=$(cd "$(dirname "$0")" && pwd)
folder=${1:?the folder of the pages}
work=$(mktemp -d)
server=
trap 'kill $server 2> /dev/null; rm -rf "$work"' EXIT
(cd "$work" && npm install --silent --no-audit --no-fund "$(dirname "$here")"/out/figpliers-*.tgz)
cp "$here/browser.html" "$work/"
mkdir "$work/pages"
find "$folder" -type f -name '*.html' -size -400k | head -2000 | python3 -c '
import re, shutil, sys
names = []
for path in map(str.strip, sys.stdin):
    page = open(path, "rb").read()
    try:
        page.decode()
    except UnicodeDecodeError:
        continue
    if not re.search(rb"<(no)?script|<selectedcontent", page, re.I):
        names.append(f"pages/{len(names)}.txt")
        shutil.copy(path, f"{sys.argv[1]}/{names[-1]}")
print("\n".join(names))' "$work" > "$work/pages/list.txt"
python3 -m http.server --bind 127.0.0.1 --directory "$work" 0 > "$work/port" 2>&1 &
server=$!
while ! grep -q 'port [0-9]' "$work/port"; do sleep 0.2; done
port=$(sed -n 's/.*port \([0-9]*\).*/\1/p' "$work/port" | head -1)
chromium --headless --no-sandbox --disable-gpu --virtual-time-budget=600000 --dump-dom "http://127.0.0.1:$port/browser.html" 2> /dev/null \
    | sed -n '/^BEGIN$/,/^END$/p' | grep -v '^BEGIN$\|^END$' | tee "$work/answer"
grep -q '^[1-9][0-9]* pages, 0 differ; [1-9][0-9]* attacks, 0 ran$' "$work/answer"
