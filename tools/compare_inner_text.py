#!/usr/bin/env python3
"""Compares a program's rendered texts with the `innerText` of Chromium.

    tools/compare_inner_text.py 'COMMAND' FILE..

COMMAND reads a page from standard input, in UTF-8, and prints the text of its document. Chromium has the page without its style sheets,
in a frame in which scripts don't run; so pages with `noscript` are left out. The texts are compared without line feeds at the end. Prints
each page whose texts differ, with the first lines that do, and the number of pages; ends with status 1 if one differs.
"""
import argparse
import base64
import json
import pathlib
import re
import shlex
import subprocess
import sys
import tempfile

SCRIPT = """<!DOCTYPE html><body><script>
const pages = %s;
const texts = [];
for (const page of pages) {
    const frame = document.createElement('iframe');
    frame.sandbox = 'allow-same-origin';
    frame.style.width = '20000px';
    document.body.appendChild(frame);
    const inner = frame.contentDocument;
    inner.open();
    inner.write(page === '' ? '<html>' : page);
    inner.close();
    inner.querySelectorAll('style, link').forEach(element => element.remove());
    inner.querySelectorAll('[style]').forEach(element => element.removeAttribute('style'));
    texts.push(inner.documentElement.innerText);
    frame.remove();
}
const result = document.createElement('pre');
result.id = 'result';
result.textContent = btoa(unescape(encodeURIComponent(JSON.stringify(texts))));
document.body.appendChild(result);
</script>"""


def run_in_browser(chromium, script):
    """What a page with that script leaves in its result."""
    with tempfile.NamedTemporaryFile("w", suffix=".html") as page:
        page.write(script)
        page.flush()
        options = ["--headless", "--no-sandbox", "--disable-gpu", "--virtual-time-budget=60000", "--dump-dom"]
        command = [chromium] + options + ["file://" + page.name]
        done = subprocess.run(command, capture_output=True, text=True, timeout=600)
    found = re.search(r'<pre id="result">([^<]*)</pre>', done.stdout)
    if not found:
        sys.exit("no answer from " + chromium + ": " + done.stderr[-400:])
    return json.loads(base64.b64decode(found.group(1)).decode())


def browser_texts(chromium, pages):
    """The texts that Chromium has of pages."""
    return run_in_browser(chromium, SCRIPT % json.dumps(pages).replace("<", "\\u003c"))


def first_difference(ours, theirs):
    """The first lines that differ."""
    mine, others = ours.split("\n"), theirs.split("\n")
    for number, (one, other) in enumerate(zip(mine + [None] * len(others), others + [None] * len(mine))):
        if one != other:
            return f"  line {number + 1}\n    ours:   {one!r}\n    theirs: {other!r}"
    return ""


def main():
    parser = argparse.ArgumentParser(description=__doc__, formatter_class=argparse.RawDescriptionHelpFormatter)
    parser.add_argument("--chromium", default="chromium", help="the browser's command")
    parser.add_argument("command", help="the program's command")
    parser.add_argument("files", nargs="+", type=pathlib.Path)
    asked = parser.parse_args()
    pages = [(path, path.read_bytes().decode("utf-8", "replace")) for path in asked.files]
    pages = [(path, page) for path, page in pages if "<noscript" not in page.lower()]
    theirs = browser_texts(asked.chromium, [page for _, page in pages])
    differ = 0
    for (path, page), text in zip(pages, theirs):
        done = subprocess.run(shlex.split(asked.command), input=page.encode(), capture_output=True, check=True)
        ours = done.stdout.decode()
        if ours.rstrip("\n") != text.rstrip("\n"):
            differ += 1
            print(f"{path}\n{first_difference(ours, text)}")
    print(f"{len(pages)} pages, {differ} differ")
    sys.exit(1 if differ else 0)


if __name__ == "__main__":
    main()
