#!/usr/bin/env python3
"""Compares pages with what their Markdown is to a reader of Markdown.

    tools/compare_markdown.py 'COMMAND' FOLDER_OR_FILE..

COMMAND reads a page from standard input, in UTF-8, and prints its Markdown. `cmark-gfm` (Debian's) makes HTML of that, with GitHub's tables.
Chromium has both, the page without its style sheets and with its `details` open, in frames in which scripts don't run. Compared are the
blocks, that is the lines and cells of `innerText` with white space collapsed, and where links with a text or an image lead, but for those
in code blocks, which Markdown has not. A heading has one line in Markdown, so it has one in the page too, and a line break in a cell counts as a
space or as the end of a block; `noscript` is taken out. Prints each page that differs, with the first blocks or links that do, and the number of pages; ends with status 1 if one
differs.
"""
import argparse
import json
import pathlib
import shlex
import subprocess
import sys
import urllib.parse

from compare_inner_text import run_in_browser

SCRIPT = """<!DOCTYPE html><body><script>
const pages = %s;
const told = [];
for (const page of pages) {
    const frame = document.createElement('iframe');
    frame.sandbox = 'allow-same-origin';
    frame.style.width = '20000px';
    document.body.appendChild(frame);
    const inner = frame.contentDocument;
    inner.open();
    inner.write(page === '' ? '<html>' : page);
    inner.close();
    inner.querySelectorAll('style, link, noscript').forEach(element => element.remove());
    inner.querySelectorAll('[style]').forEach(element => element.removeAttribute('style'));
    inner.querySelectorAll('details').forEach(element => element.open = true);
    for (const heading of inner.querySelectorAll('h1, h2, h3, h4, h5, h6')) {
        heading.querySelectorAll('br').forEach(line => line.replaceWith(' '));
        for (const element of heading.querySelectorAll('*')) {
            if (frame.contentWindow.getComputedStyle(element).display === 'block') {
                element.before(' ');
                element.after(' ');
                element.style.display = 'inline';
            }
        }
    }
    inner.querySelectorAll('td br, th br').forEach(line => line.replaceWith(' \\u0001 '));
    const links = [];
    for (const link of inner.querySelectorAll('a[href]')) {
        const shows = link.checkVisibility() && (/[^\\s\\u0001]/.test(link.innerText) || link.querySelector('img'));
        if (link instanceof frame.contentWindow.HTMLElement && shows && !link.closest('pre, listing, xmp')) {
            links.push(link.getAttribute('href'));
        }
    }
    told.push([inner.documentElement.innerText, links]);
    frame.remove();
}
const result = document.createElement('pre');
result.id = 'result';
result.textContent = btoa(unescape(encodeURIComponent(JSON.stringify(told))));
document.body.appendChild(result);
</script>"""


def blocks_of(text):
    """The lines and cells of a text, with white space collapsed."""
    parts = (" ".join(part.split()) for part in text.replace("\t", "\n").split("\n"))
    return [part for part in parts if part]


def broken_as(ours, theirs):
    """A page's blocks, with those line breaks that the Markdown has as blocks."""
    found = []
    for block in theirs:
        whole = " ".join(block.replace("\u0001", " ").split())
        if "\u0001" not in block or ours[len(found) : len(found) + 1] == [whole]:
            found += [whole] if whole else []
        else:
            found += [part.strip() for part in block.split("\u0001") if part.strip()]
    return found


def links_of(links):
    """Links, each once where it comes several times in a row, as where a link goes over blocks."""
    plain = [urllib.parse.unquote("".join(c for c in link.strip() if c >= " ")) for link in links]
    return [link for before, link in zip([None] + plain, plain) if link != before]


def first_difference(kind, ours, theirs):
    """The first of two lists' members that differ."""
    for place in range(max(len(ours), len(theirs))):
        one = ours[place] if place < len(ours) else None
        other = theirs[place] if place < len(theirs) else None
        if one != other:
            return f"  {kind} {place + 1}\n    of the Markdown: {one!r:.300}\n    of the page:     {other!r:.300}"
    return ""


def converted(command, cmark, page):
    """The HTML of a page's Markdown."""
    text = subprocess.run(shlex.split(command), input=page.encode(), capture_output=True, check=True).stdout
    words = [cmark, "--unsafe", "-e", "table", "-e", "strikethrough", "-e", "tasklist"]
    html = subprocess.run(words, input=text, capture_output=True, check=True).stdout
    return "<!DOCTYPE html><meta charset=utf-8>" + html.decode()


def files_of(paths):
    """The pages in folders, and files."""
    found = []
    for path in paths:
        found += sorted(path.rglob("*.htm*")) if path.is_dir() else [path]
    return [path for path in found if path.is_file()]


def main():
    parser = argparse.ArgumentParser(description=__doc__, formatter_class=argparse.RawDescriptionHelpFormatter)
    parser.add_argument("--chromium", default="chromium", help="the browser's command")
    parser.add_argument("--cmark", default="cmark-gfm", help="the reader of Markdown")
    parser.add_argument("command", help="the program's command")
    parser.add_argument("paths", nargs="+", type=pathlib.Path)
    asked = parser.parse_args()
    files = files_of(asked.paths)
    differ = 0
    for start in range(0, len(files), 20):
        part = files[start : start + 20]
        pages = [path.read_bytes().decode("utf-8", "replace") for path in part]
        made = [converted(asked.command, asked.cmark, page) for page in pages]
        told = run_in_browser(asked.chromium, SCRIPT % json.dumps(pages + made).replace("<", "\\u003c"))
        for path, theirs, ours in zip(part, told[: len(part)], told[len(part) :]):
            blocks = blocks_of(ours[0])
            why = first_difference("block", blocks, broken_as(blocks, blocks_of(theirs[0])))
            why = why or first_difference("link", links_of(ours[1]), links_of(theirs[1]))
            if why:
                differ += 1
                print(f"{path}\n{why}", flush=True)
    print(f"{len(files)} pages, {differ} differ")
    sys.exit(1 if differ else 0)


if __name__ == "__main__":
    main()
