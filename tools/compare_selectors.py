#!/usr/bin/env python3
"""Compares what selectors select with Chromium's querySelectorAll.

Each page of a folder is parsed by Chromium, without a window, with DOMParser, and by the program bench_pages, and each of the
selectors below, with some that are made of each page's own names, is asked of both. What is compared is which elements are found, by
their numbers in tree order. It is run from the top of the repository:

    apt-get install chromium
    (cd crates/bench_pages && rt run)
    python3 tools/compare_selectors.py crates/bench_pages/out/bench_pages FOLDER [PAGES]

It takes PAGES pages of at most 60 kB (100 by default), prints each question that is answered otherwise, and ends with
`N pages, M questions, K with an answer, D different, W wanted`. Wanted differences are those that docs/DIFFERENCES.md names.
"""

import base64
import json
import random
import re
import subprocess
import sys
import tempfile
from pathlib import Path

RUN = ["chromium", "--headless", "--no-sandbox", "--disable-gpu", "--virtual-time-budget=600000", "--dump-dom"]
SELECTORS = """
* | p | P | a | div | svg | svg path | foreignObject | linearGradient | #main | #content | .content | .code | div.code | a[href] | a[HREF]
[href^=http] | [href^="http"] | [href$=".html"] | [href*="#"] | [href*="HTML" i] | [class~=content] | [lang|=en] | [lang|=EN] | [type=TEXT]
[class=CONTENT] | [class=CONTENT i] | [class=content s] | [href=""] | [href^=""] | [class~=""] | [class~="a b"] | [ id = main ] | [|href]
html > body > div | body > * | body div p | div > p | ul li | ul > li | li + li | li ~ li | h1 + p | h2 ~ p | h2 + p, h3 + p | table tr td
tr:nth-child(odd) | tr:nth-child(even) | li:nth-child(3) | li:nth-child(3n+1) | li:nth-child(-n+3) | li:nth-child(-2n+7)
li:nth-child(+3n - 2) | li:nth-child(0n+2) | li:nth-last-child(-n+2) | p:nth-of-type(2n) | p:nth-last-of-type(1) | :first-child
:last-child | :only-child | :first-of-type | :last-of-type | :only-of-type | :nth-child(2 of p) | :nth-last-child(1 of a, b)
:root | :root > * | :scope > * | :empty | :not(:empty) | p:empty | a:not([href]) | :not(p, div, a) | :is(h1, h2, h3) | :where(ul, ol) > li
:is(h1, foo:bar, h2) | div:has(> p) | div:has(p code) | h2:has(+ p) | h2:has(~ p a) | :not(:has(*)) | p:has(a[href]):not(:first-child)
:link | a:any-link | :any-link | :checked | :disabled | input:enabled | :required | input:optional | ul > :nth-child(2n+1):not(:last-child)
* * * * | div div div p | div > div > div > * | *:not(html, body, head) > p:first-child | *|p | svg|a | |p | a:foo | p::before | > p | p,
p:not() | p:is() | a:has(:has(b)) | :nth-child(2 | p:nth-child( 2n + 1 of :not(.a) ) | \\70 | p/**/.a | p:NOT(.x) | :lang(en) | & p | a || b
"""


def chromium(jobs):
    """What Chromium answers: for each page and each selector the numbers of the elements that are found, or nothing where it refuses it."""
    script = """<!doctype html><meta charset=utf-8><pre id=out></pre><script>
const bytes = Uint8Array.from(atob("%s"), c => c.charCodeAt(0));
const jobs = JSON.parse(new TextDecoder().decode(bytes));
const answers = jobs.map(([page, selectors]) => {
    const tree = new DOMParser().parseFromString(page, "text/html");
    const numbers = new Map(Array.from(tree.querySelectorAll("*"), (element, number) => [element, number]));
    return selectors.map(selector => {
        try { return Array.from(tree.querySelectorAll(selector), element => numbers.get(element)) } catch (e) { return null }
    });
});
document.getElementById("out").textContent = JSON.stringify(answers);
</script>"""
    with tempfile.TemporaryDirectory() as folder:
        page = Path(folder) / "page.html"
        page.write_text(script % base64.b64encode(json.dumps(jobs).encode()).decode())
        command = [*RUN, f"--user-data-dir={folder}/data", f"file://{page}"]
        out = subprocess.run(command, capture_output=True, text=True, timeout=1200).stdout
    return json.loads(re.search(r'<pre id="out">([^<]*)</pre>', out).group(1))


def ours(program, path, selectors):
    """What the program answers: the same."""
    done = subprocess.run([program, "select", path, *selectors], capture_output=True, text=True, timeout=600, check=True)
    lines = done.stdout.split("\n")[:len(selectors)]
    return [None if line == "refused" else [int(number) for number in line.split()] for line in lines]


def selectors_of(page, rng):
    """Selectors made of names that a page has."""
    names = re.findall(r"<([a-z][a-z0-9]*)", page) or ["p"]
    classes = [c for value in re.findall(r'class="([^"]*)"', page) for c in value.split() if re.fullmatch(r"[A-Za-z][\w-]*", c)] or ["x"]
    ids = [i for i in re.findall(r'id="([^"]*)"', page) if re.fullmatch(r"[A-Za-z][\w-]*", i)] or ["x"]
    parts = [lambda: rng.choice(names), lambda: "." + rng.choice(classes), lambda: "#" + rng.choice(ids),
             lambda: rng.choice(names) + "." + rng.choice(classes), lambda: rng.choice(names) + ":nth-of-type(" + str(rng.randint(1, 4)) + ")",
             lambda: ":not(" + rng.choice(names) + ")", lambda: rng.choice(names) + ":has(" + rng.choice(names) + ")"]
    made = []
    for _ in range(60):
        text = rng.choice(parts)()
        for _ in range(rng.randint(0, 3)):
            text += rng.choice([" ", " > ", " + ", " ~ "]) + rng.choice(parts)()
        made.append(text)
    return made


# What docs/DIFFERENCES.md names: names of SVG in another case, the flag `s`, prefixes, pseudo-elements, `&` and `:lang()`.
WANTED = re.compile(r"foreignObject|linearGradient| s\]|svg\||::|&|:lang|\|\|")


def pages_of(folder, wanted, rng):
    """Pages of a folder, with their texts. DOMParser parses without scripting, so none has a noscript."""
    paths = [p for p in sorted(folder.rglob("*.html")) if p.is_file() and p.stat().st_size <= 60000]
    rng.shuffle(paths)
    taken = []
    for path in paths:
        if len(taken) == wanted:
            break
        try:
            page = path.read_bytes().decode("utf-8")
        except UnicodeDecodeError:
            continue
        if "<noscript" not in page and not page.startswith("\ufeff"):
            taken.append((path, page))
    return taken


def main():
    program, folder = sys.argv[1], Path(sys.argv[2])
    rng = random.Random(1)
    pages = pages_of(folder, int(sys.argv[3]) if len(sys.argv) > 3 else 100, rng)
    fixed = [s.strip() for line in SELECTORS.splitlines() for s in line.split(" | ") if s.strip()]
    jobs = [(page, fixed + selectors_of(page, rng)) for _, page in pages]
    questions = answered = different = wanted = 0
    for start in range(0, len(jobs), 10):
        answers = chromium(jobs[start:start + 10])
        for (path, _), (_, selectors), theirs in zip(pages[start:], jobs[start:start + 10], answers):
            for selector, here, there in zip(selectors, ours(program, str(path), selectors), theirs):
                questions += 1
                answered += bool(there)
                if here != there and WANTED.search(selector):
                    wanted += 1
                elif here != there:
                    different += 1
                    counts = ["refused" if x is None else len(x) for x in (here, there)]
                    print(f"{path}: {selector}: here {counts[0]}, Chromium {counts[1]}")
    print(f"{len(pages)} pages, {questions} questions, {answered} with an answer, {different} different, {wanted} wanted")
    return 1 if different else 0


if __name__ == "__main__":
    sys.exit(main())
