#!/usr/bin/env python3
"""How the time of a search grows with the page and with the selector.

    (cd crates/bench_pages && rt run)
    python3 bench/selector_growth.py crates/bench_pages/out/bench_pages [COUNT] [ROUNDS]

Each page below has COUNT elements (5,000 by default), then twice, four and eight times as many; and each selector is made longer on a page of
COUNT elements. A row has milliseconds, the best of ROUNDS (5 by default), and how many times as long the largest takes as the smallest. The
status is 1 where eight times as much takes more than 24 times as long.

With 0 for ROUNDS a row has millions of instructions instead, which are the same on a busy machine: of a search with an index that is there,
one with an index that is made, and the listing of what is found, without the page's parsing. It needs valgrind. The status is 1 where eight
times as much takes more than 12 times as many.
"""

import re
import subprocess
import sys
import tempfile
from pathlib import Path

NAMES = ["p", "a", "b", "i", "em", "code", "span", "u"]

# what a page is of so many elements, and what is asked of it
PAGES = [
    ("nested div", lambda n: "<div>" * n, [
        "a div div div p", "div > div > p", "div:has(p code)", "div:has(div div p)", "div:nth-of-type(1)", "div div div div div"]),
    ("p side by side", lambda n: "<p>x</p>" * n, [
        "p:nth-child(odd)", "a ~ p", "p ~ p ~ p", "p + p", "p:has(~ pre)", "p:has(~ p ~ a)", ":nth-child(2n of p)", ":nth-last-of-type(2n)"]),
    ("elements of eight names side by side", lambda n: "".join(f"<{NAMES[i % 8]}></{NAMES[i % 8]}>" for i in range(n)), [
        ":nth-last-of-type(odd)", "a:nth-of-type(3n)", ":nth-last-child(2n of a, b)"]),
    ("elements of different names side by side", lambda n: "".join(f"<x{i}></x{i}>" for i in range(n)), [":nth-of-type(odd)"]),
    ("values of 40 characters", lambda n: f"<p title='{'a' * 39}b'></p>" * n, [
        "[title*=aab]", "[title*=AAB i]", "[title~=ab]", "[title$=aab]"]),
    ("one value of as many characters", lambda n: f"<p title='{'a' * n}'></p>", ["[title*='" + "a" * 40 + "b']"]),
    ("lists of ten items", lambda n: "<ul>" + ("<li><a href=x>" + "<b>x</b>" * 8 + "</a></li>") * (n // 10) + "</ul>", [
        "ul > li a b:not(:first-child)", "li:has(a > b:last-child)", ":is(ul, ol) :where(a, i) > b"]),
]

# selectors of so many parts, on one page
LENGTHS = [
    ("nested div", "<div>", [
        ("a div .. div", lambda n: "a" + " div" * n), ("div > .. > div", lambda n: " > ".join(["div"] * n)),
        ("div:not(a):not(a)..", lambda n: "div" + ":not(a)" * n), ("div:has(a, .. a)", lambda n: "div:has(" + ", ".join(["a"] * n) + ")")]),
    ("p side by side", "<p></p>", [
        ("a ~ p ~ .. p", lambda n: "a" + " ~ p" * n), (":nth-child(2n), ..", lambda n: ", ".join([":nth-child(2n)"] * n)),
        ("p:has(~ p ~ .. a)", lambda n: "p:has(" + "~ p " * n + "~ a)")]),
]


def seconds(program, page, selectors, rounds):
    """The least time of each selector on a page."""
    with tempfile.TemporaryDirectory() as folder:
        path = Path(folder) / "page.html"
        path.write_text("<!doctype html><title>t</title><body>" + page)
        best = [float("inf")] * len(selectors)
        for _ in range(rounds):
            done = subprocess.run([program, "select", str(path), *selectors], capture_output=True, text=True, check=True)
            assert "refused" not in done.stdout
            times = [float(t) for t in re.findall(r" found, ([0-9.e-]+) s, ", done.stderr)]
            assert len(times) == len(selectors)
            best = [min(a, b) for a, b in zip(best, times)]
    return best


def instructions(program, page, selectors):
    """The thousands of millions of instructions that each selector takes on a page."""
    with tempfile.TemporaryDirectory() as folder:
        path = Path(folder) / "page.html"
        path.write_text("<!doctype html><title>t</title><body>" + page)
        counts = []
        for words in [[], *[[selector] for selector in selectors]]:
            run = ["valgrind", "--tool=callgrind", "--callgrind-out-file=/dev/null", program, "select", str(path), *words]
            done = subprocess.run(run, capture_output=True, text=True, check=True)
            counts.append(int(re.search(r"Collected : (\d+)", done.stderr)[1]))
        return [(count - counts[0]) / 1e9 for count in counts[1:]]


def show(what, selector, times, most):
    """A row of the table; whether it grows more than so many times."""
    growth = times[-1] / times[0]
    print(f"| {what} | `{selector}` | {', '.join(f'{1000 * t:.2f}' for t in times)} | {growth:.1f} |", flush=True)
    return growth > most


def main():
    program = sys.argv[1]
    count = int(sys.argv[2]) if len(sys.argv) > 2 else 5000
    rounds = int(sys.argv[3]) if len(sys.argv) > 3 else 5
    unit, most = ("ms", 24) if rounds else ("millions of instructions", 12)

    def taken(page, selectors):
        return seconds(program, page, selectors, rounds) if rounds else instructions(program, page, selectors)

    too_fast = 0
    print(f"| Page | Selector | {unit} | growth |\n|---|---|---|---|")
    for what, page, selectors in PAGES:
        rows = zip(*[taken(page(size), selectors) for size in (count, 2 * count, 4 * count, 8 * count)])
        for selector, times in zip(selectors, rows):
            too_fast += show(what, selector, times, most)
    print(f"\n| Page | Selector of 10, 20, 40 and 80 parts | {unit} | growth |\n|---|---|---|---|")
    for what, element, selectors in LENGTHS:
        rows = zip(*[taken(element * count, [make(parts) for _, make in selectors]) for parts in (10, 20, 40, 80)])
        for (name, _), times in zip(selectors, rows):
            too_fast += show(what, name, times, most)
    return 1 if too_fast else 0


if __name__ == "__main__":
    sys.exit(main())
