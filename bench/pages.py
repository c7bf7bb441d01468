"""How fast two tokenizers read pages: pages.py OURS THEIRS PAGE.. (see pages.sh)."""

import os
import re
import statistics
import subprocess
import sys

ROUNDS = 9
TABLE = os.path.join(os.path.dirname(os.path.abspath(__file__)), "../crates/bench_tokenizer/data/named_references.table")


def ours(program, page):
    """The seconds that our tokenizer takes for a page, and what it counted."""
    done = subprocess.run([program, page, TABLE], capture_output=True, text=True, check=True)
    return float(re.search(r"exact_errors=false: (\S+) s", done.stderr)[1]), done.stdout.splitlines()[1]


def theirs(program, page):
    """The seconds that the other one takes, and what it counted."""
    done = subprocess.run([program, page, "4096", "1", "0"], capture_output=True, text=True, check=True)
    return float(done.stdout.split()[0]), done.stderr.strip()


def main():
    program, other, *pages = sys.argv[1:]
    ratios = []
    for page in pages:
        rounds = [(ours(program, page), theirs(other, page)) for _ in range(ROUNDS)]
        ratio = statistics.median(b[0] / a[0] for a, b in rounds)
        ratios.append(ratio)
        (seconds, counted), (_, counted_there) = rounds[0]
        size = os.path.getsize(page)
        print(f"{page}: {size} bytes, {size / statistics.median(a[0] for a, _ in rounds) / 1e6:.0f} MB a second, {ratio:.2f} times as fast")
        print(f"  {counted}\n  {counted_there}")
    print(f"median of {len(pages)} pages: {statistics.median(ratios):.2f} times as fast")


main()
