"""What bench/selectors_beside.sh runs: two programs on one page, in turns.

    selectors_beside.py OURS LEXBOR_SELECT PAGE ROUNDS
"""

import re
import subprocess
import sys

SELECTORS = [
    "p", "a", ".code", "#main", "div p", "div > p", "body div p code", "ul ul li a", "h3 ~ p", "h3 + p", "tr:nth-child(odd)",
    "p:nth-child(3n+1)", "p:nth-of-type(2n)", ":nth-last-child(2)", "p:nth-child(2n+1 of .x)", "div:has(> p)", "div:has(p code)", ":has(a)",
    ":not(:has(*))", "p:has(~ pre)", 'a[href^="http"]', '[href*="R"]', ":is(h2, h3, h4) > a", "p:not(:first-child):not(:last-child)",
    "* * * *", "div div div div p", "* ~ * ~ *"]
LINE = re.compile(r"^(.*): (\d+) found, ([0-9.e-]+) s(?:, ([0-9.e-]+) s with an index)?$", re.M)


def asked(command, page):
    """How many elements each selector finds, and the microseconds that it took, in a process of its own: nothing was asked before."""
    rows = []
    for selector in SELECTORS:
        done = subprocess.run([*command, page, selector], capture_output=True, text=True, check=True)
        [(_, found, *times)] = LINE.findall(done.stderr)
        rows.append((int(found), [1e6 * float(t) for t in times if t]))
    return rows


def least(one, other):
    """Two measurements as one, of the same numbers of elements."""
    return [(a[0], [min(s, t) for s, t in zip(a[1], b[1])]) for a, b in zip(one, other)]


def main():
    ours, lexbor, page, rounds = [sys.argv[1], "select"], [sys.argv[2]], sys.argv[3], int(sys.argv[4])
    here, there = asked(ours, page), asked(lexbor, page)
    for _ in range(rounds - 1):
        here, there = least(here, asked(ours, page)), least(there, asked(lexbor, page))
    missed = 0
    print("| Selector | found | lexbor | asked once | index kept |\n|---|---|---|---|---|")
    for selector, (found, (kept, once)), (theirs, (time,)) in zip(SELECTORS, here, there):
        missed += found != theirs or once > 1.2 * time or kept > time
        shown = found if found == theirs else f"{found}, lexbor {theirs}"
        print(f"| `{selector}` | {shown} | {time:.0f} | {once:.0f} ({once / time:.2f}) | {kept:.0f} ({kept / time:.2f}) |")
    return 1 if missed else 0


if __name__ == "__main__":
    sys.exit(main())
