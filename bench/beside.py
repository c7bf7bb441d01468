"""What bench/beside.sh runs: programs that read a page and write it, in turns.

    beside.py FOLDER PROGRAM [PAGE]..

PROGRAM is the built html_normal, which gets the Standard's table of references; FOLDER has the peers html5ever_normal and
lexbor_normal, and gets beside.json with what was measured. Then deep pages are read, each twice as long as the one before, until a
program takes more than LIMIT seconds.
"""

import json
import os
import re
import statistics
import subprocess
import sys
import tempfile
from pathlib import Path

from normal import Page

TOP = Path(__file__).resolve().parent.parent
TABLE = TOP / "crates/bench_tokenizer/data/named_references.table"
ROUNDS = int(os.environ.get("ROUNDS", "9"))
MEGABYTES = float(os.environ.get("MEGABYTES", "10"))
LIMIT = 8
DEEP = {"nested <div>": ("", "<div>"), "<x> nested in <b>": ("<b>", "<x>")}


def run(command, page):
    """Returns the processor seconds that a program takes for a page."""
    process = os.fork()
    if process == 0:
        os.dup2(os.open(page, os.O_RDONLY), 0)
        nowhere = os.open(os.devnull, os.O_WRONLY)
        os.dup2(nowhere, 1)
        os.dup2(nowhere, 2)
        os.execv(command[0], command)
    _, status, used = os.wait4(process, 0)
    if status:
        sys.exit(f"{command[0]} ended with {status} on {page}")
    return used.ru_utime + used.ru_stime


def held(command, page):
    """Returns the megabytes that a program holds at most, by looking until it ends (`ru_maxrss` is at least this process's own)."""
    most = 0
    with open(page, "rb") as text, subprocess.Popen(command, stdin=text, stdout=subprocess.DEVNULL, stderr=subprocess.DEVNULL) as process:
        while process.poll() is None:
            status = Path(f"/proc/{process.pid}/status").read_text()
            most = max([most, *(int(it) for it in re.findall(r"VmHWM:\s+(\d+) kB", status))])
    return most / 1024


def measure(programs, page):
    """Returns for each program the median of its seconds, of their ratio to the first program's in the same round, and the most
    megabytes that it held in three runs."""
    seen = {name: [] for name in programs}
    for number in range(ROUNDS):
        # (each program is the first in turn)
        for name in list(programs)[:: 1 if number % 2 == 0 else -1]:
            seen[name].append(run(programs[name], page))
    ours, median = seen[next(iter(programs))], statistics.median
    return {
        name: {
            "seconds": median(rounds),
            "share": median(own / max(its, 1e-9) for own, its in zip(ours, rounds)),
            "megabytes": max(held(programs[name], page) for _ in range(3)),
        }
        for name, rounds in seen.items()
    }


def grow(programs, page, start, repeated):
    """Returns for each program the bytes of pages that repeat a tag, and the least of three times that each took."""
    found = {}
    for name, command in programs.items():
        found[name], count, seconds = [], 4_000, 0
        while seconds < LIMIT and count <= 512_000:
            page.write_text(start + repeated * count, encoding="utf-8")
            seconds = min(run(command, page) for _ in range(3 if seconds < 1 else 1))
            found[name].append([page.stat().st_size, seconds])
            count *= 2
    return found


def main():
    folder, program, *pages = sys.argv[1:]
    programs = {
        "figpliers": [program, str(TABLE)],
        "html5ever": [f"{folder}/html5ever_normal"],
        "lexbor": [f"{folder}/lexbor_normal"],
    }
    with tempfile.TemporaryDirectory() as room:
        made, empty = Path(room) / "made.html", Path(room) / "empty.html"
        made.write_text(Page(1).text(int(MEGABYTES * 1_000_000)), encoding="utf-8")
        empty.write_text("", encoding="utf-8")
        measured = []
        for label, page in [("bench/normal.sh's", made), ("empty", empty), *((Path(it).name, Path(it)) for it in pages)]:
            found = measure(programs, page)
            measured.append({"page": label, "bytes": page.stat().st_size, "programs": found})
            shares = "; ".join(f"{found[name]['share']:.2f} of {name}'s time" for name in list(programs)[1:])
            figures = ", ".join(f"{name} {it['seconds']:.3f} s {it['megabytes']:.1f} MB" for name, it in found.items())
            print(f"{label}, {page.stat().st_size:,} bytes: {shares} ({figures})", flush=True)
        growth = {label: grow(programs, made, *shape) for label, shape in DEEP.items()}
    found = {"rounds": ROUNDS, "measured": measured, "growth": growth}
    (Path(folder) / "beside.json").write_text(json.dumps(found, indent=1), encoding="utf-8")


if __name__ == "__main__":
    main()
