"""Runs a command that proves crates, and says before the last line of its output how many processor minutes it took, and each crate's
checks of them: seen by looking at the running processes twice a second, so that what ends sooner is in the sum alone.

    python3 tools/timed.py rt ci
"""

import os
import resource
import subprocess
import sys
import threading
import time
from collections import defaultdict
from pathlib import Path

TICKS = os.sysconf("SC_CLK_TCK") * 60


def crate_of(process):
    """Returns the name of the crate that a process checks or builds, if it does."""
    words = (process / "cmdline").read_bytes().decode(errors="replace").split("\0")
    if not words[0].endswith("rattle") or "--crate-name" not in words[:-1]:
        return None
    return words[words.index("--crate-name") + 1]


def minutes_of(process):
    """Returns how many processor minutes a process has taken, and those of its children that have ended."""
    fields = (process / "stat").read_text().rpartition(")")[2].split()
    return sum(int(it) for it in fields[11:15]) / TICKS


def look(seen, crates):
    """Notes how many minutes each process that checks a crate has taken so far."""
    for process in Path("/proc").glob("[0-9]*"):
        try:
            if process not in crates:
                crates[process] = crate_of(process)
            if crates[process]:
                seen[process, crates[process]] = minutes_of(process)
        except (OSError, ValueError, IndexError):
            crates.pop(process, None)


def watch(seen, has_ended):
    crates = {}
    while not has_ended.wait(0.5):
        look(seen, crates)
        crates = {process: crate for process, crate in crates.items() if process.exists()}


def main():
    if len(sys.argv) < 2:
        sys.exit(__doc__)
    seen, has_ended = {}, threading.Event()
    watching = threading.Thread(target=watch, args=(seen, has_ended), daemon=True)
    watching.start()
    begun, last = time.monotonic(), ""
    with subprocess.Popen(sys.argv[1:], stdout=subprocess.PIPE, text=True, errors="replace") as run:
        for line in run.stdout:
            print(last, end="", flush=True)
            last = line
    has_ended.set()
    watching.join()
    used, crates = resource.getrusage(resource.RUSAGE_CHILDREN), defaultdict(float)
    for (_, crate), minutes in seen.items():
        crates[crate] += minutes
    print(f"minutes by the clock: {(time.monotonic() - begun) / 60:.1f}")
    print(f"processor minutes: {(used.ru_utime + used.ru_stime) / 60:.1f}")
    for crate, minutes in sorted(crates.items(), key=lambda it: -it[1]):
        print(f"    {crate} {minutes:.1f}")
    print(last, end="", flush=True)
    sys.exit(run.returncode)


if __name__ == "__main__":
    main()
