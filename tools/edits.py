"""Tries the must-fail edits of crates: those that the gate tries (crates/NAME/must-fail) and those of crates whose proof takes too long to be
repeated at each merge (tools/edits/NAME, docs/GATE.md). The checker must refuse each of them.

    python3 tools/edits.py NAME..     tries the edits of these crates, which were proved with what is below them (rt check)
    python3 tools/edits.py --check    looks whether each edit of tools/edits can be applied, and proves nothing
"""

import shutil
import subprocess
import sys
from pathlib import Path

TOP = Path(__file__).resolve().parent.parent
APART = TOP / "tools" / "edits"


def fault_of(edit, crate):
    """Returns why an edit can't be applied to its crate, or nothing."""
    texts, path, old, changes = {}, None, None, 0
    for line in edit.read_text(encoding="utf-8").split("\n"):
        if line.startswith("file: "):
            path = crate / line.removeprefix("file: ").strip()
            if path not in texts:
                texts[path] = path.read_text(encoding="utf-8") if path.is_file() else ""
        elif line.startswith("old: "):
            old = line.removeprefix("old: ")
        elif line.startswith("new:") and path and old:
            found = texts[path].count(old)
            if found != 1:
                return f"what it replaces is in {path.relative_to(crate)} {found} times, and not once"
            texts[path] = texts[path].replace(old, line.removeprefix("new:").removeprefix(" "))
            old, changes = None, changes + 1
    return None if changes else "it changes nothing"


def check():
    faults = [
        f"{edit.relative_to(TOP)}: {fault}"
        for edit in sorted(APART.glob("*/*.edit"))
        for fault in [fault_of(edit, TOP / "crates" / edit.parent.name)]
        if fault
    ]
    print(*faults, f"{len(list(APART.glob('*/*.edit')))} edits, {len(faults)} that can't be applied", sep="\n")
    return bool(faults)


def put_in(name):
    """Copies the edits of a crate from tools/edits into its folder must-fail, and returns the copies."""
    folder = TOP / "crates" / name / "must-fail"
    edits = sorted((APART / name).glob("*.edit"))
    if edits:
        folder.mkdir(exist_ok=True)
    return [Path(shutil.copy(edit, folder)) for edit in edits]


def take_out(copies):
    for copy in copies:
        copy.unlink()
        if not any(copy.parent.iterdir()):
            copy.parent.rmdir()


def main():
    if len(sys.argv) < 2:
        sys.exit(__doc__)
    if sys.argv[1:] == ["--check"]:
        sys.exit(check())
    copies = []
    try:
        for name in sys.argv[1:]:
            copies += put_in(name)
        sys.exit(subprocess.run(["rt", "must-fail", *sys.argv[1:]], cwd=TOP).returncode)
    finally:
        take_out(copies)


main()
