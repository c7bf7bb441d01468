"""Says which files `rt fmt` would change, and changes none: the gate refuses a crate that has one, and then each crate above it.

    python3 tools/layout.py
"""

import filecmp
import shutil
import subprocess
import sys
import tempfile
from pathlib import Path

TOP = Path(__file__).resolve().parent.parent
PARTS = ("src", "specs", "proofs")


def copy_to(room):
    """Copies the texts of all crates."""
    shutil.copy(TOP / "crates.txt", room)
    for crate in sorted((TOP / "crates").iterdir()):
        for part in PARTS:
            if (crate / part).is_dir():
                shutil.copytree(crate / part, room / "crates" / crate.name / part)


def changed_in(room):
    """Returns the files that are otherwise there."""
    files = [it.relative_to(room) for part in PARTS for it in sorted(room.glob(f"crates/*/{part}/**/*")) if it.is_file()]
    return [it for it in files if not filecmp.cmp(room / it, TOP / it, shallow=False)]


def main():
    with tempfile.TemporaryDirectory() as folder:
        room = Path(folder)
        copy_to(room)
        for crate in sorted((room / "crates").iterdir()):
            subprocess.run(["rt", "fmt"], cwd=crate, stdout=subprocess.DEVNULL, check=True)
        changed = changed_in(room)
    print(*changed, f"{len(changed)} files that rt fmt would change", sep="\n")
    return bool(changed)


if __name__ == "__main__":
    sys.exit(main())
