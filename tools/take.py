"""Copies crates of Figpliers, with all that they stand on, into a repository of one's own.

    python3 tools/take.py REPOSITORY CRATE..       at the top of Figpliers
    python3 tools/take.py --check REPOSITORY

The crates go into REPOSITORY/crates, and their lines into its crates.txt. Figpliers' license goes to
REPOSITORY/LICENSE-figpliers: it has to stay with the copies. Run again, it brings the copies up to
date: a copy has just the files that the crate has here, but for its out/. Edits that the prover must
refuse (must-fail/) stay behind: they are Figpliers' own gate. `--check` lists the files of copies
that are not as they are here, and ends with 1 where there are any.
"""

import filecmp
import shutil
import sys
from pathlib import Path

ROOT = Path(__file__).resolve().parent.parent
LEFT_BEHIND = ("out", "must-fail")
LICENSE = ROOT / "LICENSE"


def crates_of(text: str) -> dict[str, str]:
    """The line of each crate, by its name."""
    lines = [line.split("#")[0].strip() for line in text.splitlines()]
    return {line.partition(":")[0].split()[0]: line for line in lines if line}


def below(crates: dict[str, str], wanted: list[str]) -> list[str]:
    """The crates and all that they stand on; what is no crate here is the kit's."""
    found: list[str] = []
    left = list(wanted)
    while left:
        name = left.pop()
        if name in crates and name not in found:
            found.append(name)
            left += crates[name].partition(":")[2].split()
    return sorted(found)


def files_of(crate: Path) -> set[Path]:
    """The files of a crate that a copy has."""
    files = (file.relative_to(crate) for file in crate.rglob("*") if file.is_file())
    return {file for file in files if file.parts[0] not in LEFT_BEHIND}


def differing(crate: Path, copy: Path) -> list[Path]:
    """The files that a crate and its copy do not have alike."""
    files = sorted(files_of(crate) | files_of(copy))
    return [
        file
        for file in files
        if not (crate / file).is_file()
        or not (copy / file).is_file()
        or not filecmp.cmp(crate / file, copy / file, shallow=False)
    ]


def take(crate: Path, copy: Path) -> None:
    """Makes a copy what the crate is."""
    for file in differing(crate, copy):
        if (crate / file).is_file():
            (copy / file).parent.mkdir(parents=True, exist_ok=True)
            shutil.copyfile(crate / file, copy / file)
        else:
            (copy / file).unlink()


def has_license(target: Path) -> bool:
    """Whether a repository has the license of the copies."""
    copy = license_in(target)
    return copy.is_file() and filecmp.cmp(LICENSE, copy, shallow=False)


def license_in(target: Path) -> Path:
    """Where the license of the copies is."""
    return target / "LICENSE-figpliers"


def main(words: list[str]) -> int:
    ours = crates_of((ROOT / "crates.txt").read_text())
    if len(words) < 2:
        sys.exit(__doc__)
    if words[0] == "--check":
        target = Path(words[1])
        theirs = crates_of((target / "crates.txt").read_text())
        copies = [target / "crates" / name for name in sorted(set(ours) & set(theirs))]
        changed = [copy / file for copy in copies for file in differing(ROOT / "crates" / copy.name, copy)]
        changed += [target / "crates.txt" for name in set(ours) & set(theirs) if ours[name] != theirs[name]]
        changed += [] if has_license(target) else [license_in(target)]
        for file in changed:
            print(file)
        return 1 if changed else 0
    target, wanted = Path(words[0]), words[1:]
    unknown = [name for name in wanted if name not in ours]
    if unknown:
        sys.exit("no such crate: " + " ".join(unknown))
    lines = target / "crates.txt"
    theirs = lines.read_text().splitlines() if lines.exists() else []
    names = below(ours, wanted)
    for name in names:
        take(ROOT / "crates" / name, target / "crates" / name)
    shutil.copyfile(LICENSE, license_in(target))
    kept = [line for line in theirs if not set(crates_of(line)) & set(names)]
    lines.write_text("".join(line + "\n" for line in kept + [ours[name] for name in names]))
    print(f"{len(names)} crates:", " ".join(names))
    return 0


sys.exit(main(sys.argv[1:]))
