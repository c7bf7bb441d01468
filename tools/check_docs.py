#!/usr/bin/env python3
"""Checks that what the documentation names is there.

For README.md, CONTRIBUTING.md, all of docs/ and bindings/ and the README.md of each crate it checks
  - each relative link: its file, and the heading that it points to;
  - each file or folder that is named in backticks with a slash or with an extension of this repository;
  - each crate that a command in a code block enters, and each script that it runs;
  - each crate of crates.txt that docs/ARCHITECTURE.md should list, and each that it lists;
  - the files of docs/shell: that tools/shell_files.py writes just them.

    python3 tools/check_docs.py

prints `N names, 0 missing`, or each that is missing with its file and line, and exits with status 1.
"""
import os
import re
import sys

import shell_files

ROOT = os.path.dirname(os.path.dirname(os.path.abspath(__file__)))
EXTENSIONS = (".rt", ".antt", ".py", ".sh", ".md", ".edit", ".tsv", ".dat", ".c", ".h", ".rs")
# what a user or a tool makes, and files of others that are spoken of
ELSEWHERE = re.compile(r"^(/|~|http|\.\./|Cargo\.|src/main\.rs$|neon/|avx512f|PAGE|FILE|NAME)|(^|/)out(/|$)")


def repository_files():
    files = []
    for folder, folders, names in os.walk(ROOT):
        folders[:] = [f for f in folders if f not in (".git", "out")]
        for name in names:
            files.append(os.path.relpath(os.path.join(folder, name), ROOT))
    return files


def documents(files):
    top = [f for f in files if f in ("README.md", "CONTRIBUTING.md")]
    below = [f for f in files if f.startswith(("docs/", "bindings/")) and f.endswith(".md")]
    return sorted(top + below + [f for f in files if re.fullmatch(r"crates/\w+/README\.md", f)])


def heading_anchor(line):
    text = re.sub(r"[`*_\[\]()]", "", line.lstrip("#").strip().lower())
    return re.sub(r"[^\w\- ]", "", text).replace(" ", "-")


def anchors_of(path):
    with open(os.path.join(ROOT, path), encoding="utf-8") as page:
        return {heading_anchor(line) for line in page if line.startswith("#")}


def link_is_there(document, target):
    path, _, anchor = target.partition("#")
    full = os.path.normpath(os.path.join(os.path.dirname(document), path)) if path else document
    if not os.path.exists(os.path.join(ROOT, full)):
        return False
    return not anchor or not full.endswith(".md") or anchor in anchors_of(full)


def name_is_there(name, files, folders):
    # modules are named with their extension or without it
    for wanted in (name.rstrip("/"), name + ".antt", name + ".rt"):
        if wanted in folders or wanted in files:
            return True
        if any(there.endswith("/" + wanted) for there in files) or any(there.endswith("/" + wanted) for there in folders):
            return True
    return False


def is_name(word):
    if re.search(r"[\s*{}<>$|=,;:()]", word):
        return False
    if word.endswith(EXTENSIONS):
        return True
    return re.match(r"^(crates|docs|tools|bench|bindings|specs|proofs|src|must-fail)/", word) is not None


def commands_names(line):
    for crate in re.findall(r"\bcd crates/([\w-]+)", line):
        yield "crates/" + crate
    for script in re.findall(r"\b(?:tools|bench|bindings)/[\w./-]+\.(?:py|sh)\b", line):
        yield script


def check(document, files, folders):
    missing = []
    count = 0
    in_code = False
    with open(os.path.join(ROOT, document), encoding="utf-8") as page:
        for number, line in enumerate(page, 1):
            if line.startswith("```"):
                in_code = not in_code
                continue
            code = in_code or line.startswith("    ")
            names = list(commands_names(line))
            if not code:
                for target in re.findall(r"\]\(([^)\s]+)\)", line):
                    if re.match(r"^[a-z]+:", target):
                        continue
                    count += 1
                    if not link_is_there(document, target):
                        missing.append((number, target))
                names += [w for w in re.findall(r"`([^`]+)`", line) if is_name(w)]
            for name in (n for n in names if not ELSEWHERE.search(n)):
                count += 1
                if not name_is_there(name, files, folders):
                    missing.append((number, name))
    return count, missing


def crates_listed():
    with open(os.path.join(ROOT, "crates.txt"), encoding="utf-8") as lines:
        named = {line.split(":")[0].split()[0] for line in lines if ":" in line and not line.startswith("#")}
    with open(os.path.join(ROOT, "docs/ARCHITECTURE.md"), encoding="utf-8") as page:
        listed = set(re.findall(r"^\| `([a-z0-9_]+)`", page.read(), re.MULTILINE))
    return named, listed


def main():
    files = set(repository_files())
    folders = {os.path.dirname(f) for f in files}
    for folder in list(folders):
        while folder:
            folders.add(folder)
            folder = os.path.dirname(folder)
    total = 0
    bad = 0
    for document in documents(files):
        count, missing = check(document, files, folders)
        total += count
        bad += len(missing)
        for number, name in missing:
            print(f"{document}:{number}: {name}")
    named, listed = crates_listed()
    total += len(named)
    for crate in sorted(named - listed):
        bad += 1
        print(f"docs/ARCHITECTURE.md: lists no crate {crate}")
    for crate in sorted(listed - named):
        bad += 1
        print(f"docs/ARCHITECTURE.md: lists {crate}, which crates.txt has not")
    for name in shell_files.stale():
        bad += 1
        print(f"docs/shell/{name}: is not what tools/shell_files.py writes")
    print(f"{total} names, {bad} missing")
    return 1 if bad else 0


if __name__ == "__main__":
    sys.exit(main())
