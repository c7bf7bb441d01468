"""Prints what a definition hangs on: all definitions of this repository that it cites, and those that these cite, by crate.

    closure.py [--names] [CRATE/FILE NAME ..]

FILE is a file of the crate's specs/ without `.antt`, NAME a definition in it; without them, the definitions that the contract of
`normalise` cites. The lines of a definition are those from its comment to the next one. `--names` prints each definition. What is
declared in src/ (types, constants) is counted by itself. Definitions are found by their names in the text, so that a name which
only stands in a comment within a definition counts too. Checked by nobody; run by hand.
"""

import collections
import os
import re
import sys

TOP = os.path.join(os.path.dirname(os.path.abspath(__file__)), "..", "crates")
# not the value `record s { f = .. }`, which begins as the declaration of a record does
HEAD = re.compile(
    r"^(\s*)(?!record\s+\S+\s+\{\s*(?:\S+ =|$))(?:(?:abbrev|unfoldable|pub|record|data|ruleset)\s+)*"
    r"(?:abbrev|unfoldable|pub|record|data)\s+(?:pub\s+)?(?:record\s+|data\s+)?(\S+)\s*(?::|\(|\{)"
)
PLAIN = re.compile(r"^(\s*)([^\s:()]+)\s+:\s")
USE = re.compile(r"^\s*(?:pub\s+)?use\s+(\S+?)(?:\.\{([^}]*)\})?(?:\s+as\s+(\S+))?\s*$")
WORD = re.compile(r"[^\s(){}\[\],;λ.]+(?:\.[^\s(){}\[\],;λ.]+)*")
NORMALISE = [
    "html_normal/Normal IsNormalised",
    "html_normal/Normal IsFailed",
    "html_normal/Normal CountsReads",
    "html_normal/Normal is_write_fault",
    "devices/Devices count_after",
]


class File:
    """A file of specs/: its definitions with their text, and what its `use` lines bring in."""

    def __init__(self, crate, path):
        self.crate, self.definitions, self.names, self.modules = crate, {}, {}, {}
        name, begun, comment, fields = None, [], [], False
        for line in open(path, encoding="utf-8"):
            use = USE.match(line)
            if use:
                self.bring(*use.groups())
                continue
            head = HEAD.match(line) or PLAIN.match(line)
            indent = len(line) - len(line.lstrip())
            if head and not (fields is not False and indent > fields):
                name = head.group(2)
                fields = indent if re.search(r"\b(record|data)\b", line.split(name)[0]) else False
                begun = self.definitions.setdefault(name, [])
                begun.extend(comment)
                comment = []
            if line.lstrip().startswith("--") and not line.startswith("   "):
                comment.append(line)
            elif name and line.strip() and not line.startswith("module "):
                begun.append(line)
                comment = []

    def bring(self, path, names, alias):
        if names is None:
            self.modules[alias or path.split(".")[-1]] = path
            return
        for item in names.split(","):
            first, _, second = item.strip().partition(" as ")
            if first:
                self.names[(second or first).strip()] = (path, first.strip())


def specs():
    files = {}
    for crate in sorted(os.listdir(TOP)):
        folder = os.path.join(TOP, crate, "specs")
        for root, _, names in os.walk(folder):
            for name in names:
                if name.endswith(".antt") and name != "Lib.antt":
                    path = os.path.join(root, name)
                    inside = os.path.relpath(path, folder)[:-5].replace(os.sep, ".")
                    files[f"Rattle.{crate}.specs.{inside}"] = File(crate, path)
    return files


FILES = specs()
DECLARED = collections.Counter()


def find(module, name, seen=()):
    """The file and name under which a definition stands, past `pub use` lines."""
    if ".specs.declared." in module:
        DECLARED[(module.split(".")[1], module.split(".declared.")[1].split(".The")[0])] += 1
        return None
    file = FILES.get(module)
    if file is None or (module, name) in seen:
        return None
    if name in file.definitions:
        return module, name
    if name in file.names:
        return find(*file.names[name], seen + ((module, name),))
    return None


def operators(word):
    """Names of operators that a word may stand for."""
    return (word, f"◌{word}◌", f"if◌then◌else◌" if word == "if" else word)


def cited(module, name):
    file = FILES[module]
    for line in file.definitions[name]:
        if line.lstrip().startswith("--"):
            continue
        for word in WORD.findall(line):
            for part in operators(word):
                if part in file.definitions and part != name:
                    yield module, part
                elif part in file.names:
                    found = find(*file.names[part])
                    if found:
                        yield found
            first, _, last = word.rpartition(".")
            if first in file.modules:
                found = find(file.modules[first], last)
                if found:
                    yield found


def closure(begin):
    done, left = {}, list(begin)
    while left:
        at = left.pop()
        if at not in done:
            done[at] = len(FILES[at[0]].definitions[at[1]])
            left.extend(cited(*at))
    return done


def main():
    words = sys.argv[1:]
    names = "--names" in words
    words = [word for word in words if word != "--names"]
    pairs = [" ".join(words[i : i + 2]) for i in range(0, len(words), 2)] or NORMALISE
    begin = []
    for pair in pairs:
        place, name = pair.split(" ")
        crate, _, inside = place.partition("/")
        found = find(f"Rattle.{crate}.specs.{inside.replace('/', '.')}", name)
        if found is None:
            sys.exit(f"no definition {name} in {place}")
        begin.append(found)
    done = closure(begin)
    crates = collections.defaultdict(lambda: [0, 0, collections.Counter()])
    for (module, name), lines in done.items():
        row = crates[FILES[module].crate]
        row[0] += 1
        row[1] += lines
        row[2][module.split(".specs.")[1]] += lines
    for crate, (count, lines, inside) in sorted(crates.items()):
        print(f"{crate}: {count} definitions, {lines} lines in {len(inside)} files")
        if names:
            for module, some in sorted(inside.items()):
                print(f"    {module}: {some} lines")
                here = sorted(name for m, name in done if m == f"Rattle.{crate}.specs.{module}")
                print("        " + ", ".join(here))
    print(f"in all {len(done)} definitions, {sum(done.values())} lines")
    types = collections.Counter(crate for crate, _ in DECLARED)
    print("declared in src/: " + ", ".join(f"{count} of {crate}" for crate, count in sorted(types.items())))


main()
