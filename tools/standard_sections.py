#!/usr/bin/env python3
"""Writes docs/STANDARD.md: for each section of a standard that a definition names, the files where it is restated.

Run at the top of the repository, after a definition has come, gone or moved: python3 tools/standard_sections.py

A comment names its standard before the section, as `(URL Standard, section 4.3)`. Where it names none, it is the first one that the file
names, and else the HTML Standard.
"""
import collections
import glob
import re

STANDARD = r"(HTML Standard|DOM Standard|URL Standard|Infra Standard|Encoding Standard|CSS Syntax Level 3|Selectors Level 4|CommonMark)"
LIST = re.compile(STANDARD + r"?,? ?\(?sections? (\d+(?:\.\d+)+(?:(?:, | and | to )\d+(?:\.\d+)+)*)")
HEAD = """# From the standards' sections to files

Where each section of the [HTML Standard](https://html.spec.whatwg.org/multipage/), and of other standards, is restated:
crates, and files of their `specs/` that name it. `tools/standard_sections.py` writes this page from their comments;
worked examples are left out.
"""
# sections of a standard that the file doesn't name first
ELSEWHERE = {
    ("crates/html_selector_text/specs/Grammar.antt", "5.4.7"): "CSS Syntax Level 3",
    ("crates/html_selector_text/specs/Reading.antt", "5.4.8"): "CSS Syntax Level 3",
}
# what is read for its meaning comes before what says how the code goes
MEANING = ["html_tokens", "html_rules", "markup", "html_plain"]


def number(section):
    return [int(part) for part in section.split(".")]


def rank(file):
    crate = file.split("/")[1]
    return (MEANING.index(crate) if crate in MEANING else len(MEANING), file)


def follows(section, other):
    """Whether a section is the next one after another."""
    return number(section)[:-1] == number(other)[:-1] and number(section)[-1] == number(other)[-1] + 1


def spelled(sections):
    """Sections in order, where runs of neighbours are ranges."""
    runs = []
    for section in sections:
        if runs and follows(section, runs[-1][1]):
            runs[-1][1] = section
        else:
            runs.append([section, section])
    return ", ".join(first if first == last else f"{first} to {last}" for first, last in runs)


def named_files(files):
    """Files by crate: the crate, and the names of its files."""
    crates = {}
    for file in files:
        crate, name = file[len("crates/"):-len(".antt")].split("/specs/")
        crates.setdefault(crate, []).append(name)
    for crate, names in crates.items():
        yield f"`{crate}`: {', '.join(names)}"


def rows(found):
    """Sections in order, with their files; those with the same files that stand side by side are one row."""
    merged = []
    for section in sorted(found, key=number):
        files = sorted(found[section], key=rank)
        if merged and merged[-1][1] == files:
            merged[-1][0].append(section)
        else:
            merged.append(([section], files))
    for sections, files in merged:
        yield spelled(sections), "; ".join(named_files(files))


def main():
    found = collections.defaultdict(lambda: collections.defaultdict(set))
    for file in glob.glob("crates/*/specs/**/*.antt", recursive=True):
        if "RowsOf" in file:
            continue
        with open(file, encoding="utf-8") as it:
            # a comment's list of sections may go on in its next line
            text = re.sub(r"\n\s*-- ", " ", it.read())
        named = re.search(STANDARD, text)
        usual = named[1] if named else "HTML Standard"
        for match in LIST.finditer(text):
            for section in re.findall(r"\d+(?:\.\d+)+", match[2]):
                found[match[1] or ELSEWHERE.get((file, section), usual)][section].add(file)
    with open("docs/STANDARD.md", "w", encoding="utf-8") as page:
        page.write(HEAD)
        for standard in sorted(found, key=lambda it: (it != "HTML Standard", it)):
            page.write(f"\n## {standard}\n\n| Section | Definitions |\n|---|---|\n")
            for section, files in rows(found[standard]):
                page.write(f"| {section} | {files} |\n")


main()
