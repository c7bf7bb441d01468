"""Writes the named character references of the HTML Standard (section 13.5) as a table.

A line for each name: the name without its ampersand, a space, and the one or two values in
hexadecimal, in the order of the names. It lies where the program that checks it runs, and as a
text in the crate that has it built in.

    python3 tools/named_references.py
"""

from html.entities import html5
from pathlib import Path

ROOT = Path(__file__).resolve().parent.parent
FILE = "crates/bench_tokenizer/data/named_references.table"
SOURCE = "crates/html_standard_references/src/rows.rt"
WIDTH = 130
HEAD = """//! The table of the Standard as a text: written by `tools/named_references.py`.

/// A line for each of the 2,231 names: the name, a space, and the one or two values in hexadecimal.
#[rattlefmt::skip]
pub const STANDARD_ROWS: &str = "\\
"""


def row(name: str) -> str:
    values = " ".join(f"{ord(character):X}" for character in html5[name])
    return f"{name} {values}\n"


def lines(rows: list[str]) -> str:
    """The rows as they stand in a string of Rattle, as many as fit in a line."""
    text, line = "", ""
    for it in rows:
        spelled = it.replace("\n", "\\n")
        if len(line) + len(spelled) > WIDTH:
            text += line + "\\\n"
            line = ""
        line += spelled
    return text + line


rows = [row(name) for name in sorted(html5)]
(ROOT / FILE).write_text("".join(rows), encoding="ascii")
(ROOT / SOURCE).write_text(HEAD + lines(rows) + '";\n', encoding="ascii")
