"""Writes the names, labels and single-byte tables of the Encoding Standard's encodings.

They are taken from the source of encoding_rs, as Debian's librust-encoding-rs-dev has it (its
licence is Apache-2.0 or MIT; the tables themselves are facts of the Standard). Run it when that
source changes:

    apt-get install librust-encoding-rs-dev
    python3 tools/encoding_tables.py
"""

import re
from pathlib import Path

ROOT = Path(__file__).resolve().parent.parent / "crates/html_encodings/src"
SOURCE = sorted(Path("/usr/share/cargo/registry").glob("encoding_rs-*/src"))[-1]
NAMES_HEAD = """//! The encodings of the Encoding Standard, and their labels (section 4.2): written by
//! `tools/encoding_tables.py`.

/// An encoding.
#[derive(Clone, Copy, Debug, PartialEq, Eq)]
pub enum Encoding {
"""
TABLES_HEAD = """//! What the bytes from 128 on are in each single-byte encoding (Encoding Standard, section 9): written by
//! `tools/encoding_tables.py`. 0 stands where a byte is nothing.
"""


def variant(name: str) -> str:
    """The name of an encoding as that of a variant: Iso8859_8I, Koi8R, Windows1252."""
    name = re.sub(r"^ISO-8859-(\d+)", r"Iso8859_\1", name)
    parts = re.split(r"-", name)
    parts = [part[:1].upper() + (part[1:] if "_" in part else part[1:].lower()) for part in parts]
    return "".join(parts).replace("Gb18030", "Gb18030").replace("Shift_JIS", "ShiftJis")


def sources():
    library = (SOURCE / "lib.rs").read_text()
    data = (SOURCE / "data.rs").read_text()
    part = library[library.index("static LABELS_SORTED") : library.index("static ENCODINGS_IN_LABEL_SORT")]
    labels = re.findall(r'"([^"]+)"', part)
    part = library[library.index("static ENCODINGS_IN_LABEL_SORT") :]
    codes = re.findall(r"&([A-Z0-9_]+)_INIT", part[: part.index("];")])
    assert len(labels) == len(codes) == 228
    names = dict(re.findall(r'pub static ([A-Z0-9_]+)_INIT: Encoding = Encoding \{\s*name: "([^"]+)"', library))
    part = data[data.index("pub static SINGLE_BYTE_DATA") :]
    tables = {}
    for found in re.finditer(r"(\w+): \[([^\]]*)\]", part[: part.index("\n};")]):
        values = [int(value, 16) for value in re.findall(r"0x[0-9A-Fa-f]+", found.group(2))]
        if len(values) == 128:
            tables[found.group(1).upper()] = values
    tables["ISO_8859_8_I"] = tables["ISO_8859_8"]
    return sorted(zip(labels, codes)), names, tables


def rows(values):
    return "".join("    " + " ".join(f"0x{value:04X}," for value in values[at : at + 12]) + "\n" for at in range(0, len(values), 12))


def main():
    labels, names, tables = sources()
    codes = sorted(set(code for _, code in labels), key=lambda code: [int(p) if p.isdigit() else p for p in re.split(r"(\d+)", code)])
    out = NAMES_HEAD
    for code in codes:
        out += f"    /// {names[code]}.\n    {variant(names[code])},\n"
    out += "}\n\n/// Each label with its encoding, in the order of the labels' bytes.\n#[rattlefmt::skip]\n"
    out += f"pub const LABELS: [(&'static str, Encoding); {len(labels)}] = [\n"
    for label, code in labels:
        out += f'    ("{label}", Encoding::{variant(names[code])}),\n'
    out += "];\n\nimpl Encoding {\n    /// The name, as the Standard writes it.\n    pub fn name(self) -> &'static str {\n        match self {\n"
    for code in codes:
        out += f'            Encoding::{variant(names[code])} => "{names[code]}",\n'
    out += "        }\n    }\n}\n"
    (ROOT / "names.rt").write_text(out)
    out = TABLES_HEAD
    for code in sorted(set(tables) - {"ISO_8859_8_I"}):
        out += f"\n#[rattlefmt::skip]\npub const {code}: [u16; 128] = [\n{rows(tables[code])}];\n"
    (ROOT / "tables.rt").write_text(out)
    single = [(variant(names[code]), "ISO_8859_8" if code == "ISO_8859_8_I" else code) for code in codes if code in tables]
    for name, code in single:
        print(f"{name} {code}")


if __name__ == "__main__":
    main()
