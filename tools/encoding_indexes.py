"""Writes the indexes of the Encoding Standard's encodings of several bytes (section 5).

They are taken from what encoding_rs decodes, as Debian's librust-encoding-rs-dev has it (its licence
is Apache-2.0 or MIT; the indexes themselves are facts of the Standard), by a small program that is
built here with cargo. That version stands before the change of 2023 by which 18 pointers of gb18030
are no longer in the private use area (GB18030-2022); the script makes it. Run it when that source
changes:

    apt-get install librust-encoding-rs-dev
    python3 tools/encoding_indexes.py
"""

import subprocess
import tempfile
from pathlib import Path

ROOT = Path(__file__).resolve().parent.parent / "crates/html_encodings_multibyte/src"
REGISTRY = Path("/usr/share/cargo/registry")
SOURCE = sorted(REGISTRY.glob("encoding_rs-*"))[-1]
SUPPORT = sorted(REGISTRY.glob("cfg-if-*"))[-1]
MANIFEST = f"""[package]
name = "pairs"
version = "0.1.0"
edition = "2021"
[dependencies]
encoding_rs = {{ path = "{SOURCE}" }}
[patch.crates-io]
cfg-if = {{ path = "{SUPPORT}" }}
"""
PROGRAM = """use encoding_rs::*;
fn show(name: &str, encoding: &'static Encoding, bytes: &[u8]) {
    if let Some(text) = encoding.decode_without_bom_handling_and_without_replacement(bytes) {
        let codes: Vec<String> = text.chars().map(|c| (c as u32).to_string()).collect();
        let bytes: Vec<String> = bytes.iter().map(|b| b.to_string()).collect();
        println!("{name} {} {}", bytes.join(","), codes.join(","));
    }
}
fn main() {
    for (name, encoding) in [("gb18030", GB18030), ("big5", BIG5), ("euc-kr", EUC_KR), ("shift_jis", SHIFT_JIS), ("euc-jp", EUC_JP)] {
        for lead in 0x81..=0xFEu8 {
            for trail in 0x30..=0xFEu8 {
                show(name, encoding, &[lead, trail]);
            }
        }
    }
    for lead in 0xA1..=0xFEu8 {
        for trail in 0xA1..=0xFEu8 {
            show("jis0212", EUC_JP, &[0x8F, lead, trail]);
        }
    }
    for first in 0x81..=0x84u8 {
        for second in 0x30..=0x39u8 {
            for third in 0x81..=0xFEu8 {
                for fourth in 0x30..=0x39u8 {
                    show("ranges", GB18030, &[first, second, third, fourth]);
                }
            }
        }
    }
}
"""
# what GB18030-2022 moved out of the private use area
MOVED = {
    0xA6D9: 0xFE10, 0xA6DA: 0xFE12, 0xA6DB: 0xFE11, 0xA6DC: 0xFE13, 0xA6DD: 0xFE14, 0xA6DE: 0xFE15, 0xA6DF: 0xFE16,
    0xA6EC: 0xFE17, 0xA6ED: 0xFE18, 0xA6F3: 0xFE19, 0xFE59: 0x9FB4, 0xFE61: 0x9FB5, 0xFE66: 0x9FB6, 0xFE67: 0x9FB7,
    0xFE6D: 0x9FB8, 0xFE7E: 0x9FB9, 0xFE90: 0x9FBA, 0xFEA0: 0x9FBB,
}  # fmt: skip
HEAD = """//! {title} (Encoding Standard, section 5), by pointer: written by
//! `tools/encoding_indexes.py`. 0 stands where a pointer has nothing.

#[rattlefmt::skip]
pub const {name}: [{kind}; {length}] = [
"""


def pairs():
    """What is decoded from each pair of bytes, by name and bytes."""
    with tempfile.TemporaryDirectory() as folder:
        place = Path(folder)
        (place / "src").mkdir()
        (place / "Cargo.toml").write_text(MANIFEST)
        (place / "src/main.rs").write_text(PROGRAM)
        run = ["cargo", "run", "--release", "--offline", "--quiet"]
        lines = subprocess.run(run, cwd=place, capture_output=True, text=True, check=True).stdout.splitlines()
    found = {}
    for line in lines:
        name, bytes_, codes = line.split(" ")
        found.setdefault(name, {})[tuple(map(int, bytes_.split(",")))] = list(map(int, codes.split(",")))
    return found


def trimmed(index):
    while index[-1] == 0:
        index.pop()
    return index


def a_row(kind):
    """How many entries of a type stand in a row."""
    return 14 if kind == "u32" else 16


def write(file, title, name, kind, index):
    digits, many = 5 if kind == "u32" else 4, a_row(kind)
    rows = "".join("    " + " ".join(f"0x{v:0{digits}X}," for v in index[at : at + many]) + "\n" for at in range(0, len(index), many))
    (ROOT / file).write_text(HEAD.format(title=title, name=name, kind=kind, length=len(index)) + rows + "];\n")


def write_parts(stem, title, name, kind, index):
    """Writes an index in two parts, where one file would have more than 800 lines."""
    many = a_row(kind)
    middle = -(-len(index) // (2 * many)) * many
    write(f"{stem}_low.rt", f"{title} below pointer {middle:,}", f"{name}_LOW", kind, index[:middle])
    write(f"{stem}_high.rt", f"{title} from pointer {middle:,} on", f"{name}_HIGH", kind, index[middle:])


def main():
    found = pairs()
    gb = [0] * 23940
    for (lead, trail), codes in found["gb18030"].items():
        if 0x40 <= trail != 0x7F and len(codes) == 1:
            gb[(lead - 0x81) * 190 + trail - (0x40 if trail < 0x7F else 0x41)] = MOVED.get(lead * 256 + trail, codes[0])
    write_parts("gb18030", "The index of gb18030", "GB18030", "u16", gb)
    big5 = [0] * 19782
    for (lead, trail), codes in found["big5"].items():
        if (0x40 <= trail <= 0x7E or trail >= 0xA1) and len(codes) == 1:
            big5[(lead - 0x81) * 157 + trail - (0x40 if trail < 0x7F else 0x62)] = codes[0]
    write_parts("big5", "The index of Big5", "BIG5", "u32", trimmed(big5))
    korean = [0] * 23940
    for (lead, trail), codes in found["euc-kr"].items():
        if trail >= 0x41 and len(codes) == 1:
            korean[(lead - 0x81) * 190 + trail - 0x41] = codes[0]
    write_parts("euc_kr", "The index of EUC-KR", "EUC_KR", "u16", trimmed(korean))
    jis = [0] * 11280
    for (lead, trail), codes in found["shift_jis"].items():
        if not 0xA0 <= lead <= 0xDF and 0x40 <= trail <= 0xFC and trail != 0x7F and len(codes) == 1:
            pointer = (lead - (0x81 if lead < 0xA0 else 0xC1)) * 188 + trail - (0x40 if trail < 0x7F else 0x41)
            if not 8836 <= pointer <= 10715:
                jis[pointer] = codes[0]
    for (lead, trail), codes in found["euc-jp"].items():
        if lead >= 0xA1 and trail >= 0xA1:
            assert jis[(lead - 0xA1) * 94 + trail - 0xA1] == codes[0]
    write("jis0208_index.rt", "The index jis0208", "JIS0208", "u16", trimmed(jis))
    supplement = [0] * 8836
    for (_, lead, trail), codes in found["jis0212"].items():
        supplement[(lead - 0xA1) * 94 + trail - 0xA1] = codes[0]
    write("jis0212_index.rt", "The index jis0212", "JIS0212", "u16", trimmed(supplement))
    ranges = []
    for (first, second, third, fourth), (code,) in found["ranges"].items():
        pointer = ((first - 0x81) * 10 + second - 0x30) * 1260 + (third - 0x81) * 10 + fourth - 0x30
        if pointer != 7457 and pointer <= 39419 and (not ranges or code - pointer != ranges[-1][1] - ranges[-1][0]):
            ranges.append((pointer, code))
    out = HEAD.format(title="The index of the ranges of gb18030", name="RANGES", kind="(u32, u32)", length=len(ranges) + 1)
    out = out.replace(", by pointer:", ", of the pointers at which they begin:").replace(" 0 stands where a pointer has nothing.", "")
    out += "".join(f"    ({pointer}, 0x{code:04X}),\n" for pointer, code in ranges) + "    (189000, 0x10000),\n];\n"
    (ROOT / "ranges_index.rt").write_text(out)


if __name__ == "__main__":
    main()
