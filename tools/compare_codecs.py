"""Compares the tables of the decoders with Python's codecs, a source of their own.

    python3 tools/compare_codecs.py

Where they are known to differ, the Encoding Standard (https://encoding.spec.whatwg.org) has what the tables have;
docs/ENCODINGS.md says where that is. Anything else that differs is printed, and the status is 1.
"""

import re
import sys
from pathlib import Path

CRATES = Path(__file__).resolve().parent.parent / "crates"
ONE = CRATES / "html_encodings/src/tables.rt"
MANY = CRATES / "html_encodings_multibyte/src"
CODECS = {"IBM866": "cp866", "MACINTOSH": "mac_roman", "X_MAC_CYRILLIC": "mac_cyrillic"}
# what the Standard has at bytes that a codec leaves out, or has otherwise: bytes, the Standard, the codec
KOI8_U = {(0xAE,): (0x45E, 0x255D), (0xBE,): (0x40E, 0x256C)}
WINDOWS_1255 = {(0xCA,): (0x5BA, None)}
GB18030 = {(0xA3, 0xA0): (0x3000, 0xE5E5), (0xA8, 0xBC): (0x1E3F, 0xE7C7)}
MOVED = [0xA6D9, 0xA6DA, 0xA6DB, 0xA6DC, 0xA6DD, 0xA6DE, 0xA6DF, 0xA6EC, 0xA6ED, 0xA6F3]
MOVED += [0xFE59, 0xFE61, 0xFE66, 0xFE67, 0xFE6D, 0xFE7E, 0xFE90, 0xFEA0]
BIG5 = [0xA145, 0xA14E, 0xA1C2, 0xA1E3, 0xA1F2, 0xA1F3, 0xA241, 0xA242, 0xA244, 0xA246, 0xA247]
BIG5_TWO = [0x8862, 0x8864, 0x88A3, 0x88A5]


def numbers(place):
    """The numbers of a table."""
    text = place.read_text()
    return [int(number, 0) for number in re.findall(r"0x[0-9A-Fa-f]+|\b\d+\b", text[text.index("] = [") :])]


def of_codec(codec, *bytes_):
    """What a codec makes of bytes: a code point, several, or nothing."""
    try:
        codes = [ord(character) for character in bytes(bytes_).decode(codec)]
    except UnicodeDecodeError:
        return None
    return codes[0] if len(codes) == 1 else tuple(codes)


def differing(table, bytes_of, codec):
    """Where a table and a codec differ: bytes, and what each has."""
    found = {}
    for pointer, entry in enumerate(table):
        bytes_ = bytes_of(pointer)
        other = of_codec(codec, *bytes_)
        if other != (entry or None):
            found[bytes_] = (entry or None, other)
    return found


def trail(count, low, split, gap):
    """The bytes of a pointer: so many trail bytes a lead byte, from a lowest one on, with a gap."""
    return lambda pointer: (pointer // count + 0x81, pointer % count + (low if pointer % count < split else gap))


def shift_jis(pointer):
    lead, second = divmod(pointer, 188)
    return (lead + (0x81 if lead < 0x1F else 0xC1), second + (0x40 if second < 0x3F else 0x41))


def four(pointer):
    return (pointer // 12600 + 0x81, pointer // 1260 % 10 + 0x30, pointer // 10 % 126 + 0x81, pointer % 10 + 0x30)


def of_ranges(ranges, pointer):
    """What the ranges of gb18030 have for a pointer (section 5)."""
    if 39419 < pointer < 189000 or pointer > 1237575:
        return None
    if pointer == 7457:
        return 0xE7C7
    start, code = max(pair for pair in ranges if pair[0] <= pointer)
    return code + pointer - start


def is_control(bytes_, pair):
    """A byte that a codec of Windows leaves out is the control character of its number."""
    return pair == (bytes_[0], None) and 0x80 <= bytes_[0] < 0xA0


def single_byte():
    """Where the single-byte tables and the codecs differ, but for known places."""
    text = ONE.read_text()
    for name, entries in re.findall(r"const (\w+): \[u16; 128\] = \[(.*?)\];", text, re.S):
        codec = CODECS.get(name, name.lower().replace("windows_", "cp"))
        table = [int(entry, 16) for entry in re.findall(r"0x[0-9A-F]+", entries)]
        known = {"KOI8_U": KOI8_U, "WINDOWS_1255": WINDOWS_1255}.get(name, {})
        for bytes_, pair in differing(table, lambda pointer: (pointer + 128,), codec).items():
            if known.get(bytes_) != pair and not (name.startswith("WINDOWS") and is_control(bytes_, pair)):
                yield name, bytes_, pair


def is_known(name, bytes_, pair):
    """Whether a codec is known to differ there."""
    pointed = int.from_bytes(bytes(bytes_), "big")
    if name == "gb18030":
        moved = pointed in MOVED and 0xE000 <= pair[1] < 0xF900
        return GB18030.get(bytes_) == pair or moved
    if name == "big5":
        # two characters are no entry of the index; the codec has 192 characters fewer
        if pointed in BIG5_TWO:
            return pair[0] is None and len(pair[1]) == 2
        return pointed in BIG5 or pair[1] is None
    if name == "jis0208":
        # rows for characters of one's own are read by a rule
        return pair[0] is None and 0xE000 <= pair[1] < 0xE000 + 1880
    if name == "jis0212":
        return (bytes_, pair) == ((0x8F, 0xA2, 0xB7), (0xFF5E, 0x7E))
    if name == "ranges":
        return (bytes_, pair) == ((0x81, 0x35, 0xF4, 0x37), (0xE7C7, 0x1E3F))
    return False


def multibyte():
    """Where the indexes and the codecs differ, but for known places."""
    indexes = [
        ("gb18030", 20, ["gb18030_low", "gb18030_high"], trail(190, 0x40, 0x3F, 0x41), "gb18030"),
        ("big5", 207, ["big5_low", "big5_high"], trail(157, 0x40, 0x3F, 0x62), "big5hkscs"),
        ("euc-kr", 0, ["euc_kr_low", "euc_kr_high"], trail(190, 0x41, 190, 0x41), "cp949"),
        ("jis0208", 1880, ["jis0208_index"], shift_jis, "cp932"),
        ("jis0212", 1, ["jis0212_index"], lambda pointer: (0x8F, pointer // 94 + 0xA1, pointer % 94 + 0xA1), "euc_jp"),
    ]
    for name, count, files, bytes_of, codec in indexes:
        table = [entry for file in files for entry in numbers(MANY / f"{file}.rt")]
        found = differing(table, bytes_of, codec)
        print(f"{name}: {len(table)} pointers, {len(found)} differ from {codec}")
        if len(found) != count:
            yield name, b"", f"{len(found)} differ, and not {count}"
        for bytes_, pair in found.items():
            if not is_known(name, bytes_, pair):
                yield name, bytes_, pair
    flat = numbers(MANY / "ranges_index.rt")
    ranges = list(zip(flat[::2], flat[1::2]))
    for pointer in [*range(39421), *range(188998, 190000), *range(1237570, 1237580)]:
        pair = (of_ranges(ranges, pointer), of_codec("gb18030", *four(pointer)))
        if pair[0] != pair[1] and not is_known("ranges", four(pointer), pair):
            yield "ranges", four(pointer), pair


def main():
    count = 0
    for name, bytes_, pair in [*single_byte(), *multibyte()]:
        count += 1
        print(f"{name} {bytes(bytes_).hex(' ')}: {pair}")
    print(f"{count} others differ")
    sys.exit(1 if count else 0)


main()
