"""Writes every table that depends on where a name stands among the known names.

The names are in tools/names.txt, with what each is; in which sets of tree construction they are, and which row of a mode is for which
set, is read from the definitions and rows of the rules. Run it when a name, a set or a row is added or taken away:

    python3 tools/names.py            writes the tables
    python3 tools/names.py --check    says which of them differ from what it would write
"""

import re
import sys
from itertools import groupby
from pathlib import Path

ROOT = Path(__file__).resolve().parent.parent
CRATES = ROOT / "crates"
SHIFTS, SLOTS = 256, 1024

SLOTS_FILE = """//! Where the known names are, by their hashes: written by `tools/names.py`.

/// How far the slots of names are shifted, by the low part of their hash.
#[rattlefmt::skip]
pub(crate) const SHIFTS: [u16; 256] = [
{shifts}];

/// The place of a known name, by the high part of its hash and its shift.
#[rattlefmt::skip]
pub(crate) const SLOTS: [u16; 1024] = [
{slots}];

/// The place of each known name with its letters lowered.
#[rattlefmt::skip]
pub(crate) const LOWERED: [u16; {count}] = [
{lowered}];
"""
TAGS_FILE = """//! How known names are written, by their places: written by `tools/names.py`.
use crate::names::Manner;
use crate::names::Manner::{Raw, RawWithScripts, Usual, Void};
"""
KINDS_FILE = """//! The kinds of known names, by their places: written by `tools/names.py`.
use crate::kinds::Kind;
use crate::kinds::Kind::{{
    Block, Body, Button, Cell, Description, Formatting, Head, Heading, Input, Item, Link, Metadata,
    Phrase, Preformatted, Raw, RawWithScripts, Row, Script, Section, Staying, Style, Svg, Table,
    Title, Usual, Void, VoidBlock, VoidPhrase,
}};

/// The kind of the HTML element, or `Svg` for an element of SVG.
#[rattlefmt::skip]
pub(crate) const KINDS: [Kind; {count}] = [
{kinds}
];

/// Whether an attribute of SVG that has the name has it again, once it is read in lower case.
#[rattlefmt::skip]
pub(crate) const TOLD_BACK: [bool; {count}] = [
{told_back}
];

/// Whether an attribute has the name wherever it stands, and no rule looks at it.
#[rattlefmt::skip]
pub(crate) const FREE: [bool; {count}] = [
{free}
];
"""
FIRST_ROWS_FILE = """//! Which row of a mode is the first that is for a tag, by the family of its name: written by `tools/names.py`.

/// The family of each known name: names that are in the same sets are of one. The first family is that of the names that are in none.
#[rattlefmt::skip]
pub(crate) const FAMILIES: [u8; %d] = [
%s];
"""
FIRST_ROWS = """
/// In the mode `%s`, for %s tags.
#[rattlefmt::skip]
pub(crate) const %s_FOR_%s: [u8; %d] = [
%s];
"""
FAMILY_SETS_FILE = """-- The sets of each family of names, as bits: written by `tools/names.py`.
use Rattle.std.specs.Prelude.{ℕ, List, [], ◌∷◌}

abbrev pub family_sets : List ℕ
family_sets =
%s    []
"""
KINDS = {"void": "Void", "raw": "Raw", "raw-with-scripts": "RawWithScripts"}
# The kinds of elements whose tags the walk of faithful documents knows, by a set that they are in.
COMMON = {
    "Block": "Block",
    "HeadingTag": "Heading",
    "PreListing": "Preformatted",
    "Li": "Item",
    "DdDt": "Description",
    "FormattingTag": "Formatting",
    "A": "Link",
    "VoidTag": "VoidPhrase",
    "Hr": "VoidBlock",
    "Input": "Input",
    "Button": "Button",
    "Table": "Table",
    "TbodyTfootThead": "Section",
    "Tr": "Row",
    "TdTh": "Cell",
    "Head": "Head",
    "Body": "Body",
    "MetadataVoid": "Metadata",
    "Title": "Title",
    "NoframesStyle": "Style",
    "Script": "Script",
}
# And by the definition that lists them.
LISTED = {"phrase_names": "Phrase", "svg_names": "Svg", "staying_names": "Staying"}
# What says that an attribute has another name in foreign content.
RENAMED = ("svg-attribute=", "mathml-attribute=", "foreign=")
# Where the number of known names stands by itself: a file, and what is around it.
COUNTS = [
    ("markup/src/known_names.rt", "pub const NAMES: [&str; ", "]"),
    ("markup/src/known_names.rt", "fn lowered_places() -> &'static [u16; ", "]"),
    ("markup/proofs/LoweredNames.antt", "nat_lt place ", " &&"),
    ("markup/proofs/LoweredNames.antt", "pub names-count : length names ≡ ", "\n"),
    ("html_names/src/set_rows.rt", "HTML_SETS: [u128; ", "]"),
    ("html_names/proofs/FittingRows.antt", "(range_with_len 0 ", ")"),
    ("html_names/proofs/FittingRows.antt", "few : length names ≡ ", "\n"),
    ("html_names/proofs/FittingRows.antt", " : k < ", " ="),
    ("html_names/proofs/FittingRows.antt", "_row k ", " l'"),
    ("html_modes/proofs/FirstRows.antt", "range_with_len 0 ", ")"),
    ("html_modes/proofs/FirstRows.antt", "range_with_len 0 ", " place"),
    ("html_modes/proofs/FirstRows.antt", "few : length names ≡ ", "\n"),
    ("html_modes/proofs/FirstRows.antt", "place < ", " "),
    ("html_plain/src/known_elements.rt", "[Option<PlainElement>; ", "]"),
    ("html_forest/src/names.rt", "const HTML: usize = ", ";"),
    ("html_clean/src/notes.rt", "const NAMES: usize = ", ";"),
    ("html_clean/proofs/notes/Notes/new/Answers.antt", "c.args.policy.now _ _ ", " 1024"),
    ("html_clean/proofs/notes/Notes/new/Answers.antt", "1024 (", " - vec_len"),
]


def read(path):
    return (CRATES / path).read_text(encoding="utf-8")


def stop(why):
    raise SystemExit(f"tools/names.py: {why}")


def read_names():
    """Returns the known names, each with the words that say what it is."""
    names = {}
    for line in (ROOT / "tools/names.txt").read_text(encoding="utf-8").splitlines():
        if not line.startswith("#"):
            name, *words = line.split(" ")
            names[name] = words
    if list(names) != sorted(names):
        stop("the names of names.txt are not in the order of their characters")
    return names


NAMES = read_names()
PLACES = {name: place for place, name in enumerate(NAMES)}
COUNT = len(NAMES)
LONGEST = max(map(len, NAMES))


def place_of(name):
    """Returns the place of a name that something else speaks of."""
    if name not in PLACES:
        stop(f"{name} is not in names.txt")
    return PLACES[name]


def words_of(kind):
    """Returns the names that have a word of a kind, each with what the word says."""
    return [(name, word[len(kind) + 1 :]) for name, words in NAMES.items() for word in words if word.startswith(kind + "=")]


def numbers(items, a_line):
    """Lays out numbers, so many a line."""
    rows = (items[at : at + a_line] for at in range(0, len(items), a_line))
    return "".join("    " + ", ".join(map(str, row)) + ",\n" for row in rows)


def filled(items, width=118):
    """Lays out items in lines of at most so many characters."""
    lines, line = [], "   "
    for item in items:
        if len(line) + len(item) + 2 > width:
            lines.append(line)
            line = "   "
        line += f" {item},"
    return "\n".join([*lines, line])


def between(text, start, end):
    text = text[text.index(start) + len(start) :]
    return text[: text.index(end)]


def with_table(text, start, table):
    """Returns a file with another table after its first line, which ends in `= [`."""
    head = text.index("[\n", text.index(start)) + 2
    return text[:head] + table.rstrip("\n") + text[text.index("\n];", head) :]


# THE SLOTS OF NAMES


def name_hash(name):
    value = 0
    for byte in name.encode():
        value = (value * 31 + byte) % 2**32
    return value


def slots_file():
    """The shifts are chosen so that no two names share a slot; a slot of no name holds the place 0."""
    hashes = sorted((name_hash(name) % SHIFTS, name_hash(name) // SHIFTS, place) for place, name in enumerate(NAMES))
    groups = [list(group) for _, group in groupby(hashes, lambda it: it[0])]
    shifts, slots = [0] * SHIFTS, [None] * SLOTS
    for group in sorted(groups, key=len, reverse=True):
        for shift in range(SLOTS):
            taken = {(high + shift) % SLOTS for _, high, _ in group}
            if len(taken) == len(group) and all(slots[it] is None for it in taken):
                break
        else:
            stop("two names share a slot: take another factor or more slots")
        shifts[group[0][0]] = shift
        for _, high, place in group:
            slots[(high + shift) % SLOTS] = place
    lowered = numbers([place_of(name.lower()) for name in NAMES], 16)
    return SLOTS_FILE.format(shifts=numbers(shifts, 16), slots=numbers([it or 0 for it in slots], 16), count=COUNT, lowered=lowered)


# HOW NAMES ARE WRITTEN


def tags_file():
    def table(what, name, of, items):
        return f"\n/// {what}\n#[rattlefmt::skip]\npub(crate) const {name}: [{of}; {COUNT}] = [\n{filled(items, 120)}\n];\n"

    manners = [next((KINDS[word] for word in words if word in KINDS), "Usual") for words in NAMES.values()]
    return (
        TAGS_FILE
        + table("How what stands in the HTML element is written.", "MANNERS", "Manner", manners)
        + table("The start tag of an element without attributes.", "START_TAGS", "&str", [f'"<{name}>"' for name in NAMES])
        + table("The end tag of an element.", "END_TAGS", "&str", [f'"</{name}>"' for name in NAMES])
        + table("What stands before the value of an attribute.", "ATTRIBUTES", "&str", [f'" {name}=\\""' for name in NAMES])
    )


# KINDS OF ELEMENTS


def kinds_file():
    spec = read("html_faithful_walk/specs/Kinds.antt")
    listed = {kind: re.findall(r'codes "([^"]+)"', between(spec, f"\n{of} = ", "\n\n")) for of, kind in LISTED.items()}
    kinds = {name: next((KINDS[word] for word in words if word in KINDS), "Usual") for name, words in NAMES.items()}
    kinds |= {name: kind for kind, names in listed.items() for name in names}
    sets = sets_of("names_of")
    for place, name in enumerate(NAMES):
        kinds[name] = next((kind for of, kind in COMMON.items() if sets[place] >> SETS[of] & 1), kinds[name])
    renamed = dict(words_of("svg-attribute"))
    foreign = dict(words_of("foreign"))
    told_back = [str(renamed.get(name.lower(), name.lower()) == name and name not in foreign).lower() for name in NAMES]
    asked = re.findall(r'codes "([^"]+)"', between(spec, "\nasked_names = ", "\n\n"))
    free = [
        str(name.islower() and name not in asked and not any(word.startswith(RENAMED) for word in words)).lower()
        for name, words in NAMES.items()
    ]
    return KINDS_FILE.format(
        count=COUNT, kinds=filled(kinds.values(), 120), told_back=filled(told_back, 120), free=filled(free, 120)
    )


# SETS OF NAMES


def sets_of(kind):
    """Returns the bits of the sets in which each name is, by the definition of that name in html_rules."""
    text = read("html_rules/specs/Sets.antt")
    equations = re.findall(rf"^{kind} set\.(\w+) = (.*(?:\n .*)*)", text, re.M)
    bits = [0] * COUNT
    for name, listed in equations:
        for element in re.findall(r'codes "([^"]+)"', listed):
            bits[place_of(element)] |= 1 << SETS[name]
    return bits


def variants(path, of):
    return re.findall(r"^    (\w+),$", between(read(path), f"pub enum {of}", "\n}"), re.M)


SETS = {name: number for number, name in enumerate(variants("html_rules/src/tag_set.rt", "TagSet"))}


def bits_of(sets):
    return hex(sets) if sets else "0"


def alike(sets):
    """Returns the places of names that are in some sets, those that are in the same ones together."""
    groups = {}
    for place, row in enumerate(sets):
        if row:
            groups.setdefault(row, []).append(place)
    return sorted(groups.items(), key=lambda it: -len(it[1]))


def quoted(places):
    names = [f"`{list(NAMES)[place]}`" for place in places]
    return names[0] if len(names) == 1 else f"{', '.join(names[:-1])} and {names[-1]}"


def set_rows_file():
    text = with_table(read("html_names/src/set_rows.rt"), "const HTML_SETS", filled(map(bits_of, sets_of("names_of"))))
    for function, kind in (("of_mathml", "mathml_names_of"), ("of_svg", "svg_names_of")):
        start = text.index("match name.place {\n", text.index(f"fn {function}")) + len("match name.place {\n")
        arms = "".join(
            f"        // {quoted(places)}\n        {' | '.join(map(str, places))} => {row:#x},\n" for row, places in alike(sets_of(kind))
        )
        text = text[:start] + arms + text[text.index("        _ => 0,", start) :]
    return text


def set_rows_spec():
    def row(name, kind):
        asked = "".join(
            f"if {' || '.join(f'nat_eq p {place}' for place in places)} then {row:#x} else " for row, places in alike(sets_of(kind))
        )
        words, lines, line = f"{name} p = {asked}0".split(" "), [], ""
        at = 0
        while at < len(words):
            # (a comparison stays on one line, after the operator before it)
            size = 4 if words[at : at + 2] == ["||", "nat_eq"] else 3 if words[at] == "nat_eq" else 1
            piece = " ".join(words[at : at + size])
            if line and len(line) + 1 + len(piece) > 79:
                lines.append(line)
                line = "   "
            line = f"{line} {piece}" if line else piece
            at += size
        return "\n".join([*lines, line])

    text = read("html_names/specs/SetRows.antt")
    for name, kind in (("mathml_row", "mathml_names_of"), ("svg_row", "svg_names_of")):
        start = text.index(f"\n{name} p = ") + 1
        end = text.find("\n\n", start)
        text = text[:start] + row(name, kind) + (text[end:] if end >= 0 else "\n")
    return text


# NAMES IN FOREIGN CONTENT


def renames_file():
    text = read("html_names/src/renames.rt")
    for table, kind in (("SVG_TAGS", "svg-tag"), ("SVG_ATTRIBUTES", "svg-attribute"), ("MATHML_ATTRIBUTES", "mathml-attribute")):
        rows = [f"Rename {{ written: {PLACES[name]}, name: {place_of(said)} }}" for name, said in words_of(kind)]
        text = with_table(text, f"const {table}", numbers(rows, 3))
        text = re.sub(rf"const {table}: \[Rename; \d+\]", f"const {table}: [Rename; {len(rows)}]", text)
    rows = []
    for name, said in words_of("foreign"):
        prefix, namespace, local = said.split(":")
        parts = f"prefix: KnownNamespace::{prefix}, namespace: KnownNamespace::{namespace}, name: {place_of(local)}"
        rows.append(f"ForeignName {{ written: {PLACES[name]}, {parts} }}")
    text = with_table(text, "const FOREIGN", numbers(rows, 1))
    return re.sub(r"const FOREIGN: \[ForeignName; \d+\]", f"const FOREIGN: [ForeignName; {len(rows)}]", text)


# PLAIN ELEMENTS


def plain_file():
    plain = dict(words_of("plain"))
    items = [f"Some(PlainElement::{plain[name]})" if name in plain else "NO" for name in NAMES]
    return with_table(read("html_plain/src/known_elements.rt"), "const ELEMENTS", filled(items))


# FIRST ROWS


def first_row(rows, kind, sets):
    for place, (name, of) in enumerate(rows):
        if name in (f"Any{kind}Tag", "AnythingElse") or name == f"{kind}Tags" and sets >> SETS[of] & 1:
            return place
    return len(rows)


def first_rows_files():
    """Where in each mode the first row stands that is for a tag, for each kind of tags and each family of names."""
    sets = sets_of("names_of")
    families = sorted({0, *sets})
    code = FIRST_ROWS_FILE % (COUNT, numbers([families.index(row) for row in sets], 24))
    for mode in variants("html_rules/src/insertion_mode.rt", "InsertionMode"):
        module = re.sub(r"(?<!^)(?=[A-Z])", "_", mode)
        rows = re.findall(r"row!\(\s*(\w+)(?:\(TagSet::(\w+)\))?", read(f"html_modes/src/modes/{module.lower()}.rt"))
        for kind in ("Start", "End"):
            places = [first_row(rows, kind, row) for row in families]
            code += FIRST_ROWS % (mode, kind.lower(), module.upper(), kind.upper(), len(families), numbers(places, 24))
    return code, FAMILY_SETS_FILE % "".join(f"    {row:#x} ∷\n" for row in families)


def tables():
    """Returns what each file is to hold, by its path below crates/."""
    names = with_table(read("markup/src/known_names.rt"), "pub const NAMES", filled([f'"{name}"' for name in NAMES]))
    first_rows, family_sets = first_rows_files()
    files = {
        "markup/src/known_names.rt": re.sub(r"const LONGEST: usize = \d+;", f"const LONGEST: usize = {LONGEST};", names),
        "markup/src/known_slots.rt": slots_file(),
        "html_serialize/src/known_tags.rt": tags_file(),
        "html_faithful_walk/src/known_kinds.rt": kinds_file(),
        "html_names/src/set_rows.rt": set_rows_file(),
        "html_names/specs/SetRows.antt": set_rows_spec(),
        "html_names/src/renames.rt": renames_file(),
        "html_plain/src/known_elements.rt": plain_file(),
        "html_modes/src/first_places.rt": first_rows,
        "html_modes/specs/FamilySets.antt": family_sets,
    }
    for path, before, after in COUNTS:
        text = files.get(path) or read(path)
        text, found = re.subn(rf"({re.escape(before)})\d+({re.escape(after)})", rf"\g<1>{COUNT}\g<2>", text)
        if not found:
            stop(f"crates/{path} has no number of names after '{before}'")
        files[path] = text
    return files


def main():
    differ = [(path, text) for path, text in tables().items() if read(path) != text]
    for path, text in differ:
        print(f"crates/{path}")
        if "--check" not in sys.argv:
            (CRATES / path).write_text(text, encoding="utf-8")
    if "--check" in sys.argv:
        print(f"{COUNT} known names, {len(differ)} files differ from what tools/names.py writes")
        sys.exit(1 if differ else 0)


if __name__ == "__main__":
    main()
