"""Writes beginnings of pages with the encoding that each declares, as rows of html_encodings_rows.

What is declared is found by the steps of the HTML Standard (section 13.2.3.2) over positions, as they
stand there, and not as the crate's definitions have them:

    python3 tools/prescan_rows.py [COUNT] > FILE

Or the pages of html5lib's tests of encodings, each with the encoding that its test expects, as rows of
the same program. FOLDER is html5lib/tests/testdata/encoding of its source (Debian's html5lib_1.2.orig.tar.gz):

    python3 tools/prescan_rows.py --html5lib FOLDER > FILE
"""

import random
import re
import sys
from pathlib import Path

NAMES = (Path(__file__).resolve().parent.parent / "crates/html_encodings/src/names.rt").read_text()
LABELS = dict(re.findall(r'\("([^"]+)", Encoding::(\w+)\)', NAMES))
SHOWN = dict(re.findall(r'Encoding::(\w+) => "([^"]+)"', NAMES))
SPACE = b"\t\n\x0c\r "
PARTS = [b"<meta", b"<META ", b"<meta/", b"charset", b"CharSet", b"=", b" = ", b"'", b'"', b"gbk", b"euc-kr", b"utf-16", b"x-user-defined",
    b"latin1", b"nothing", b">", b"/>", b" ", b"\n", b"/", b"content", b"http-equiv", b"content-type", b"Content-Type", b";", b"text/html;",
    b"<!--", b"-->", b"<!-->", b"--", b"<!", b"</", b"</p ", b"<?", b"<p ", b"<a b=", b"<", b"a", b"1", b"\xe9", b"\0", b"<?xml ", b"encoding",
    b"<meta charset=gbk>", b"<meta charset='euc-kr'>", b"<meta http-equiv=content-type content='text/html; charset=koi8-r'>",
    b"<meta content='charset = \"big5\"' http-equiv='Content-Type'>", b"<?xml version='1.0' encoding='koi8-r'?>", b"charset=gbk"]  # fmt: skip
MARKS = [(b"\xef\xbb\xbf", "UTF-8"), (b"\xfe\xff", "UTF-16BE"), (b"\xff\xfe", "UTF-16LE")]


class RunOut(Exception):
    """The position goes beyond the last byte."""


class Stream:
    def __init__(self, bytes_):
        self.bytes, self.position = bytes_, 0

    def now(self):
        if self.position >= len(self.bytes):
            raise RunOut
        return self.bytes[self.position]

    def next(self):
        self.position += 1

    def skip(self, bytes_):
        while self.now() in bytes_:
            self.next()

    def attribute(self):
        self.skip(SPACE + b"/")
        if self.now() == 0x3E:
            return None
        name, value = b"", b""
        while True:
            byte = self.now()
            if byte == 0x3D and name:
                self.next()
                break
            if byte in SPACE:
                self.skip(SPACE)
                if self.now() != 0x3D:
                    return name, value
                self.next()
                break
            if byte in b"/>":
                return name, value
            name += bytes([byte]).lower()
            self.next()
        self.skip(SPACE)
        byte = self.now()
        if byte in b"'\"":
            while True:
                self.next()
                if self.now() == byte:
                    self.next()
                    return name, value
                value += bytes([self.now()]).lower()
        if byte == 0x3E:
            return name, value
        while self.now() not in SPACE + b">":
            value += bytes([self.now()]).lower()
            self.next()
        return name, value


def encoding(label):
    return LABELS.get(label.strip(SPACE).lower().decode("latin1"))


def from_content(text):
    position = 0
    while True:
        position = text.lower().find(b"charset", position)
        if position < 0:
            return None
        position += 7
        while position < len(text) and text[position] in SPACE:
            position += 1
        if position < len(text) and text[position] == 0x3D:
            break
    position += 1
    while position < len(text) and text[position] in SPACE:
        position += 1
    if position == len(text):
        return None
    if text[position] in b"'\"":
        end = text.find(text[position : position + 1], position + 1)
        return None if end < 0 else encoding(text[position + 1 : end])
    return encoding(re.match(rb"[^\t\n\x0c\r ;]*", text[position:]).group(0))


def meta(stream):
    names, pragma, need, charset = set(), False, None, None
    while (found := stream.attribute()) is not None:
        name, value = found
        if name in names:
            continue
        names.add(name)
        if name == b"http-equiv":
            pragma = pragma or value == b"content-type"
        elif name == b"content":
            taken = from_content(value)
            if taken is not None and charset is None:
                charset, need = taken, True
        elif name == b"charset":
            charset, need = encoding(value) or "failure", False
    if need is None or need and not pragma or charset == "failure":
        return None
    return {"Utf16be": "Utf8", "Utf16le": "Utf8", "XUserDefined": "Windows1252"}.get(charset, charset)


def scan(bytes_):
    stream = Stream(bytes_)
    while True:
        rest = bytes_[stream.position :]
        stream.now()
        if rest.startswith(b"<!--"):
            end = bytes_.find(b"-->", stream.position + 2)
            if end < 0:
                raise RunOut
            stream.position = end + 2
        elif re.match(rb"<meta[\t\n\x0c\r /]", rest, re.I):
            stream.position += 5
            if (found := meta(stream)) is not None:
                return found
        elif re.match(rb"</?[a-zA-Z]", rest):
            while stream.now() not in SPACE + b">":
                stream.next()
            while stream.attribute() is not None:
                pass
        elif rest[:2] in (b"<!", b"</", b"<?"):
            while stream.now() != 0x3E:
                stream.next()
        stream.next()


def xml(bytes_):
    if not bytes_.startswith(b"<?xml") or b">" not in bytes_:
        return None
    found = re.search(rb"encoding[\0-\x20]*=[\0-\x20]*(?:'([^']*)'|\"([^\"]*)\")", bytes_[bytes_.find(b"encoding") :]) if b"encoding" in bytes_ else None
    if found is None or found.start() != 0:
        return None
    label = found.group(1) if found.group(1) is not None else found.group(2)
    if any(byte <= 0x20 for byte in label):
        return None
    found = encoding(label)
    return {"Utf16be": "Utf8", "Utf16le": "Utf8"}.get(found, found)


def prescan(bytes_):
    if bytes_.startswith(b"<\0?\0x\0"):
        return "Utf16le"
    if bytes_.startswith(b"\0<\0?\0x"):
        return "Utf16be"
    try:
        return scan(bytes_)
    except RunOut:
        return xml(bytes_)


def pages_of(path):
    """The pages of a file of html5lib's tests, each with the encoding that is expected."""
    for test in re.split(rb"(?:^|\n)#data\n", path.read_bytes())[1:]:
        page, expected = re.split(rb"\n#encoding\n", test)
        yield page, expected.strip().decode()


def html5lib(folder):
    shown = {name.lower(): name for name in SHOWN.values()}
    for path in sorted(Path(folder).rglob("*.dat")):
        for page, expected in pages_of(path):
            print("sniff", page.hex().upper() or "-", "-", shown[expected.lower()])


def main():
    if sys.argv[1:2] == ["--html5lib"]:
        html5lib(sys.argv[2])
        return
    chosen = random.Random(13)
    for number in range(int(sys.argv[1]) if len(sys.argv) > 1 else 2000):
        page = b"".join(chosen.choice(PARTS) for _ in range(chosen.randint(1, 14)))
        if number % 40 == 0:
            page = b"x" * chosen.randint(980, 1010) + page
        label, mark = chosen.choice([b"", b"", b"", b"", b"", b" Big5 ", b"none"]), chosen.choice([None] * 19 + MARKS)
        if number % 29 == 0:
            page = chosen.choice([b"<\0?\0x\0", b"\0<\0?\0x"]) + page
        if mark:
            name, why = mark[1], "mark"
            page = mark[0] + page
        elif encoding(label):
            name, why = SHOWN[encoding(label)], "transport"
        elif (found := prescan(page[:1024])) is not None:
            name, why = SHOWN[found], "declaration"
        else:
            name, why = "windows-1252", "fallback"
        print("sniff", page.hex().upper() or "-", label.hex().upper() or "-", name, why)


if __name__ == "__main__":
    main()
