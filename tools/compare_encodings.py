"""Compares the decoders with Chromium's TextDecoder.

Chromium, without a window, decodes each byte and each pair of bytes of every encoding, and random
strings; what it makes of them are the rows that the program html_encodings_rows reads. It is run
from the top of the repository, and takes some minutes:

    apt-get install chromium
    (cd crates/html_encodings_rows && rt run)      # or rt try
    python3 tools/compare_encodings.py PROGRAM [RANDOM]

PROGRAM is the program that was built, RANDOM how many random strings each encoding gets (3,000 by
default). With --rows FILE it writes some of the rows there instead, which the program's test has.
"""

import base64
import json
import random
import re
import subprocess
import sys
import tempfile
from pathlib import Path

ROOT = Path(__file__).resolve().parent.parent
NAMES = ROOT / "crates/html_encodings/src/names.rt"
RUN = ["chromium", "--headless", "--no-sandbox", "--disable-gpu", "--virtual-time-budget=600000", "--dump-dom"]
# what lies far apart in the indexes, and what ends or begins a character of several bytes
LIKELY = [0x00, 0x0E, 0x1B, 0x24, 0x28, 0x30, 0x39, 0x3C, 0x40, 0x41, 0x42, 0x49, 0x4A, 0x5C, 0x7E, 0x7F, 0x80, 0x81, 0x84, 0x8E]
LIKELY += [0x8F, 0x90, 0xA0, 0xA1, 0xA4, 0xB0, 0xC2, 0xD8, 0xDC, 0xDF, 0xE0, 0xED, 0xE3, 0xEF, 0xF0, 0xF4, 0xFC, 0xFD, 0xFE, 0xFF]
# where Chromium does otherwise than the Standard: bytes, and their text by the Standard
OTHERWISE = [("big5", "8862", "\u00ca\u0304"), ("big5", "8864", "\u00ca\u030c"), ("big5", "88A3", "\u00ea\u0304")]
OTHERWISE += [("big5", "88A5", "\u00ea\u030c"), ("euc-jp", "8FC200E0ED", "\ufffd\0\u743f")]
OTHERWISE += [("iso-2022-jp", "1B24421B24", "\ufffd\ufffd"), ("iso-2022-jp", "1B2480DF", "\ufffd$\ufffd\ufffd")]
SCRIPT = """<!doctype html><meta charset=utf-8><pre id=out></pre><script>
const jobs = JSON.parse(atob("%s"));
const labels = jobs.labels.map(label => { try { return new TextDecoder(label).encoding } catch (e) { return "-" } });
const texts = jobs.texts.map(([label, data]) => {
    const bytes = Uint8Array.from(atob(data), c => c.charCodeAt(0));
    const lengths = jobs.lengths[label];
    const out = [];
    let at = 0;
    const encoder = new TextEncoder();
    for (const length of lengths) {
        // a decoder of its own for each: that of ISO-2022-JP keeps whether an escape stands directly before
        const decoder = new TextDecoder(label, { ignoreBOM: true });
        const text = encoder.encode(decoder.decode(bytes.subarray(at, at + length)));
        out.push(Array.from(text, b => b.toString(16).padStart(2, "0")).join(""));
        at += length;
    }
    return out;
});
document.getElementById("out").textContent = btoa(JSON.stringify({ labels, texts }));
</script>"""


def chromium(jobs):
    """What Chromium answers."""
    with tempfile.TemporaryDirectory() as folder:
        page = Path(folder) / "page.html"
        page.write_text(SCRIPT % base64.b64encode(json.dumps(jobs).encode()).decode())
        command = [*RUN, f"--user-data-dir={folder}/data", f"file://{page}"]
        out = subprocess.run(command, capture_output=True, text=True, timeout=1200).stdout
    return json.loads(base64.b64decode(re.search(r'<pre id="out">([^<]*)</pre>', out).group(1)))


def inputs(label, count, chosen):
    """The inputs of an encoding: each byte and each pair, and random strings of 1 to 12 bytes."""
    yield b""
    yield from (bytes([a]) for a in range(256))
    yield from (bytes([a, b]) for a in range(256) for b in range(256))
    for _ in range(count):
        length = chosen.randint(1, 12)
        if chosen.random() < 0.5:
            yield bytes(chosen.choice(LIKELY) for _ in range(length))
        else:
            yield chosen.randbytes(length)
    if label == "gb18030":
        for _ in range(20000):
            yield bytes([chosen.randint(0x81, 0xFE), chosen.randint(0x30, 0x39), chosen.randint(0x81, 0xFE), chosen.randint(0x30, 0x39)])
    if label == "euc-jp":
        yield from (bytes([0x8F, a, b]) for a in range(0xA1, 0xFF) for b in range(0xA1, 0xFF))
    if label == "iso-2022-jp":
        yield from (b"\x1b$B" + bytes([a, b]) for a in range(0x80) for b in range(0x80))


def rows_of(label, count, chosen):
    strings = list(inputs(label, count, chosen))
    jobs = {"labels": [], "texts": [[label, base64.b64encode(b"".join(strings)).decode()]], "lengths": {label: [len(s) for s in strings]}}
    texts = chromium(jobs)["texts"][0]
    return [f"decode {label} {s.hex().upper() or '-'} {text.upper() or '-'}" for s, text in zip(strings, texts)]


def main():
    labels = re.findall(r'\("([^"]+)", Encoding::(\w+)\)', NAMES.read_text())
    names = dict(re.findall(r'Encoding::(\w+) => "([^"]+)"', NAMES.read_text()))
    found = chromium({"labels": [label for label, _ in labels], "texts": [], "lengths": {}})["labels"]
    told = [(label, names[variant]) for label, variant in labels]
    wrong = [(label, name, other) for (label, name), other in zip(told, found) if name.lower() != other and name != "replacement"]
    print(len(told), "labels,", len(wrong), "read otherwise", wrong)
    encodings = sorted({name.lower() for _, name in told if name != "replacement"})
    chosen = random.Random(64)
    if sys.argv[1] == "--rows":
        with open(sys.argv[2], "w") as out:
            for label, name in told:
                out.write(f"label {label.encode().hex().upper()} {name}\n")
            for label in encodings:
                rows = rows_of(label, 200, chosen)
                for row in chosen.sample(rows[:257], 12) + chosen.sample(rows[257:65793], 28) + chosen.sample(rows[65793:], 40):
                    out.write(row + "\n")
                for _, bytes_, text in (known for known in OTHERWISE if known[0] == label):
                    out.write(f"decode {label} {bytes_} {text.encode().hex().upper()}\n")
        return
    count = int(sys.argv[2]) if len(sys.argv) > 2 else 3000
    total = 0
    for label in encodings:
        rows = rows_of(label, count, chosen)
        with tempfile.NamedTemporaryFile("w", suffix=".txt") as file:
            file.write("\n".join(rows) + "\n")
            file.flush()
            out = subprocess.run([sys.argv[1], file.name], capture_output=True, text=True).stdout.splitlines()
        total += len(rows)
        print(label, out[-1] if out else "no answer", *out[:-1][:5], sep="\n  ")
    print(total, "rows in all")


if __name__ == "__main__":
    main()
