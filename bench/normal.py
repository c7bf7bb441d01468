"""What bench/normal.sh runs: the whole program on pages that are made here.

    normal.py PROGRAM MEGABYTES [OTHER]

PROGRAM is the built html_normal, which gets the Standard's table of references; OTHER a program that reads a page and writes its
normal text too, to be timed beside it.
"""

import os
import random
import shutil
import statistics
import subprocess
import sys
import tempfile

WORDS = """the of and to in is that for it as was with be by on not he his but at are this have from or had an they which one you were
all she there would their we him been has when who will no more out so said what up its about into than them can only other new some could
page parser table element attribute text file line élève größer naïve façade данные страница книга город 東京 中文 字符 文字 日本語
κείμενο σελίδα שלום עולם مرحبا بالعالم हिन्दी पाठ ภาษาไทย""".split()
REFERENCES = "&amp; &lt; &gt; &nbsp; &copy; &mdash; &eacute; &hellip; &#8217; &#x2014; &notit;".split()
INLINE = "b i em strong code span".split()
BLOCKS = "div section article blockquote".split()


class Page:
    """A page like those of the web, whose tags are often left out and sometimes cross; the same for the same seed."""

    def __init__(self, seed):
        self.random = random.Random(seed)

    def words(self, count):
        word = lambda: self.random.choice(WORDS) + (self.random.choice(REFERENCES) if self.random.random() < 0.02 else "")
        return " ".join(word() for _ in range(count))

    def attributes(self):
        chance = self.random.random
        text = ""
        if chance() < 0.6:
            text += f' class="{self.words(self.random.randint(1, 3))}"'
        if chance() < 0.25:
            text += f' id="n{self.random.randint(0, 99999)}"'
        if chance() < 0.15:
            text += f" data-x='{self.words(2)}'"
        if chance() < 0.03:
            text += " hidden"
        return text

    def inline(self, depth=0):
        kind = self.random.random()
        if depth > 2 or kind < 0.55:
            return self.words(self.random.randint(3, 18))
        if kind < 0.75:
            return f'<a href="/p/{self.random.randint(1, 999)}?a=1&amp;b=2"{self.attributes()}>{self.inline(depth + 1)}</a> '
        if kind < 0.9:
            name = self.random.choice(INLINE)
            return f"<{name}{self.attributes()}>{self.inline(depth + 1)}</{name}> "
        if kind < 0.94:
            return f'<img src="/i/{self.random.randint(1, 999)}.png" alt="{self.words(2)}"{self.attributes()}>'
        if kind < 0.96:
            return f"<b><i>{self.words(3)}</b>{self.words(2)}</i> "
        return f"{self.words(4)}<br>{self.words(4)}"

    def perhaps(self, end):
        return end if self.random.random() < 0.5 else ""

    def items(self, least, most, make):
        return "".join(make() for _ in range(self.random.randint(least, most)))

    def block(self, depth=0):
        kind = self.random.random()
        item = lambda: f"  <li{self.attributes()}>{self.inline()}{self.perhaps('</li>')}\n"
        cell = lambda: f"<td{self.attributes()}>{self.inline(1)}{self.perhaps('</td>')}"
        row = lambda: f"<tr>{self.items(2, 6, cell)}</tr>\n"
        if kind < 0.15:
            name = self.random.choice(["ul", "ol"])
            return f"<{name}{self.attributes()}>\n{self.items(2, 9, item)}</{name}>\n"
        if kind < 0.27:
            return f"<table{self.attributes()}>\n{self.items(2, 8, row)}</table>\n"
        if kind < 0.33:
            rank = self.random.randint(1, 6)
            return f"<h{rank}{self.attributes()}>{self.words(5)}</h{rank}>\n"
        if kind < 0.36:
            return f'<script>var a = {self.random.randint(1, 99)}; if (a < 3 && "{self.words(6)}") {{ write("<b>" + a); }}</script>\n'
        if kind < 0.38:
            return "<style>.a > .b { color: red; background: url(a.png) }</style>\n"
        if kind < 0.41:
            return f"<!-- {self.words(12)} -->\n"
        if kind < 0.43:
            return f'<svg viewBox="0 0 9 9"><g fill="red"><path d="M0 0L9 9Z"/><title>{self.words(2)}</title></g></svg>\n'
        if kind < 0.46:
            options = self.items(4, 4, lambda: f"<option value=1>{self.words(1)}")
            return (
                f"<form action=/s><input name=q value='{self.words(2)}'><select>{options}</select>"
                f"<textarea>{self.words(5)}</textarea></form>\n"
            )
        if kind < 0.48:
            return f"<pre>{self.words(8)}\n    &lt;tag&gt;\n</pre>\n"
        if kind < 0.55 and depth < 5:
            name = self.random.choice(BLOCKS)
            return f"<{name}{self.attributes()}>\n{self.items(1, 5, lambda: self.block(depth + 1))}</{name}>\n"
        lines = " ".join(self.inline() for _ in range(self.random.randint(2, 6)))
        return f"<p{self.attributes()}>{lines}{self.perhaps('</p>')}\n"

    def text(self, size):
        parts = ["<!DOCTYPE html>\n<html lang=en>\n<head>\n<meta charset=utf-8>\n<title>A page</title>\n</head>\n<body>\n"]
        length = len(parts[0])
        while length < size:
            parts.append(self.block())
            length += len(parts[-1].encode())
        return "".join(parts) + "</body>\n</html>\n"


# Shapes that could make the time grow faster than the page: what is repeated, and how often at least.
SHAPES = [
    ("a page of megabytes", 1_000_000, lambda size: Page(1).text(size)),
    ("one paragraph, bytes", 1_000_000, lambda size: "<p>" + "word and " * (size // 9)),
    ("nested div", 10_000, lambda count: "<div>" * count),
    ("attributes in one tag", 100_000, lambda count: "<p " + " ".join(f"a{n}=x" for n in range(count)) + ">"),
    ("<b><p>", 1_000, lambda count: "<b><p>" * count),
    ("<b><p>x", 1_000, lambda count: "<b><p>x" * count),
    ("<a href> within each other", 10_000, lambda count: "".join(f"<a href={n}>" for n in range(count))),
    ("<b><i>x</b>y</i>", 10_000, lambda count: "<b><i>x</b>y</i>" * count),
    ("<table>x<tr>", 10_000, lambda count: "<table>" + "x<tr>" * count),
    ("<select><option>x", 10_000, lambda count: "<select><option>x" * count),
    ("<template>", 10_000, lambda count: "<template>" * count),
    ("<body> with other attributes", 10_000, lambda count: "".join(f"<body a{n}=b>" for n in range(count))),
    ("<svg> and end tags of others", 5_000, lambda count: "<svg>" * count + "</x>" * count),
    ("</p> below <div>", 5_000, lambda count: "<div>" * count + "</p>" * count),
    ("<b></b><p></p> below <div>", 5_000, lambda count: "<div>" * count + "<b></b><p></p>" * count),
    ("<li></li> below <span>", 5_000, lambda count: "<span>" * count + "<li></li>" * count),
    ("nested <ul><li>", 5_000, lambda count: "<ul><li>" * count),
    ("</x> below <span>", 5_000, lambda count: "<span>" * count + "</x>" * count),
    ("</h1> below <span>", 5_000, lambda count: "<span>" * count + "</h1>" * count),
    ("<table></table> below <div>", 5_000, lambda count: "<div>" * count + "<table></table>" * count),
    ("</body> below <optgroup>", 5_000, lambda count: "<optgroup>" * count + "</body>" * count),
    ("<b> of other attributes", 5_000, lambda count: "".join(f"<b a{n}>" for n in range(count))),
    ("<b>x<i></b></i><p></p> below <div>", 5_000, lambda count: "<div>" * count + "<b>x<i></b></i><p></p>" * count),
    ("<x> below <b>", 8_000, lambda count: "<b>" + "<x>" * count),
    ("y<br> below <x> below <b>", 8_000, lambda count: "<b>" + "<x>" * count + "y<br>" * count),
    ("<a> below <b>", 8_000, lambda count: "<b>" * count + "<a>" * count),
    ("<a> below <template>", 4_000, lambda count: "<template>" * count + "<a>" * count),
    ("<p><b></p>x below <div>", 2_000, lambda count: "<div>" * count + "<p><b></p>x" * count),
    ("letters in a frameset, bytes", 1_000_000, lambda size: "<frameset>" + "letters" * (size // 7)),
]


def run(program, page):
    """Runs a program on the file of a page: its processor seconds, and the most kilobytes that it held; nothing after 20 seconds."""
    with open(page, "rb") as source:
        command = ["timeout", "20", *program]
        child = subprocess.Popen(command, stdin=source, stdout=subprocess.DEVNULL, stderr=subprocess.DEVNULL)
        _, status, usage = os.wait4(child.pid, 0)
        child.returncode = os.waitstatus_to_exitcode(status)
    if child.returncode == 124:
        return None
    if child.returncode != 0:
        sys.exit(f"{program[0]}: status {child.returncode} on {page}")
    return usage.ru_utime + usage.ru_stime, usage.ru_maxrss


def write(folder, text):
    path = os.path.join(folder, "page.html")
    with open(path, "w", encoding="utf-8", newline="") as page:
        page.write(text)
    return path, os.path.getsize(path)


def whole(programs, folder, megabytes):
    """The page of so many megabytes: seconds and memory of each program, in turns, and the ratio of the first to the second."""
    path, size = write(folder, Page(1).text(megabytes * 1_000_000))
    rounds = [[run(program, path) for program in programs] for _ in range(7)]
    if any(seen is None for one in rounds for seen in one):
        sys.exit("a run took more than 20 seconds")
    for place, program in enumerate(programs):
        seconds = statistics.median(r[place][0] for r in rounds)
        kilobytes = max(r[place][1] for r in rounds)
        speed = size / seconds / 1e6
        held = kilobytes / 1000
        print(f"{os.path.basename(program[0])}: {size} bytes in {seconds:.2f} s, {speed:.1f} MB a second, {held:.0f} MB held")
    if len(programs) == 2:
        ratio = statistics.median(r[0][0] / r[1][0] for r in rounds)
        print(f"ratio of the times in one round: {ratio:.2f}")


def layers(program, folder):
    """Where the processor time goes on the page that was written last, by crate, where `perf` is there."""
    if shutil.which("perf") is None:
        return
    data = os.path.join(folder, "perf.data")
    page = os.path.join(folder, "page.html")
    command = ["perf", "record", "-q", "-o", data, *program]
    with open(page, "rb") as source:
        subprocess.run(command, stdin=source, stdout=subprocess.DEVNULL, stderr=subprocess.DEVNULL, check=True)
    command = ["perf", "report", "-q", "-i", data, "--sort", "symbol,dso", "-t", "|"]
    report = subprocess.run(command, capture_output=True, text=True, check=True).stdout
    sums = {}
    for line in report.splitlines():
        parts = [part.strip() for part in line.split("|")]
        if len(parts) < 3 or not parts[0].endswith("%"):
            continue
        symbol = parts[1].split("]", 1)[-1].strip()
        crate = symbol.split("::")[0] if "::" in symbol else parts[2]
        sums[crate] = sums.get(crate, 0) + float(parts[0][:-1])
    for crate, share in sorted(sums.items(), key=lambda item: -item[1]):
        if share >= 0.5:
            print(f"{share:5.1f} % {crate}")


def growth(programs, folder):
    """How the time grows with 1, 2, 4 and 8 times each shape: a line for each program, which ends at a run of 20 seconds."""
    for label, least, make in SHAPES:
        for program in programs:
            seconds = []
            for times in (1, 2, 4, 8):
                path, _ = write(folder, make(least * times))
                seen = run(program, path)
                if seen is None:
                    break
                seconds.append(seen[0])
            told = "  ".join(f"{second:.3f}" for second in seconds)
            print(f"{label}, {least:,} and 2, 4, 8 times as many, {os.path.basename(program[0])}: {told} s")


def main():
    program, megabytes, *other = sys.argv[1:]
    table = os.path.join(os.path.dirname(os.path.abspath(__file__)), "../crates/bench_tokenizer/data/named_references.table")
    programs = [[program, table], *([name] for name in other)]
    with tempfile.TemporaryDirectory() as folder:
        whole(programs, folder, int(megabytes))
        layers(programs[0], folder)
        growth(programs, folder)


if __name__ == "__main__":
    main()
