#!/usr/bin/env python3
"""Puts what a cleaning program leaves of attacks into pages of headless Chromium.

    tools/attacks_in_browser.py 'COMMAND' [FILE.dat..]

COMMAND reads a fragment from standard input, in UTF-8, and prints it cleaned, as `figpliers clean` does. The attacks are the rows of
files, or of crates/conformance/data/attacks. Each cleaned text is written into a document behind each context's text, and is set as
`innerHTML` of an element in it; links are followed, and events are sent to every element. Prints each attack that calls `alert`, or makes
an element or an attribute that the policy for text and links does not keep, and the numbers of all; ends with status 1 if there is one.
"""
import argparse
import json
import pathlib
import re
import shlex
import subprocess
import sys

from compare_inner_text import run_in_browser

CONTEXTS = [
    "", "<div><p>", "<b><i><a><nobr>", "<h1><button>", "<ul><li>", "<dl><dd>", "<ruby><rt>", "<details><summary>", "<form><object>",
    "<table>", "<table><caption>", "<table><colgroup>", "<table><tr>", "<table><tr><td>", "<select>", "<select><option>", "<template>",
    "<svg>", "<svg><foreignObject>", "<svg><desc>", "<math>", "<math><mtext><table>", "<math><annotation-xml>",
]

# what the contexts make, and the parser by itself
MADE = """html head body tbody colgroup tr div p b i a nobr h1 button ul li dl dd ruby rt details summary form object table caption td select
option template svg foreignobject desc math mtext annotation-xml""".split()

# what the policy for text and links keeps
KEPT = """a abbr acronym area article aside b bdi bdo blockquote br caption center cite code col colgroup data dd del details dfn div dl dt em
figcaption figure footer h1 h2 h3 h4 h5 h6 header hgroup hr i img ins kbd li map mark nav ol p pre q rp rt rtc ruby s samp small span
strike strong sub summary sup table tbody td tfoot th thead time tr tt u ul var wbr""".split()

ATTRIBUTES = """align alt char charoff cite colspan datetime dir headers height href hreflang lang rel rowspan scope size span src start
summary title width""".split()

SCRIPT = """<!DOCTYPE html><body><script>
const texts = %s, contexts = %s, elements = new Set(%s), attributes = new Set(%s);
let ran = false;
function look(root, found) {
    for (const element of root.querySelectorAll('*')) {
        if (!elements.has(element.localName.toLowerCase())) found.add('<' + element.localName + '>');
        for (const attribute of element.attributes) {
            if (!attributes.has(attribute.localName)) found.add(element.localName + ' ' + attribute.name);
        }
        for (const kind of ['click', 'error', 'load', 'focus', 'mouseover', 'toggle', 'animationstart']) {
            element.dispatchEvent(new Event(kind, {cancelable: true}));
        }
        if (element.localName === 'a' && /^(javascript|vbscript|data):/.test(element.protocol || '')) found.add(element.href);
        if (element.content) look(element.content, found);
    }
}
const answers = texts.map(text => {
    const found = new Set();
    for (const context of contexts) {
        const frame = document.createElement('iframe');
        document.body.appendChild(frame);
        const inner = frame.contentDocument;
        frame.contentWindow.alert = () => { ran = true; };
        ran = false;
        inner.open();
        inner.write('<script>alert = parent.caught</scr' + 'ipt>' + context + text);
        inner.close();
        inner.querySelectorAll('script').forEach(script => { if (script.textContent === 'alert = parent.caught') script.remove(); });
        look(inner, found);
        const box = inner.createElement('div');
        (inner.body || inner.documentElement).appendChild(box);
        box.innerHTML = context + text;
        look(box, found);
        if (ran) found.add('ran');
        frame.remove();
    }
    return [...found];
});
function caught() { ran = true; }
window.caught = caught;
const result = document.createElement('pre');
result.id = 'result';
result.textContent = btoa(unescape(encodeURIComponent(JSON.stringify(answers))));
document.body.appendChild(result);
</script>"""


def without_escapes(text):
    """A row's text without its escapes."""
    named = {"n": "\n", "r": "\r", "t": "\t", "0": "\0", "\\": "\\"}
    return re.sub(r"\\(?:u\{([0-9A-Fa-f]+)\}|(.))", lambda it: chr(int(it[1], 16)) if it[1] else named[it[2]], text)


def rows(path):
    """The attacks of a file of rows."""
    for heading, text in re.findall(r"^#(data|escaped)\n(.*?)\n#", path.read_text(), re.S | re.M):
        yield without_escapes(text) if heading == "escaped" else text


def main():
    parser = argparse.ArgumentParser(description=__doc__, formatter_class=argparse.RawDescriptionHelpFormatter)
    parser.add_argument("--chromium", default="chromium", help="the browser's command")
    parser.add_argument("command", help="the cleaning program's command")
    parser.add_argument("files", nargs="*", type=pathlib.Path)
    asked = parser.parse_args()
    folder = pathlib.Path(__file__).resolve().parent.parent / "crates/conformance/data/attacks"
    attacks = [attack for path in asked.files or sorted(folder.glob("*.dat")) for attack in rows(path)]
    cleaned = []
    for attack in attacks:
        done = subprocess.run(shlex.split(asked.command), input=attack.encode(), capture_output=True, check=True)
        cleaned.append(done.stdout.decode())
    answers = []
    for first in range(0, len(cleaned), 50):
        parts = [json.dumps(it).replace("<", "\\u003c") for it in (cleaned[first:first + 50], CONTEXTS, KEPT + MADE, ATTRIBUTES)]
        answers += run_in_browser(asked.chromium, SCRIPT % tuple(parts))
    outside = 0
    for attack, found in zip(attacks, answers):
        if found:
            outside += 1
            print(f"{attack!r}: {', '.join(found)}")
    print(f"{len(attacks)} attacks, {len(CONTEXTS)} contexts, {outside} outside")
    sys.exit(1 if outside else 0)


if __name__ == "__main__":
    main()
