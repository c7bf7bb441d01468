#!/usr/bin/env python3
"""Compares the trees of random documents and fragments with those of browsers.

    tools/compare_trees.py 'figpliers tree --encoding utf-8' [--count N] [--seed N] [--browser COMMAND]..

The command reads a page from the file that comes last, and prints its tree as html5lib's tests do; with `--fragment NAME` before the
file, that of a fragment. The browsers, Chromium and Firefox unless others are named, parse the same texts without scripting, by
DOMParser and by innerHTML. Where all browsers have one tree and the program has another, a smaller text that still does so is printed.
Ends with the numbers of texts, of those on which the browsers do not agree, and of those on which they agree and the program differs;
with status 1 if there are such.
"""
import argparse
import concurrent.futures
import http.server
import json
import pathlib
import queue
import random
import re
import shlex
import subprocess
import sys
import tempfile
import threading

import compare

CONTEXTS = """div p body html head table tbody tr td caption colgroup select option form button template title textarea style script b a li
ul dd ruby frameset svg math""".split()
# Where a context leads to one of the rules that are seldom met.
FRONTS = ["", "<!DOCTYPE html>", "<table>", "<template>", "<select>", "<math><annotation-xml encoding=text/html>", "<svg><desc>",
          "<math><mtext>", "<form>", "<b><search>", "<p><svg><foreignObject>", "<table><tr><td>", "<ruby><rb>", "<table> "]

PAGE = """<!DOCTYPE html><meta charset=utf-8><script>
const spaces = {'http://www.w3.org/2000/svg': 'svg ', 'http://www.w3.org/1998/Math/MathML': 'math '};
const prefixes = {
    'http://www.w3.org/1999/xlink': 'xlink ', 'http://www.w3.org/XML/1998/namespace': 'xml ', 'http://www.w3.org/2000/xmlns/': 'xmlns ',
};
function lines(parent, indent, found) {
    for (const node of parent.childNodes) {
        if (node.nodeType === 10) {
            const ids = node.publicId || node.systemId ? ` "${node.publicId}" "${node.systemId}"` : '';
            found.push(`${indent}<!DOCTYPE ${node.name}${ids}>`);
        } else if (node.nodeType === 8) {
            found.push(`${indent}<!-- ${node.data} -->`);
        } else if (node.nodeType === 3) {
            found.push(`${indent}"${node.data}"`);
        } else if (node.nodeType === 1) {
            found.push(`${indent}<${spaces[node.namespaceURI] || ''}${node.localName}>`);
            const attributes = [...node.attributes].map(a => [(prefixes[a.namespaceURI] || '') + a.localName, a.value]);
            attributes.sort((a, b) => a[0] < b[0] ? -1 : a[0] > b[0] ? 1 : 0);
            for (const [name, value] of attributes) found.push(`${indent}  ${name}="${value}"`);
            if (node.content) {
                found.push(indent + '  content');
                node.content.normalize();
                lines(node.content, indent + '    ', found);
            }
            lines(node, indent + '  ', found);
        }
    }
    return found;
}
function tree([context, text]) {
    let root = new DOMParser().parseFromString(context === null ? text : '<!DOCTYPE html>', 'text/html');
    if (context !== null) {
        const owner = root;
        root = owner.createElement(context);
        root.innerHTML = text;
        root = root.content || root;
    }
    root.normalize();
    return lines(root, '| ', []).join('\\n');
}
async function run() {
    for (;;) {
        const texts = await (await fetch('/texts')).json();
        await fetch('/trees', {method: 'POST', body: JSON.stringify(texts.map(tree))});
    }
}
run();
</script>"""


class Browser:
    """A browser that makes trees of texts; it asks a server of ours for them."""

    def __init__(self, command, folder):
        self.texts, self.trees = queue.Queue(), queue.Queue()
        browser = self

        class Handler(http.server.BaseHTTPRequestHandler):
            """Hands out the page and the texts, and takes the trees."""

            def answer(self, kind, body):
                self.send_response(200)
                self.send_header("Content-Type", kind)
                self.send_header("Content-Length", str(len(body)))
                self.end_headers()
                self.wfile.write(body)

            def do_GET(self):
                if self.path == "/texts":
                    self.answer("application/json", json.dumps(browser.texts.get()).encode())
                else:
                    self.answer("text/html; charset=utf-8", PAGE.encode() if self.path == "/" else b"")

            def do_POST(self):
                browser.trees.put(json.loads(self.rfile.read(int(self.headers["Content-Length"]))))
                self.answer("text/plain", b"")

            def log_message(self, *words):
                pass

        server = http.server.ThreadingHTTPServer(("127.0.0.1", 0), Handler)
        threading.Thread(target=server.serve_forever, daemon=True).start()
        page = f"http://127.0.0.1:{server.server_port}/"
        if "firefox" in command:
            words = ["--headless", "--no-remote", "--profile", folder, page]
        else:
            words = ["--headless", "--no-sandbox", "--disable-gpu", "--user-data-dir=" + folder, page]
        self.process = subprocess.Popen([command] + words, stdout=subprocess.DEVNULL, stderr=subprocess.DEVNULL)

    def trees_of(self, texts):
        """The trees of texts, each with its context or none."""
        found = []
        for start in range(0, len(texts), 500):
            self.texts.put(texts[start:start + 500])
            found += self.trees.get(timeout=600)
        return found


def our_trees(command, texts, folder):
    """The trees that the program has of them."""
    def tree(numbered):
        number, (context, text) = numbered
        file = pathlib.Path(folder, f"{number}.html")
        file.write_bytes(text.encode())
        words = shlex.split(command) + (["--fragment", context] if context else []) + [str(file)]
        done = subprocess.run(words, capture_output=True, check=False)
        file.unlink()
        return done.stdout.decode().rstrip("\n")
    with concurrent.futures.ThreadPoolExecutor(4) as pool:
        return list(pool.map(tree, enumerate(texts)))


def random_text(pick):
    """A text and its context, or none."""
    context = pick.choice(CONTEXTS) if pick.random() < 0.4 else None
    front = pick.choice(FRONTS) if pick.random() < 0.5 else ""
    text = front + "".join(compare.item(pick) for _ in range(pick.choice([2, 4, 6, 10, 20])))
    return context, re.sub("(?i)noscript|\\ufeff|\\0|shadowrootmode", "b", text)


def differences(command, browsers, texts, folder):
    """How many texts the browsers do not agree on, and those on which they agree and the program differs, with both trees."""
    theirs = [browser.trees_of(texts) for browser in browsers]
    ours = our_trees(command, texts, folder)
    split = sum(len(set(trees)) > 1 for trees in zip(*theirs))
    return split, [(text, own, trees[0]) for text, own, *trees in zip(texts, ours, *theirs) if len(set(trees)) == 1 and own != trees[0]]


def parts_of(text):
    """Its tags, comments and words."""
    return re.findall(r"<[^<>]*>|[^<>]+|[<>]", text)


def made_smaller(command, browsers, found, folder):
    """Takes parts out of each text as long as it still differs."""
    left, done = list(found), []
    while left:
        tries, owners = [], []
        for number, ((context, text), _, _) in enumerate(left):
            parts = parts_of(text)
            for place in range(len(parts)):
                tries.append((context, "".join(parts[:place] + parts[place + 1:])))
                owners.append(number)
        _, still = differences(command, browsers, tries, folder)
        smaller = {text: (text, own, their) for text, own, their in still}
        best = {}
        for text, owner in zip(tries, owners):
            if text in smaller and owner not in best:
                best[owner] = smaller[text]
        done += [entry for number, entry in enumerate(left) if number not in best]
        left = list(best.values())
    return done


def main():
    parser = argparse.ArgumentParser(description=__doc__, formatter_class=argparse.RawDescriptionHelpFormatter)
    parser.add_argument("command", help="the program's command")
    parser.add_argument("--count", type=int, default=1000)
    parser.add_argument("--seed", type=int, default=1)
    parser.add_argument("--browser", action="append", help="a browser's command; chromium and firefox unless given")
    asked = parser.parse_args()
    pick = random.Random(asked.seed)
    texts = [random_text(pick) for _ in range(asked.count)]
    with tempfile.TemporaryDirectory() as folder:
        browsers = []
        for command in asked.browser or ["chromium", "firefox"]:
            own = pathlib.Path(folder, pathlib.Path(command).name)
            own.mkdir()
            browsers.append(Browser(command, str(own)))
        try:
            split, found = differences(asked.command, browsers, texts, folder)
            shown = set()
            smallest = made_smaller(asked.command, browsers, found, folder)
            for (context, text), own, their in sorted(smallest, key=lambda entry: len(entry[0][1])):
                if (context, text) not in shown:
                    shown.add((context, text))
                    print(f"{text!r}" + (f" in {context}" if context else "") + f"\n  here:\n{own}\n  browsers:\n{their}")
        finally:
            for browser in browsers:
                browser.process.kill()
                browser.process.wait()
    print(f"{len(texts)} texts, {split} on which the browsers do not agree, {len(found)} on which they do and the program differs")
    sys.exit(1 if found else 0)


if __name__ == "__main__":
    main()
