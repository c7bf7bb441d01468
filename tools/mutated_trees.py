#!/usr/bin/env python3
"""Trees that no page need give, for the program bench_pages.

    (cd crates/bench_pages && rt run -- judge TREES)
    python3 tools/mutated_trees.py COUNT SEED FILE.dat.. > TREES

Each `#document` of the files, which have html5lib's format, is a tree. COUNT of them are drawn with SEED, and changed in up to five places: a
node is moved, doubled, renamed, put into another, taken out of its parent, or taken away; a text, a comment or an attribute comes
in. `crates/bench_pages/src/trees.rt` has the format that is written. The name of TREES has to end in `.trees`.
"""
import copy
import random
import re
import sys

HTML = "http://www.w3.org/1999/xhtml"
SPACES = {"svg": "http://www.w3.org/2000/svg", "math": "http://www.w3.org/1998/Math/MathML"}
ATTRIBUTE_SPACES = {
    "xlink": "http://www.w3.org/1999/xlink", "xml": "http://www.w3.org/XML/1998/namespace", "xmlns": "http://www.w3.org/2000/xmlns/"}

NAMES = """nobr p table tbody tr td th caption colgroup col select option optgroup form button a b i font div span li ul dd dt dl h1 h2 ruby rb
rt rtc rp template object svg math foreignObject desc title mi mo annotation-xml pre listing textarea script style noscript iframe xmp plaintext
image input hr br img frameset frame body html head x-y main linearGradient applet marquee address section em strong u code""".split()
TEXTS = [" ", "\n", "x", "\n a", "a\n", "&lt;", "</script>", "<!--", "<script>", "\r", "\0", "-->", "\u00a0", "</style ", "</xmp>", "\t"]
COMMENTS = ["", "a", "-", "--", ">", "->", "a-->b", "--!>", "<!-", "<!--", "a-", "a--!", "\0", "\r", "<!"]
ATTRIBUTES = [
    ("-", "", "id", "x"), ("-", "", "type", "hidden"), ("-", "", "color", "red"), ("-", "", "a:b", "&\"<"), ("-", "", "=", ""),
    ("-", "", "a\"", "'"), ("xlink", ATTRIBUTE_SPACES["xlink"], "href", "#"), ("-", "", "viewBox", "0"), ("-", "", "viewbox", "0"),
    ("-", "", "encoding", "text/html"), ("", ATTRIBUTE_SPACES["xmlns"], "xmlns", "q"), ("-", "", "a b", ""), ("-", "", "", ""),
    ("-", "", "x", "\0"), ("-", "", "y", "a\rb")]


def documents(text):
    """The trees of a file. A node is a kind, its words, and the nodes in it."""
    for block in re.findall(r"^#document\n((?:\|.*\n(?:(?![|#]).*\n)*?)*)", text, re.M):
        root = ["document", [], []]
        open_nodes = [(-2, root)]
        for depth, word in re.findall(r"^\| ( *)((?s:.)*?)\n(?=\| |#|\n*\Z|\n#)", block + "#", re.M):
            depth = len(depth)
            while open_nodes[-1][0] >= depth:
                open_nodes.pop()
            parent = open_nodes[-1][1]
            node = None
            if word.startswith("<!DOCTYPE "):
                node = ["<", [word[10:-1].split(" ")[0]], []]
            elif word.startswith("<!-- "):
                node = ["!", [word[5:-4]], []]
            elif word.startswith("<"):
                *space, name = word[1:-1].split(" ")
                node = ["+", [SPACES[space[0]] if space else HTML, name, []], []]
            elif word.startswith('"'):
                node = ["=", [word[1:-1]], []]
            elif word == "content":
                open_nodes.append((depth, parent))
            elif "=" in word and parent[0] == "+":
                name, value = word.split('="', 1)
                *space, local = name.split(" ")
                prefix = space[0] if space else "-"
                parent[1][2].append((prefix, ATTRIBUTE_SPACES.get(prefix, ""), local, value[:-1]))
            if node:
                parent[2].append(node)
                open_nodes.append((depth, node))
        if root[2]:
            yield root


def pairs(node):
    """Each node below a node, with what it is in."""
    for child in node[2]:
        yield node, child
        yield from pairs(child)


def element(draw):
    space = draw.choice([HTML] * 8 + list(SPACES.values()))
    return ["+", [space, draw.choice(NAMES), [draw.choice(ATTRIBUTES)] if draw.random() < 0.15 else []], []]


def change(draw, root):
    """Changes a tree in one place."""
    every = list(pairs(root))
    if not every:
        return
    parent, node = draw.choice(every)
    at = next(i for i, child in enumerate(parent[2]) if child is node)
    holders = [root] + [child for _, child in every if child[0] == "+"]
    holder = draw.choice(holders)
    place = draw.randint(0, len(holder[2]))
    kind = draw.randrange(10)
    if kind == 0 and node[0] == "+":
        node[1][1] = draw.choice(NAMES)
    elif kind == 1:
        holder[2].insert(place, element(draw))
    elif kind == 2:
        holder[2].insert(place, ["=", [draw.choice(TEXTS)], []])
    elif kind == 3:
        holder[2].insert(place, ["!", [draw.choice(COMMENTS)], []])
    elif kind == 4:
        parent[2][at:at + 1] = node[2]
    elif kind == 5:
        around = element(draw)
        around[2] = [node]
        parent[2][at] = around
    elif kind == 6:
        holder[2].insert(place, copy.deepcopy(node))
    elif kind == 7 and node[0] == "+":
        node[1][2].append(draw.choice(ATTRIBUTES))
    elif kind == 8:
        parent[2].pop(at)
    elif not any(child is holder for _, child in [(None, node), *pairs(node)]):
        parent[2].pop(at)
        holder[2].insert(min(place, len(holder[2])), node)


def escaped(text):
    for character, word in [("\\", "\\\\"), ("\n", "\\n"), ("\r", "\\r"), ("\t", "\\t"), ("\0", "\\0")]:
        text = text.replace(character, word)
    return text


def write(node, out):
    for kind, words, inner in node[2]:
        if kind == "+":
            space, name, attributes = words
            out.append("\t".join(["+", space, name] + [escaped(word) for attribute in attributes for word in attribute]))
            write([kind, words, inner], out)
            out.append("-")
        elif kind != "<" or node[0] == "document":
            out.append(kind + "\t" + escaped(words[0]))


def main():
    count, seed, files = int(sys.argv[1]), int(sys.argv[2]), sys.argv[3:]
    draw = random.Random(seed)
    trees = [tree for file in files for tree in documents(open(file, encoding="utf-8", newline="").read())]
    trees = [tree for tree in trees if sum(1 for _ in pairs(tree)) < 60]
    for _ in range(count):
        tree = copy.deepcopy(draw.choice(trees))
        for _ in range(draw.choice([1, 1, 1, 2, 2, 3, 5])):
            change(draw, tree)
        out = []
        write(tree, out)
        print("\n".join(out + ["."]))


main()
