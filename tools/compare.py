#!/usr/bin/env python3
"""Compares two programs that read a page and write its document's text, on random pages.

compare.py OURS THEIRS [SEED [COUNT]]

OURS and THEIRS are commands, as "out/html_normal_cli named_references.table" and "html2html". The pages are tag soup: names of all
kinds of elements, end tags that fit nothing, attributes, references, comments, doctypes, raw text, U+0000 and line ends. Each
difference is shown by a smaller page that still has it. The status is 1 where there is one.
"""
import random
import re
import shlex
import subprocess
import sys

HTML = """html head body title base link meta style script noscript template frameset frame noframes p div span a b i em strong nobr
font big code s small strike tt u h1 h2 h3 h6 ul ol li dl dt dd table caption colgroup col tbody thead tfoot tr td th form button
input select option optgroup textarea fieldset applet marquee object address article section center pre listing plaintext xmp
iframe noembed br hr img image area embed param source track wbr keygen ruby rb rt rp rtc main nav menu details summary dialog
search svg math bgsound basefont command hgroup""".split()
NESTING = "table tr td tbody a b i p div svg math template select option form li title body html".split()
FOREIGN = """svg g path foreignObject foreignobject desc title circle clippath linearGradient font script style a textpath image
math mi mo mn ms mtext mglyph malignmark annotation-xml annotation mrow""".split()
ATTRIBUTES = ["x=1", "X=1", "x=2", "id=a", "class='b c'", 'href="u&amp;v"', "type=hidden", "type=HIDDEN", "color=red", "face",
              "encoding=text/html", "encoding='application/xhtml+xml'", "definitionurl=q", "viewbox=1", "xlink:href=z",
              "xml:lang=en", "xmlns=w", "xmlns:xlink=w", "a=&notit;", "b=&ampx", "c='&lt'", "y=`", "=z", 'q"', "charset=utf-8",
              "shadowrootmode=open", "form=f", "selected"]
TEXTS = ["a", "b c", " ", "\n", "\t", "\r\n", "\r", "\f", "x y ", "&amp;", "&lt", "&notit;", "&#65;", "&#x80;", "&#0;", "&zz;",
         "&", "\u00e9", "\u00a0", "\0", "\u65e5\u672c", "<", "</", "<!", "--", "-->", "]]>", "&NotEqualTilde;", "&hearts",
         "&#xD800;", "12345", "\n\n"]
MARKUP = ["<!--c-->", "<!-->", "<!--->", "<!--a--!>", "<!--a", "<!--<!---->", "<?pi?>", "</ x>", "<!x>", "<![CDATA[a]]>",
          "<![CDATA[b]]]>", "<![CDATA[<p>\0]]>", "<!DOCTYPE html>", "<!doctype>", "<!DOCTYPE x>",
          '<!DOCTYPE html PUBLIC "-//W3C//DTD HTML 4.01 Transitional//EN">', '<!DOCTYPE html SYSTEM "about:legacy-compat">',
          "<script>a<b</script>", "<script><!--<script></script>", "<style>a</style>", "<title>t&lt;</title>",
          "<textarea>\n x</textarea>", "<pre>\n\na</pre>", "<xmp><b></xmp>", "<noscript><p></noscript>"]
FRONTS = ["", "", "<!DOCTYPE html>", "<!DOCTYPE html><body>", "<table>", "<table><tr><td>", "<svg>", "<math>", "<template>",
          "<frameset>", "<select>"]


def name(pick):
    kind = pick.random()
    names = NESTING if kind < 0.35 else HTML if kind < 0.85 else FOREIGN
    chosen = pick.choice(names)
    return chosen if pick.random() < 0.9 else chosen.upper()


def item(pick):
    kind = pick.random()
    if kind < 0.45:
        attributes = "".join(" " + pick.choice(ATTRIBUTES) for _ in range(pick.choice([0, 0, 0, 1, 1, 2, 3])))
        return "<" + name(pick) + attributes + pick.choice(["", "", "", "", "/", " /"]) + ">"
    if kind < 0.70:
        return "</" + name(pick) + pick.choice(["", "", "", "", " ", " x=1", "/"]) + ">"
    return pick.choice(TEXTS) if kind < 0.92 else pick.choice(MARKUP)


def page(pick):
    return pick.choice(FRONTS) + "".join(item(pick) for _ in range(pick.choice([3, 6, 10, 20, 40, 80])))


def written(command, text):
    run = subprocess.run(command, input=text.encode(), stdout=subprocess.PIPE, stderr=subprocess.DEVNULL)
    return run.returncode, run.stdout


def smaller(differ, text):
    """A page with fewer parts that still makes a difference."""
    parts = re.findall(r"<[^<>]*>|[^<>]+|[<>]", text)
    place = 0
    while place < len(parts):
        rest = parts[:place] + parts[place + 1:]
        if differ("".join(rest)):
            parts, place = rest, 0
        else:
            place += 1
    return "".join(parts)


def main():
    ours, theirs = shlex.split(sys.argv[1]), shlex.split(sys.argv[2])
    seed = int(sys.argv[3]) if len(sys.argv) > 3 else 1
    count = int(sys.argv[4]) if len(sys.argv) > 4 else 1000
    pick = random.Random(seed)
    differ = lambda text: written(ours, text) != written(theirs, text)
    different = 0
    for _ in range(count):
        text = page(pick)
        if differ(text):
            different += 1
            text = smaller(differ, text)
            print(repr(text), written(ours, text), written(theirs, text), sep="\n  ", flush=True)
    print(f"{different} of {count} pages differ")
    return 1 if different else 0


if __name__ == "__main__":
    sys.exit(main())
