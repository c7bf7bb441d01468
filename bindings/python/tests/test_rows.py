"""The rows that all bindings are tested with, the examples of the module, and what no row says."""
import ctypes
import doctest
import io
import os
import pickle
import threading

import figpliers
import figpliers.library
import figpliers.tree
import testing
from testing import check, rows_of

def told(report):
    """The numbers of a report as the rows have them."""
    return f"{'+' if report.errors else 0},0,{('no', 'limited', 'yes').index(report.quirks)},{int(report.plain)}"


def called(name, table, page):
    """Answer, numbers and text of a row's call."""
    try:
        if name.startswith("clean"):
            words = (page, table) if name.endswith("_by") else (page,)
            text, counts = getattr(figpliers, name.removesuffix("_by"))(*words)
            return 0, ",".join(map(str, (0, *counts))), text.encode()
        if name == "decode":
            made = figpliers.decode(page, table.decode())
            why = ("mark", "label", "declaration", "nothing").index(made.why)
            return 0, f"{'+' if made.errors else 0},0,{made.encoding},{why}", made.text.encode()
        if name == "policy":
            return 0, "0,0,0,0", figpliers.policy(page).encode()
        if name == "errors":
            text = "".join(f"{it.line}: {it.message}\n" for it in figpliers.errors(page))
            return 0, told(figpliers.normalise(page)[1]), text.encode()
        words = (page, table) if name.endswith("_with") else (page,)
        if name == "select":
            # the table of a row is its selectors
            nodes = figpliers.parse(page).select(table)
            return 0, told(figpliers.normalise(page)[1]), b"".join(node._number.to_bytes(4, "little") for node in nodes)
        if name == "placed_tree":
            document = figpliers.parse(page, places=True)
            return 0, told(figpliers.normalise(page)[1]), document.image + document.places
        if name == "fragment_tree":
            document = figpliers.fragment(page, table.decode(errors="surrogateescape"))
            return 0, told(figpliers.Report(document.errors, document.quirks, False)), document.image
        if name.startswith("tree"):
            document = figpliers.parse(*words)
            text, report = document.image, figpliers.normalise(*words)[1]
            check((document.errors, document.quirks) == (report.errors, report.quirks), "the header of an image")
        else:
            text, report = figpliers.normalise(*words)
        return 0, told(report), text.encode() if isinstance(text, str) else text
    except figpliers.Fault as fault:
        numbers = f"{fault.at},0,0,0,0" if name.startswith("clean") else f"0,{fault.at},0,0"
        return fault.answer, numbers, b""


def rows():
    for name, table, page, answer, numbers, text in rows_of("rows.tsv"):
        got = called(name.decode(), table, page)
        check(got == (int(answer), numbers.decode(), text), f"{name} {table} {page} {got}")


def layout():
    """What test.sh compares with C's."""
    library = figpliers.library
    structures = {"fig_report": library.FigReport, "fig_cleaned": library.FigCleaned, "fig_decoded": library.FigDecoded}
    for name, structure in structures.items():
        for field, kind in structure._fields_:
            yield f"{name}.{field} {getattr(structure, field).offset} {ctypes.sizeof(kind)}"
    for name, structure in structures.items():
        yield f"{name} {ctypes.sizeof(structure)}"


rows()
threads = [threading.Thread(target=rows) for _ in range(4)]
for thread in threads:
    thread.start()
for thread in threads:
    thread.join()
check(figpliers.normalise("<p>" * 1000)[0].count("</p>") == 1000, "where the first guess of room is too short")
many = figpliers.parse("<p>" * 1000)
check(len(many.elements("p")) == 1000, "many elements")
check(len(list(figpliers.parse("<div>" * 20000).walk())) == 20003, "deep elements")
check(figpliers.Document(many.image).root.last_child.last_child.previous.parent.name == "body", "an image that was handed on")
odd = figpliers.parse("<!DOCTYPE a PUBLIC 'b'><svg xlink:href=c><title>d</title></svg><template><i>e</i></template><?f>")
check(odd.first_child.identifiers == ("b", "") and odd.first_child.name == "a", "a doctype")
check(list(odd.elements("svg", figpliers.NAMESPACES[3])[0].attrs.items()) == [("xlink:href", "c")], "an attribute with a prefix")
[template] = odd.elements("template")
check(template.children == [] and template.contents.text() == "e" and template.text() == "", "the contents of a template")
check(odd.text() == "d" and odd.root.last_child.last_child.data == "?f", "texts")
check(odd.select_one("svg|title").text() == "d" and odd.select_one("p") is None, "the first that is selected")
check(len(figpliers.Document(odd.image).select("svg *")) == 1, "selectors on an image alone")
check([it.name for it in odd.select_one("body").select(":scope > *")] == ["svg", "template"], "selectors below a node")
check(template.attrs == {} and not template.contents.parent and template.next.kind == "comment", "nodes beside a template")
top = figpliers.element("<!DOCTYPE html><p id=a>b<svg><path/></svg>c")
check(top.find("body/p").get("id") == "a", "an element")
check(top.find("body/p/{http://www.w3.org/2000/svg}svg").tail == "c", "an element of SVG")
check(len(figpliers.element("<p>" * 1000).find("body")) == 1000, "many elements of etree")

def of_node(call, document, number):
    return figpliers.library.of_node(call, document.image, number)


serialize, text_content = figpliers.library.fig_serialize, figpliers.library.fig_text_content
for document in (odd, many, figpliers.parse("<template a=b><p>c<template>d</template></template><script>e<f</script><table>g<td>h")):
    for number in range(len(document._image.records())):
        node = figpliers.Node(document._image, number)
        check(node.html() == of_node(serialize, document, number), f"HTML of node {number}")
        check(node.text() == of_node(text_content, document, number), f"the text of node {number}")
broken = bytearray(many.image)
broken[36] ^= 1
for call, answer in ((lambda: figpliers.Document(bytes(broken)).html(), 48), (lambda: of_node(serialize, odd, 1000), 49)):
    try:
        call()
        check(False, "a fault")
    except figpliers.Fault as fault:
        check((fault.answer, fault.at) == (answer, 0) and str(pickle.loads(pickle.dumps(fault))) == str(fault), f"{fault}")
sent = pickle.loads(pickle.dumps(figpliers.parse("<p>a<p>b")))
check(sent.select_one("p + p").html() == "<p>b</p>", "a document that was sent to another process")
placed = figpliers.parse("<p>a\n<p>b", places=True)
sent = pickle.loads(pickle.dumps(placed))
check([(it.line, it.column) for it in sent.select("p")] == [(1, 1), (2, 1)] and sent.image == placed.image, "places that were sent")
check(odd.line is None and odd.column is None and figpliers.Document(placed.image).line is None, "no places")
for wrong in (lambda: figpliers.parse("<p>", "x; 41", places=True), lambda: figpliers.Document(placed.image, b"1234")):
    try:
        wrong()
        check(False, "wrong places")
    except (TypeError, ValueError):
        check(True, "")
check(odd.links() == [] and figpliers.parse("<a href='//['>").links("http://[")[0][1] == "//[", "links that cannot be read")
for wrong in (1, None, ["<p>"]):
    for call in (figpliers.normalise, figpliers.parse, figpliers.fragment, figpliers.errors, figpliers.clean, figpliers.decode):
        try:
            call(wrong)
            check(False, "a wrong argument")
        except TypeError:
            check(True, "")
for call in (figpliers.normalise, figpliers.parse, figpliers.clean):
    try:
        call("a\u00e9\ud800")
        check(False, "a lone surrogate")
    except figpliers.Fault as fault:
        check((fault.answer, fault.at) == (1, 3), f"{fault}")
for page in (b"<p>a", bytearray(b"<p>a"), memoryview(b"<p>a"), io.BytesIO(b"<p>a"), io.StringIO("<p>a")):
    check(figpliers.parse(page).select_one("p").text() == "a", "what a page is given as")
for module, examples in ((figpliers, 12), (figpliers.tree, 19)):
    outcome = doctest.testmod(module)
    check(outcome.failed == 0 and outcome.attempted == examples, f"the examples of {module.__name__}")
if "FIGPLIERS_LAYOUT" in os.environ:
    with open(os.environ["FIGPLIERS_LAYOUT"], "w", encoding="ascii") as file:
        file.write("\n".join(layout()) + "\n")
testing.end()
