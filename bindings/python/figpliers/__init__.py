"""Figpliers, a verified HTML parser: the normal text of a page, its tree, and what a sanitizer keeps of it.

>>> text, report = normalise("<!DOCTYPE html><p>caf&eacute;")
>>> text
'<!DOCTYPE html><html><head></head><body><p>café</p></body></html>'
>>> report
Report(errors=0, quirks='no', plain=True)
>>> [link.attrs["href"] for link in parse("<p><a href=/b>c</a>").elements("a")]
['/b']
>>> clean("<b onclick=x>a</b><script>b</script>")[0]
'<b>a</b>'

A page is a str, or bytes in UTF-8, or a file that is open for reading either; anything else raises TypeError. The texts are what the
library's contracts say (its figpliers.h). Calls share nothing, and other threads run while one is made.
"""
from typing import IO, Callable, List, NamedTuple, Optional, Tuple, Union
from xml.etree.ElementTree import Element, TreeBuilder

from .library import ENCODINGS, Fault, FigCleaned, FigDecoded, FigReport, Page, bytes_of, with_room, words_of
from .library import fig_clean, fig_clean_by, fig_clean_document, fig_clean_document_by, fig_decode, fig_errors, fig_fragment_tree
from .library import fig_normalise, fig_normalise_with, fig_placed_tree, fig_policy, fig_tree, fig_tree_with
from .tree import NAMESPACES, Attributes, Document, Node, image_length

__all__ = [
    "Attributes",
    "Cleaned",
    "Decoded",
    "Document",
    "Fault",
    "Node",
    "ParseError",
    "Report",
    "clean",
    "clean_document",
    "decode",
    "element",
    "errors",
    "fragment",
    "normalise",
    "parse",
    "policy",
]
__version__ = "0.1.0"


class Report(NamedTuple):
    """What is told of a page: its parse errors, its quirks mode ("no", "limited" or "yes"), and whether it is plain, so that its
    normal text is read back as the same document, without an error."""

    errors: int
    quirks: str
    plain: bool


class ParseError(NamedTuple):
    """A parse error: the line of the page on which it was found, counted from 1, and the Standard's code of it, or words where it has
    none, which may change."""

    line: int
    message: str


class Cleaned(NamedTuple):
    """What cleaning took away: elements that gave way to what stands in them, elements that were dropped with it, attributes of
    elements that were kept, comments and processing instructions."""

    unwrapped: int
    dropped: int
    attributes: int
    comments: int


class Decoded(NamedTuple):
    """A page in UTF-8: its text, the name of its encoding as the Encoding Standard writes it, how that was found out ("mark", "label",
    "declaration" or "nothing"), and how many errors the page has in it, each of which stands as U+FFFD in the text."""

    text: str
    encoding: str
    why: str
    errors: int


def _told(report: FigReport) -> Report:
    return Report(report.errors, ("no", "limited", "yes")[report.quirks], bool(report.plain))


def _by(
    call: Callable[..., int], call_with: Callable[..., int], page: Page, table: Optional[Page], times: int, more: int
) -> Tuple[bytes, FigReport]:
    text = bytes_of(page)
    room = len(text) * times // 4 + more
    if table is None:
        return with_room(call, words_of(text), room, FigReport())
    return with_room(call_with, words_of(bytes_of(table), text), room, FigReport())


def normalise(page: Page, table: Optional[Page] = None) -> Tuple[str, Report]:
    """The normal text of a page: that of the document which the HTML Standard gives it.

    `table` has the named character references in place of the Standard's: lines of a name, a space and one to six hexadecimal
    digits, and for a second character a space and its digits. Raises Fault or MemoryError.
    """
    text, report = _by(fig_normalise, fig_normalise_with, page, table, 5, 256)
    return text.decode(), _told(report)


def decode(page: Union[bytes, bytearray, memoryview, IO[bytes]], label: Optional[str] = None) -> Decoded:
    """The text of a page that is in any encoding: in that of its byte order mark, or of `label`, which came with it, as in a header of
    HTTP; where neither is there, in that which the page declares, or in windows-1252. A label that names no encoding says nothing.
    Raises MemoryError.

    >>> decode(b"<meta charset=koi8-r><p>\\xd1")
    Decoded(text='<meta charset=koi8-r><p>я', encoding='KOI8-R', why='declaration', errors=0)
    """
    if isinstance(page, str):
        raise TypeError("a str is decoded already")
    coded = bytes_of(page)
    words = words_of((label or "").encode(errors="replace"), coded)
    text, report = with_room(fig_decode, words, len(coded) * 5 // 4 + 256, FigDecoded())
    why = ("mark", "label", "declaration", "nothing")[report.why]
    return Decoded(text.decode(), ENCODINGS[report.encoding], why, report.errors)


def parse(page: Page, table: Optional[Page] = None, *, places: bool = False) -> Document:
    """The document of a page. `table` is as in `normalise`. With `places` its nodes have their `line` and `column`, which takes about
    1.4 of the time; there is no table then. Raises Fault or MemoryError.

    >>> [item.line for item in parse("<ul>\\n<li>a\\n<li>b", places=True).elements("li")]
    [2, 3]
    """
    if not places:
        image, _ = _by(fig_tree, fig_tree_with, page, table, 16, 1024)
        return Document(image)
    if table is not None:
        raise TypeError("places go with the Standard's table")
    text = bytes_of(page)
    placed, _ = with_room(fig_placed_tree, words_of(text), len(text) * 5 + 1024, FigReport())
    length = image_length(placed)
    return Document(placed[:length], placed[length:])


def fragment(page: Page, context: str = "body") -> Document:
    """The tree that a page makes as a fragment, as where `innerHTML` of a new element of HTML of that name is set: its nodes are the
    children of the document's `root`. Raises Fault or MemoryError.

    >>> [child.name for child in fragment("<td>a<td>b", "tr").root]
    ['td', 'td']
    >>> fragment("<td>a<td>b").root.inner_html()
    'ab'
    """
    text = bytes_of(page)
    try:
        name = context.encode()
    except UnicodeEncodeError as error:
        raise Fault(80, len(context[: error.start].encode())) from None
    image, _ = with_room(fig_fragment_tree, words_of(name, text), len(text) * 4 + 1024, FigReport())
    return Document(image)


def errors(page: Page) -> List[ParseError]:
    """The parse errors of a page, in the order in which they are found. Raises Fault or MemoryError.

    >>> errors("<!DOCTYPE html>\\n<p id=a id=b>")
    [ParseError(line=2, message='duplicate-attribute')]
    """
    coded = bytes_of(page)
    text, _ = with_room(fig_errors, words_of(coded), len(coded) // 4 + 1024, FigReport())
    found = (line.split(": ", 1) for line in text.decode().split("\n")[:-1])
    return [ParseError(int(line), message) for line, message in found]


def element(page: Page, table: Optional[Page] = None) -> Element:
    """The document element of a page as xml.etree's, which cannot write it back as HTML.

    Names of SVG and MathML have their namespace in braces; what stands in a template is left out.
    """
    builder = TreeBuilder(insert_comments=True)
    open_nodes: List[Tuple[Node, str]] = []
    node = parse(page, table).root
    while node is not None:
        if node.kind == "element":
            name = node.name if node.namespace == NAMESPACES[1] else "{%s}%s" % (node.namespace, node.name)
            builder.start(name, {("{%s}%s" % it[:2] if it[0] else it[1]): it[2] for it in node.attrs.namespaced()})
            open_nodes.append((node, name))
            following = node.first_child
        else:
            if node.kind == "text":
                builder.data(node.data)
            elif node.kind == "comment":
                builder.comment(node.data)
            following = node.next
        while following is None and open_nodes:
            ended, name = open_nodes.pop()
            builder.end(name)
            following = ended.next if open_nodes else None
        node = following
    return builder.close()


def _cleaned(call: Callable[..., int], call_by: Callable[..., int], page: Page, policy: Optional[Page]) -> Tuple[str, Cleaned]:
    coded = bytes_of(page)
    room = len(coded) * 5 // 4 + 256
    if policy is None:
        text, report = with_room(call, words_of(coded), room, FigCleaned())
    else:
        text, report = with_room(call_by, words_of(bytes_of(policy), coded), room, FigCleaned())
    return text.decode(), Cleaned(report.unwrapped, report.dropped, report.attributes, report.comments)


def clean(page: Page, policy: Optional[Page] = None) -> Tuple[str, Cleaned]:
    """What a policy keeps of a page, read as what stands in a div: without `policy` text, links, tables and formatting. Raises Fault or
    MemoryError.

    `policy` has a rule in each line, as in docs/CLEANING.md; the function `policy` gives the ready ones.

    >>> clean("<p id=x><a href=https://b>c</a><b>d", policy="keep p\\nkeep a href\\nscheme https")[0]
    '<p><a href="https://b">c</a>d</p>'
    """
    return _cleaned(fig_clean, fig_clean_by, page, policy)


def clean_document(page: Page, policy: Optional[Page] = None) -> Tuple[str, Cleaned]:
    """The same of a page that is read as a document. Raises Fault or MemoryError."""
    return _cleaned(fig_clean_document, fig_clean_document_by, page, policy)


def policy(name: str) -> str:
    """The text of a ready policy: "text-alone", "text-and-links" (that of `clean`), "user-content" or "mail". Raises Fault or
    MemoryError.

    >>> policy("text-alone")
    'drop head iframe noembed noframes noscript script style template title\\n'
    """
    return with_room(fig_policy, words_of(bytes_of(name)), 4096, FigReport())[0].decode()
