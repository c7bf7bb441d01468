"""The tree of a page, read from its image (docs/TREE_IMAGE.md) as it is asked for: nothing is decoded before.

>>> from figpliers import parse
>>> page = parse("<!DOCTYPE html><title>A page</title><p id=a class='b c'>One <b>two</b><!--three-->")
>>> [p] = page.elements("p")
>>> p.name, p.attrs["class"], p.text()
('p', 'b c', 'One two')
>>> [child.kind for child in p.children]
['text', 'element', 'comment']
>>> p.parent.name, p.previous is None, page.elements("title")[0].text()
('body', True, 'A page')
>>> p.inner_html(), p.last_child.html()
('One <b>two</b><!--three-->', '<!--three-->')
"""
import struct
from collections.abc import Mapping
from typing import Iterator, List, Optional, Tuple, Type
from urllib.parse import urljoin, urlsplit

from .library import FigReport, bytes_of, fig_links, fig_select, fig_serialize, of_node, with_room, words_of

_NO_NODE = 0xFFFFFFFF
_HEADER = 32
_NODE = struct.Struct("<12I")
_ATTRIBUTE = struct.Struct("<6I")
_KINDS = {
    1: "element",
    3: "text",
    7: "processing instruction",
    8: "comment",
    9: "document",
    10: "doctype",
    11: "contents",
}
NAMESPACES = (
    "",
    "http://www.w3.org/1999/xhtml",
    "http://www.w3.org/1998/Math/MathML",
    "http://www.w3.org/2000/svg",
    "http://www.w3.org/1999/xlink",
    "http://www.w3.org/XML/1998/namespace",
    "http://www.w3.org/2000/xmlns/",
)
# a node with more than this part of all nodes in it is written from the whole image
_SHARE = 8


def image_length(data: bytes) -> int:
    """How many bytes an image has that other bytes follow."""
    return _HEADER + int(sum(struct.unpack_from("<3I", data, 8)))


class _Image:
    """An image, where its parts begin, and the places of its nodes, or nothing."""

    __slots__ = ("data", "places", "attributes", "texts", "_records")

    def __init__(self, data: bytes, places: bytes) -> None:
        if data[:4] != b"FIGT" or struct.unpack_from("<I", data, 4)[0] != 1:
            raise ValueError("this is no image of a tree, or one of a later version")
        nodes, attributes = struct.unpack_from("<2I", data, 8)
        if places and len(places) * 6 != nodes:
            raise ValueError("these are not the places of the nodes of this image")
        self.data = data
        self.places = places
        self.attributes = _HEADER + nodes
        self.texts = self.attributes + attributes
        self._records: Optional[List[Tuple[int, ...]]] = None

    def records(self) -> List[Tuple[int, ...]]:
        """The records of all nodes, which are unpacked once."""
        if self._records is None:
            self._records = list(_NODE.iter_unpack(memoryview(self.data)[_HEADER : self.attributes]))
        return self._records

    def below(self, top: int) -> Iterator[int]:
        """The numbers of the nodes below one, in tree order."""
        records = self.records()
        node = records[top][2]
        while node != _NO_NODE:
            yield node
            following = records[node][2]
            while following == _NO_NODE and node != top:
                following = records[node][5]
                if following == _NO_NODE:
                    node = records[node][1]
            node = following

    def node(self, number: int) -> Tuple[int, ...]:
        """The record of a node."""
        return self._records[number] if self._records is not None else _NODE.unpack_from(self.data, _HEADER + 48 * number)

    def place(self, number: int, word: int) -> Optional[int]:
        """The line of a node, or its column; None without places."""
        return int(struct.unpack_from("<I", self.places, 8 * number + 4 * word)[0]) if self.places else None

    def text(self, at: int, length: int) -> str:
        at += self.texts
        return self.data[at : at + length].decode()

    def attributes_of(self, words: Tuple[int, ...]) -> Iterator[Tuple[int, ...]]:
        """The records of the attributes of an element, by the element's record."""
        at = self.attributes + words[8]
        return _ATTRIBUTE.iter_unpack(self.data[at : at + 24 * words[9]])

    def inside(self, top: int, most: Optional[int]) -> Optional[List[int]]:
        """The numbers of a node and of all nodes in it, the contents of a template just behind it; None if they are more than `most`."""
        found: List[int] = []
        waiting = [top]
        while waiting:
            if most is not None and len(found) > most:
                return None
            number = waiting.pop()
            found.append(number)
            words = self.node(number)
            holders = [words]
            if words[0] & 255 == 1 and words[10] != _NO_NODE:
                found.append(words[10])
                holders.append(self.node(words[10]))
            for holder in holders:
                child = holder[2]
                while child != _NO_NODE:
                    waiting.append(child)
                    child = self.node(child)[5]
        return found

    def copy(self, numbers: List[int], bare: bool) -> bytes:
        """The image of a document in which there are these nodes alone, the first of them as its child. `bare`: without its attributes."""
        news = {number: new for new, number in enumerate(numbers, 1)}
        records = bytearray(_NODE.pack(9, _NO_NODE, 1, 1, _NO_NODE, _NO_NODE, 0, 0, 0, 0, 0, 0))
        attributes, texts = bytearray(), bytearray()
        for number in numbers:
            words = self.node(number)
            kind = words[0] & 255
            begin, end = words[6], words[6] + words[7]
            shift = len(texts) - begin
            more = (0, 0, 0, 0)
            if kind == 1:
                own = [] if bare and number == numbers[0] else list(self.attributes_of(words))
                more = (len(attributes), len(own), news.get(words[10], _NO_NODE), 0)
                for name_at, name, value_at, value, namespace, prefix in own:
                    attributes += _ATTRIBUTE.pack(name_at + shift, name, value_at + shift, value, namespace, prefix)
                    end = value_at + value
            elif kind == 7:
                more, end = (words[8] + shift, words[9], 0, 0), words[8] + words[9]
            elif kind == 10:
                more, end = (words[8] + shift, words[9], words[10] + shift, words[11]), words[10] + words[11]
            links = [news.get(other, _NO_NODE) for other in words[1:6]]
            if number == numbers[0]:
                links[0] = 0
            records += _NODE.pack(words[0], *links, 0 if kind == 11 else len(texts), words[7], *more)
            texts += self.data[self.texts + begin : self.texts + end]
        header = struct.pack("<4s5IQ", b"FIGT", 1, len(records), len(attributes), len(texts), 0, 0)
        return header + records + attributes + texts

    def html(self, top: int) -> str:
        """A node as HTML. Of a small part of a tree an image of its own is made, since the library reads all of an image."""
        numbers = self.inside(top, (self.attributes - _HEADER) // 48 // _SHARE)
        if numbers is None:
            return of_node(fig_serialize, self.data, top)
        return of_node(fig_serialize, self.copy(numbers, False), 1)

    def inner_html(self, top: int) -> str:
        """What is in an element as HTML: what stands between its tags, where it is written without attributes."""
        numbers = self.inside(top, None)
        assert numbers is not None
        html = of_node(fig_serialize, self.copy(numbers, True), 1)
        name = len(self.text(*self.node(top)[6:8]))
        return html[name + 2 : -name - 3]


class Attributes(Mapping[str, str]):
    """The attributes of an element by their names, as ``href`` or ``xlink:href``, in the order of the page."""

    __slots__ = ("_image", "_words")

    def __init__(self, image: _Image, words: Tuple[int, ...]) -> None:
        self._image = image
        self._words = words if words[0] & 255 == 1 else (0,) * 12

    def _records(self) -> Iterator[Tuple[int, ...]]:
        return self._image.attributes_of(self._words)

    def __getitem__(self, name: str) -> str:
        for record in self._records():
            if self._image.text(*record[:2]) == name:
                return self._image.text(*record[2:4])
        raise KeyError(name)

    def __iter__(self) -> Iterator[str]:
        return (self._image.text(*record[:2]) for record in self._records())

    def __len__(self) -> int:
        return self._words[9]

    def __repr__(self) -> str:
        return repr(dict(self))

    def namespaced(self) -> Iterator[Tuple[str, str, str]]:
        """The namespace, the local name and the value of each attribute."""
        for at, length, value_at, value_length, namespace, prefix in self._records():
            yield NAMESPACES[namespace], self._image.text(at + prefix, length - prefix), self._image.text(value_at, value_length)


class Node:
    """A node of a page's tree. Two nodes are equal if they are the same node of the same image."""

    __slots__ = ("_image", "_number", "_words")

    def __init__(self, image: _Image, number: int) -> None:
        self._image = image
        self._number = number
        self._words = image.node(number)

    def __eq__(self, other: object) -> bool:
        return isinstance(other, Node) and self._image is other._image and self._number == other._number

    def __hash__(self) -> int:
        return hash((id(self._image), self._number))

    def __repr__(self) -> str:
        return f"<{self.kind} {self.name}>" if self.kind in ("element", "doctype") else f"<{self.kind}>"

    def _other(self, number: int) -> "Optional[Node]":
        return None if number == _NO_NODE else Node(self._image, number)

    @property
    def kind(self) -> str:
        """"document", "doctype", "element", "text", "comment", "processing instruction", or "contents", which a template has."""
        return _KINDS[self._words[0] & 255]

    @property
    def name(self) -> str:
        """The local name of an element, the name of a doctype, the target of a processing instruction; else the empty str."""
        return self._image.text(*self._words[6:8]) if self._words[0] & 255 in (1, 7, 10) else ""

    @property
    def namespace(self) -> str:
        """The namespace of an element, as ``http://www.w3.org/1999/xhtml``; of another node the empty str."""
        return NAMESPACES[self._words[0] >> 8 & 255]

    @property
    def data(self) -> str:
        """The characters of a text, of a comment or of a processing instruction; else the empty str."""
        kind = self._words[0] & 255
        if kind == 7:
            return self._image.text(*self._words[8:10])
        return self._image.text(*self._words[6:8]) if kind in (3, 8) else ""

    @property
    def identifiers(self) -> Tuple[str, str]:
        """The public and the system identifier of a doctype."""
        if self._words[0] & 255 != 10:
            return "", ""
        return self._image.text(*self._words[8:10]), self._image.text(*self._words[10:12])

    @property
    def attrs(self) -> Attributes:
        """The attributes of an element; of another node none."""
        return Attributes(self._image, self._words)

    @property
    def line(self) -> Optional[int]:
        """The line of the page on which this node begins, counted from 1: an element at its tag, or at what made the parser put it there.
        None without `places` of `parse`."""
        return self._image.place(self._number, 0)

    @property
    def column(self) -> Optional[int]:
        """Its column on this line, counted from 1 in characters, or None."""
        return self._image.place(self._number, 1)

    @property
    def parent(self) -> "Optional[Node]":
        return self._other(self._words[1])

    @property
    def first_child(self) -> "Optional[Node]":
        return self._other(self._words[2])

    @property
    def last_child(self) -> "Optional[Node]":
        return self._other(self._words[3])

    @property
    def previous(self) -> "Optional[Node]":
        """The sibling before."""
        return self._other(self._words[4])

    @property
    def next(self) -> "Optional[Node]":
        """The sibling behind."""
        return self._other(self._words[5])

    @property
    def contents(self) -> "Optional[Node]":
        """The contents of a template, whose children its children are not; of another node None."""
        return self._other(self._words[10]) if self._words[0] & 255 == 1 else None

    @property
    def children(self) -> "List[Node]":
        return list(self)

    def __iter__(self) -> "Iterator[Node]":
        child = self.first_child
        while child is not None:
            yield child
            child = child.next

    def walk(self) -> "Iterator[Node]":
        """The nodes below this one in tree order, the contents of templates left out."""
        return (Node(self._image, number) for number in self._image.below(self._number))

    def elements(self, name: str, namespace: str = NAMESPACES[1]) -> "List[Node]":
        """The elements below this node that have a name, in tree order."""
        return self._named([name], namespace)

    def _named(self, names: List[str], namespace: str) -> "List[Node]":
        kind = 1 + 256 * NAMESPACES.index(namespace)
        image, data, texts = self._image, self._image.data, self._image.texts
        spelled = {name.encode() for name in names}
        lengths = {len(name) for name in spelled}
        records = image.records()
        found = []
        for number in image.below(self._number):
            words = records[number]
            if words[7] in lengths and words[0] & 0xFFFF == kind:
                at = texts + words[6]
                if data[at : at + words[7]] in spelled:
                    found.append(Node(image, number))
        return found

    def text(self) -> str:
        """The characters of this node, if it is a text, and of all texts below it (`textContent` of the DOM). Time grows with
        the number of nodes below it.

        >>> from figpliers import parse
        >>> parse("<ul><li>One<li>and <b>two</b></ul>").select_one("ul").text()
        'Oneand two'
        """
        if self._words[0] & 255 == 3:
            return self.data
        below = map(self._image.records().__getitem__, self._image.below(self._number))
        return "".join(self._image.text(words[6], words[7]) for words in below if words[0] == 3)

    def html(self) -> str:
        """This node as HTML, with what is in it (HTML Standard, section 13.3); of the document and of a template's contents what is
        in them. It is written by the library, in time that grows with what is in the node. A text on its own is escaped, also one of
        a `script`. Raises MemoryError, and Fault where the image is of no tree.

        >>> from figpliers import parse
        >>> parse("<p id=a>1 &lt; 2<br>").select_one("p").html()
        '<p id="a">1 &lt; 2<br></p>'
        """
        kind = self._words[0] & 255
        if kind == 9:
            return of_node(fig_serialize, self._image.data, self._number)
        # a template's contents come just behind it
        return self._image.inner_html(self._number - 1) if kind == 11 else self._image.html(self._number)

    def inner_html(self) -> str:
        """What is in this node as HTML, without the node itself (`innerHTML` of the DOM): of a template its contents, of a node
        that can have no children the empty str. Raises as `html`.

        >>> from figpliers import parse
        >>> parse("<p id=a>1 &lt; 2<br>").select_one("p").inner_html()
        '1 &lt; 2<br>'
        """
        kind = self._words[0] & 255
        if kind == 1:
            return self._image.inner_html(self._number)
        return self.html() if kind in (9, 11) else ""

    def select(self, selectors: str) -> "List[Node]":
        """The elements below this node that CSS selectors select (Selectors Level 4), in tree order. `:scope` is this node, or where it
        is no element the first element in it. The library reads the whole image for it.

        Raises Fault where the text is no selectors, and as `html`.

        >>> from figpliers import parse
        >>> [item.text() for item in parse("<ul><li>a<li>b</ul>").select("ul > li:nth-child(2)")]
        ['b']
        """
        words = words_of(bytes_of(selectors), self._image.data)
        numbers, _ = with_room(fig_select, [*words, self._number], 256, FigReport())
        return [Node(self._image, number) for (number,) in struct.iter_unpack("<I", numbers)]

    def select_one(self, selectors: str) -> "Optional[Node]":
        """The first element below this node that selectors select. Raises as `select`."""
        return next(iter(self.select(selectors)), None)

    def urls(self) -> List[str]:
        """Where the elements below this node lead, in tree order: the `href` of each `a`, `area` and `link`, the `src` of each `img`,
        `script`, frame, `embed`, `input` and of media, as it is written but for tabs and line breaks. The library reads the whole image
        for it. Raises as `html`.

        >>> from figpliers import parse
        >>> parse("<link href=a><p><img src=b><a href=c>d</a>").urls()
        ['a', 'b', 'c']
        """
        return of_node(fig_links, self._image.data, self._number).split("\n")[:-1]


def _in_line(url: str) -> str:
    """A URL without the white space around it, and without tabs and line breaks, which are no part of it (URL Standard, section 4.4)."""
    return url.strip(" \t\n\f\r").translate({9: None, 10: None, 13: None})


def _joined(base: Optional[str], url: str) -> str:
    try:
        return url if base is None else urljoin(base, url)
    except ValueError:
        return url


def _is_absolute(url: str) -> bool:
    try:
        return bool(urlsplit(url).scheme)
    except ValueError:
        return False


class Document(Node):
    """The document of a page: node 0 of its image. It can be pickled, and so sent to another process.

    ``parse`` makes one of a page, ``Document(image)`` one of an image, ``Document(image, places)`` one with the places of its nodes.
    """

    __slots__ = ()

    def __init__(self, data: bytes, places: bytes = b"") -> None:
        super().__init__(_Image(data, places), 0)

    def __reduce__(self) -> Tuple[Type["Document"], Tuple[bytes, bytes]]:
        return Document, (self._image.data, self._image.places)

    def links(self, base: Optional[str] = None) -> List[Tuple[Node, str]]:
        """Each `a` and `area` with an `href`, in tree order, with its URL, without the white space around it and the line breaks in it.

        The URL is absolute, as ``urllib.parse.urljoin`` makes it, if the page has a `base` that is absolute or `base` is given, the
        address of the page: what the page's `base` says counts first. A URL that cannot be read stays as it is written.

        >>> from figpliers import parse
        >>> [(link.text(), url) for link, url in parse("<a href=b?c>d</a>").links("http://example.org/a/")]
        [('d', 'http://example.org/a/b?c')]
        """
        written = [_in_line(it.attrs["href"]) for it in self.elements("base") if "href" in it.attrs][:1]
        absolute = _joined(base, written[0]) if written else base
        if absolute is None or not _is_absolute(absolute):
            absolute = base
        found = ((it, it.attrs.get("href")) for it in self._named(["a", "area"], NAMESPACES[1]))
        return [(it, _joined(absolute, _in_line(url))) for it, url in found if url is not None]

    @property
    def image(self) -> bytes:
        """The image, from which ``Document(image)`` makes the document again, here or in another process."""
        return self._image.data

    @property
    def places(self) -> bytes:
        """The line and the column of each node, in four bytes each, or nothing."""
        return self._image.places

    @property
    def errors(self) -> int:
        """The number of parse errors: 0 for a page without any."""
        return int(struct.unpack_from("<Q", self._image.data, 24)[0])

    @property
    def quirks(self) -> str:
        """The quirks mode: "no", "limited" or "yes"."""
        return ("no", "limited", "yes")[struct.unpack_from("<I", self._image.data, 20)[0]]

    @property
    def root(self) -> Optional[Node]:
        """The document element."""
        return next((it for it in self if it.kind == "element"), None)
