"""The calls of the C library (its figpliers.h)."""
import ctypes
import os
from typing import IO, Any, Callable, List, Tuple, Type, TypeVar, Union

# a page: its text, or its bytes in UTF-8, or a file that is open for reading either
Page = Union[str, bytes, bytearray, memoryview, IO[bytes], IO[str]]
Words = List[Union[bytes, int]]


class Fault(ValueError):
    """Why there is no text. `answer` is the library's number, `at` a number of bytes, a line or a row."""

    _WORDS = {
        1: "the page is not UTF-8 at byte {}",
        4: "the tree is too large for an image",
        16: "the table is not UTF-8 at byte {}",
        17: "line {} of the table is no row",
        18: "row {} of the table has a bad name",
        19: "row {} of the table has the name of an earlier one",
        20: "row {} of the table has a value that is no character",
        32: "the selectors are not UTF-8 at byte {}",
        33: "the selectors are wrong at character {}",
        48: "the bytes are not the image of a tree",
        49: "the tree has no node of that number",
        64: "the policy is not UTF-8 at byte {}",
        65: "line {} of the policy is no rule",
        66: "the policy names what is never kept",
        67: "there is no ready policy of that name",
        80: "the name of the context is not UTF-8 at byte {}",
    }

    def __init__(self, answer: int, at: int) -> None:
        super().__init__(self._WORDS.get(answer, f"answer {answer} at {{}}").format(at))
        self.answer = answer
        self.at = at

    def __reduce__(self) -> Tuple[Type["Fault"], Tuple[int, int]]:
        return Fault, (self.answer, self.at)


class FigReport(ctypes.Structure):
    _fields_ = [
        ("length", ctypes.c_size_t),
        ("errors", ctypes.c_uint64),
        ("at", ctypes.c_uint64),
        ("quirks", ctypes.c_uint8),
        ("plain", ctypes.c_uint8),
    ]


class FigCleaned(ctypes.Structure):
    _fields_ = [
        ("length", ctypes.c_size_t),
        ("at", ctypes.c_uint64),
        ("unwrapped", ctypes.c_uint64),
        ("dropped", ctypes.c_uint64),
        ("attributes", ctypes.c_uint64),
        ("comments", ctypes.c_uint64),
    ]


class FigDecoded(ctypes.Structure):
    _fields_ = [
        ("length", ctypes.c_size_t),
        ("errors", ctypes.c_uint64),
        ("at", ctypes.c_uint64),
        ("encoding", ctypes.c_uint8),
        ("why", ctypes.c_uint8),
    ]


ENCODINGS = (
    "Big5", "EUC-JP", "EUC-KR", "gb18030", "GBK", "IBM866", "ISO-2022-JP", "ISO-8859-2", "ISO-8859-3", "ISO-8859-4",
    "ISO-8859-5", "ISO-8859-6", "ISO-8859-7", "ISO-8859-8", "ISO-8859-8-I", "ISO-8859-10", "ISO-8859-13", "ISO-8859-14",
    "ISO-8859-15", "ISO-8859-16", "KOI8-R", "KOI8-U", "macintosh", "replacement", "Shift_JIS", "UTF-8", "UTF-16BE",
    "UTF-16LE", "windows-874", "windows-1250", "windows-1251", "windows-1252", "windows-1253", "windows-1254",
    "windows-1255", "windows-1256", "windows-1257", "windows-1258", "x-mac-cyrillic", "x-user-defined",
)

_FOLDER = os.path.dirname(os.path.abspath(__file__))
_library = ctypes.CDLL(os.environ.get("FIGPLIERS_SO") or os.path.join(_FOLDER, "libfigpliers.so"))
_TEXT = [ctypes.c_char_p, ctypes.c_size_t]


def _declared(name: str, words: List[Any], report: Type[ctypes.Structure]) -> Callable[..., int]:
    call: Any = getattr(_library, name)
    call.argtypes = [*words, ctypes.c_void_p, ctypes.c_size_t, ctypes.POINTER(report)]
    call.restype = ctypes.c_uint32
    made: Callable[..., int] = call
    return made


fig_normalise = _declared("fig_normalise", _TEXT, FigReport)
fig_normalise_with = _declared("fig_normalise_with", _TEXT * 2, FigReport)
fig_tree = _declared("fig_tree", _TEXT, FigReport)
fig_tree_with = _declared("fig_tree_with", _TEXT * 2, FigReport)
fig_placed_tree = _declared("fig_placed_tree", _TEXT, FigReport)
fig_fragment_tree = _declared("fig_fragment_tree", _TEXT * 2, FigReport)
fig_select = _declared("fig_select", [*_TEXT * 2, ctypes.c_uint32], FigReport)
fig_errors = _declared("fig_errors", _TEXT, FigReport)
fig_decode = _declared("fig_decode", _TEXT * 2, FigDecoded)
fig_serialize = _declared("fig_serialize", [*_TEXT, ctypes.c_uint32], FigReport)
fig_links = _declared("fig_links", [*_TEXT, ctypes.c_uint32], FigReport)
fig_text_content = _declared("fig_text_content", [*_TEXT, ctypes.c_uint32], FigReport)
fig_clean = _declared("fig_clean", _TEXT, FigCleaned)
fig_clean_document = _declared("fig_clean_document", _TEXT, FigCleaned)
fig_clean_by = _declared("fig_clean_by", _TEXT * 2, FigCleaned)
fig_clean_document_by = _declared("fig_clean_document_by", _TEXT * 2, FigCleaned)
fig_policy = _declared("fig_policy", _TEXT, FigReport)


_Report = TypeVar("_Report", FigReport, FigCleaned, FigDecoded)


def bytes_of(text: Page) -> bytes:
    """The bytes of a page. Raises TypeError where it is none, and Fault where it has a lone surrogate."""
    if isinstance(text, str):
        try:
            return text.encode()
        except UnicodeEncodeError as error:
            raise Fault(1, len(text[: error.start].encode())) from None
    if isinstance(text, (bytes, bytearray, memoryview)):
        return bytes(text)
    if hasattr(text, "read"):
        return bytes_of(text.read())
    raise TypeError(f"a page is a str, bytes or a file that is open for reading, not {type(text).__name__}")


def words_of(*texts: bytes) -> Words:
    """What a call takes of texts."""
    words: Words = []
    for text in texts:
        words += [text, len(text)]
    return words


def with_room(call: Callable[..., int], words: Words, room: int, report: _Report) -> Tuple[bytes, _Report]:
    """Makes a call with room for a text, and again with as much as it is told to want where that was too short."""
    while True:
        output = bytearray(room)
        place = (ctypes.c_char * room).from_buffer(output) if room else None
        answer = call(*words, place, room, ctypes.byref(report))
        del place
        if answer == 2:
            room = report.length
        elif answer == 3:
            raise MemoryError("no memory was left")
        elif answer:
            raise Fault(answer, report.at)
        else:
            return bytes(memoryview(output)[: report.length]), report


def of_node(call: Callable[..., int], image: bytes, node: int) -> str:
    """What a call writes of a node of an image."""
    return with_room(call, [*words_of(image), node], len(image) // 2 + 64, FigReport())[0].decode()
