/* Figpliers, a verified HTML parser, from C.
 *
 * Link libfigpliers.a, or libfigpliers.so: each stands alone, beside the C library.
 *
 * Who owns what: the caller owns all memory that is handed in, and the library keeps none of it and hands none out. What a call
 * takes from malloc it has given back when it returns. Calls share nothing, so any thread may make them, also at the same time;
 * a signal handler may not.
 *
 * What is handed in: a pointer may be NULL where its length is 0. `output` and `report` overlap nothing else that is handed in.
 * They need not be set up: no call reads them. A length is at most PTRDIFF_MAX.
 *
 * What is written: a text stands in front of `output` in full, and nothing behind it changes, or nothing of `output` changes.
 * The report is written by each call, whatever it answers. That is proved, and so is what each text is.
 *
 * Room: the length of a text is in the report, also where the room was too short for it. So who has no guess makes a call
 * with no room (NULL, 0), and a second one with as much as the report says; each call reads the page anew. Of a page of 1 MB with
 * tables, lists, links and references the normal text had 1.02 times its bytes, and the cleaned text 0.76 times; an image has 48
 * bytes for each node, 24 for each attribute, and their texts. No bound is promised. */
#ifndef FIGPLIERS_H
#define FIGPLIERS_H

#include <stddef.h>
#include <stdint.h>

#ifdef __cplusplus
extern "C" {
#endif

/* What a call answers. The numbers never change; a new answer gets a new number. */
enum fig_answer {
    FIG_DONE = 0,             /* the text was written */
    FIG_NOT_UTF8 = 1,         /* the page is not UTF-8: its longest front that is has `at` bytes */
    FIG_TOO_SHORT = 2,        /* the room is shorter than `length`; the report is the page's all the same */
    FIG_MEMORY = 3,           /* malloc had no memory */
    FIG_TOO_LARGE = 4,        /* a part of the tree's image would have 2^32 bytes or more */
    FIG_TABLE_NOT_UTF8 = 16,  /* the table is not UTF-8: its longest front that is has `at` bytes */
    FIG_TABLE_LINE = 17,      /* line `at` of the table, counted from 1, is no row */
    FIG_TABLE_NAME = 18,      /* row `at` has a name that is not letters and digits of ASCII with `;` or nothing behind them */
    FIG_TABLE_DUPLICATE = 19, /* row `at` has the name of an earlier row */
    FIG_TABLE_VALUE = 20,     /* row `at` has a value that is no character, or 0 */
    FIG_SELECTOR_NOT_UTF8 = 32, /* the selectors are not UTF-8: their longest front that is has `at` bytes */
    FIG_SELECTOR = 33,          /* the text is no selectors: `at` characters stand before the first fault */
    FIG_NOT_AN_IMAGE = 48,      /* the bytes are not the image of a tree */
    FIG_NO_SUCH_NODE = 49,      /* the tree has no node of that number */
    FIG_POLICY_NOT_UTF8 = 64,   /* the policy, or the name of a ready one, is not UTF-8: its longest front that is has `at` bytes */
    FIG_POLICY_LINE = 65,       /* line `at` of the policy, counted from 1, is no rule */
    FIG_NEVER_KEPT = 66,        /* the policy names an element, an attribute or a scheme that is never kept */
    FIG_NO_SUCH_POLICY = 67,    /* there is no ready policy of that name */
    FIG_CONTEXT_NOT_UTF8 = 80   /* the name of a fragment's context is not UTF-8: its longest front that is has `at` bytes */
};

/* What is told of a page. Where an answer is neither FIG_DONE nor FIG_TOO_SHORT all is 0 but `at`. */
typedef struct fig_report {
    size_t length;   /* how many bytes the text has */
    uint64_t errors; /* how many parse errors were counted: 0 in a page without any, each faulty part of a page once at least */
    uint64_t at;     /* the place that an answer names, else 0 */
    uint8_t quirks;  /* 0 no quirks mode, 1 limited quirks mode, 2 quirks mode */
    uint8_t plain;   /* 1: the document is plain, so that its normal text is read back as it, without an error; else 0 */
} fig_report;

/* What is told of a page that was cleaned: how much was taken away. As above, all is 0 but `at` where there is no text. */
typedef struct fig_cleaned {
    size_t length;       /* how many bytes the text has */
    uint64_t at;         /* the place that an answer names, else 0 */
    uint64_t unwrapped;  /* elements that gave way to what stands in them */
    uint64_t dropped;    /* elements that were dropped with what stands in them */
    uint64_t attributes; /* attributes of elements that were kept */
    uint64_t comments;   /* comments and processing instructions */
} fig_cleaned;

/* The report of a page that was decoded. */
typedef struct fig_decoded {
    size_t length;    /* how many bytes the text has */
    uint64_t errors;  /* how many errors the page has in its encoding: each stands as U+FFFD in the text */
    uint64_t at;      /* 0 */
    uint8_t encoding; /* the encoding: fig_encoding_name gives its name */
    uint8_t why;      /* how it was found out: 0 by a byte order mark, 1 by the label, 2 by a declaration in the page, 3 by nothing */
} fig_decoded;

/* A page is the bytes of an HTML document in UTF-8, in full; a byte order mark in front is dropped. No text is refused.
 *
 * The table of named character references is the Standard's, with 2,231 names, or one that is handed in to the calls that end
 * in `_with`: the bytes of lines of a name, a space and one to six hexadecimal digits, and for a second character a space and
 * its digits, as in "eacute; E9". A table of length 0 has no name. To read the Standard's table takes some 0.4
 * milliseconds a call, so a short table of one's own is quicker for many small pages. */

/* Writes the text of a page that is in any encoding in UTF-8, for the calls below: in the encoding of its byte order mark, or of `label`,
 * which came with it, as in a header of HTTP ("utf-8", "windows-1252", ..); where neither is there, in that which the page declares, or
 * in windows-1252. A label that names no encoding, as one of length 0, says nothing. No page is refused. */
uint32_t fig_decode(const uint8_t *label, size_t label_length, const uint8_t *page, size_t page_length, uint8_t *output, size_t room,
                    fig_decoded *report);

/* The name of an encoding, as the Encoding Standard writes it. */
static inline const char *fig_encoding_name(uint8_t encoding) {
    static const char *const names[] = {
        "Big5", "EUC-JP", "EUC-KR", "gb18030", "GBK", "IBM866", "ISO-2022-JP", "ISO-8859-2", "ISO-8859-3", "ISO-8859-4",
        "ISO-8859-5", "ISO-8859-6", "ISO-8859-7", "ISO-8859-8", "ISO-8859-8-I", "ISO-8859-10", "ISO-8859-13", "ISO-8859-14",
        "ISO-8859-15", "ISO-8859-16", "KOI8-R", "KOI8-U", "macintosh", "replacement", "Shift_JIS", "UTF-8", "UTF-16BE",
        "UTF-16LE", "windows-874", "windows-1250", "windows-1251", "windows-1252", "windows-1253", "windows-1254", "windows-1255",
        "windows-1256", "windows-1257", "windows-1258", "x-mac-cyrillic", "x-user-defined"};
    return encoding < sizeof names / sizeof *names ? names[encoding] : "";
}

/* Writes the normal text of a page: that of the document which the HTML Standard gives it. */
uint32_t fig_normalise(const uint8_t *page, size_t page_length, uint8_t *output, size_t room, fig_report *report);
uint32_t fig_normalise_with(const uint8_t *table, size_t table_length, const uint8_t *page, size_t page_length,
                            uint8_t *output, size_t room, fig_report *report);

/* Writes the image of a page's tree: its nodes with names, attributes, texts and neighbours, as one block of bytes without pointers,
 * which docs/TREE_IMAGE.md describes and the functions below read. It may be kept in a file, or handed to another process. */
uint32_t fig_tree(const uint8_t *page, size_t page_length, uint8_t *output, size_t room, fig_report *report);
uint32_t fig_tree_with(const uint8_t *table, size_t table_length, const uint8_t *page, size_t page_length,
                       uint8_t *output, size_t room, fig_report *report);

/* Writes the image of the tree that a page makes as a fragment, as where `innerHTML` of a new element of HTML of that name is set ("body",
 * "td", ..): it stands in the only child of the document, an `html`. `errors` of the report are those that were counted, at least one in
 * each faulty part of a page; that is only tested. */
uint32_t fig_fragment_tree(const uint8_t *context, size_t context_length, const uint8_t *page, size_t page_length, uint8_t *output,
                           size_t room, fig_report *report);

/* Writes the image of a page's tree as fig_tree does, and behind it where its nodes begin in the page, which fig_line and fig_column read.
 * The calls below take the image alone: its length is fig_image_length(output), and `length` of the report that of both. Control
 * characters are counted as errors too. It takes about 1.4 of fig_tree's time. */
uint32_t fig_placed_tree(const uint8_t *page, size_t page_length, uint8_t *output, size_t room, fig_report *report);

/* Writes a line for each parse error of a page, in the order in which they are found: the number of the page's line, ": ", and the
 * Standard's code of the error, or words where it has none, which may change. `errors` of the report is the number of these lines. */
uint32_t fig_errors(const uint8_t *page, size_t page_length, uint8_t *output, size_t room, fig_report *report);

/* Write a node of a tree, by its number in the image that fig_tree wrote: fig_serialize as HTML, with what is in it (of the document and
 * of a template's contents what is in them), fig_text_content its text, as `textContent` of the DOM has it. The image may come from
 * anywhere: bytes that are no image are refused. The report is that of the image's page. Each call reads the whole image. */
uint32_t fig_serialize(const uint8_t *image, size_t image_length, uint32_t node, uint8_t *output, size_t room, fig_report *report);
uint32_t fig_text_content(const uint8_t *image, size_t image_length, uint32_t node, uint8_t *output, size_t room, fig_report *report);

/* Writes where the elements below a node lead, in tree order, each with a line feed behind it: the `href` of each `a`, `area` and
 * `link`, the `src` of each `img`, `script`, frame, `embed`, `input` and of media, as it is written but for tabs and line breaks. The
 * image and the report are as of fig_serialize. */
uint32_t fig_links(const uint8_t *image, size_t image_length, uint32_t node, uint8_t *output, size_t room, fig_report *report);

/* Writes the numbers of the nodes below a node that CSS selectors select (Selectors Level 4), in tree order: four bytes for each,
 * the lowest first. Node 0 asks for the whole document. `:scope` is the node, or where it is no element the first element in it.
 * The image and the report are as of fig_serialize. */
uint32_t fig_select(const uint8_t *selector, size_t selector_length, const uint8_t *image, size_t image_length, uint32_t node,
                    uint8_t *output, size_t room, fig_report *report);

/* Writes what the ready policy keeps of a page: text, links, tables and formatting, no script, no style, no event. Every reader
 * that follows the Standard reads just the tags and texts that were kept, wherever it is put among elements and texts.
 * fig_clean reads the page as what stands in a `div`, fig_clean_document as a document. */
uint32_t fig_clean(const uint8_t *page, size_t page_length, uint8_t *output, size_t room, fig_cleaned *report);
uint32_t fig_clean_document(const uint8_t *page, size_t page_length, uint8_t *output, size_t room, fig_cleaned *report);

/* The same by a policy of one's own: a text of rules, one a line, as "keep a href" and "scheme https" (docs/CLEANING.md lists them). A
 * policy of no rule keeps texts alone. What would let a script in is refused (FIG_NEVER_KEPT), and so are `html`, `head` and `body` by
 * fig_clean_by. */
uint32_t fig_clean_by(const uint8_t *policy, size_t policy_length, const uint8_t *page, size_t page_length, uint8_t *output, size_t room,
                      fig_cleaned *report);
uint32_t fig_clean_document_by(const uint8_t *policy, size_t policy_length, const uint8_t *page, size_t page_length, uint8_t *output,
                               size_t room, fig_cleaned *report);

/* Writes the text of a ready policy, to be used as it is or with further lines: "text-alone", "text-and-links" (that of fig_clean),
 * "user-content" or "mail". Of the report all is 0 but `length`. */
uint32_t fig_policy(const uint8_t *name, size_t name_length, uint8_t *output, size_t room, fig_report *report);

/* READING AN IMAGE
 *
 * These functions trust that the bytes are an image that a call above wrote. A node is a number below fig_nodes(image); node 0 is the
 * document. A text isn't ended by a zero. */

#define FIG_NO_NODE UINT32_MAX /* no node */

/* What a node is, as `nodeType` of the DOM has it. */
enum fig_kind {
    FIG_ELEMENT = 1,
    FIG_TEXT = 3,
    FIG_PROCESSING_INSTRUCTION = 7,
    FIG_COMMENT = 8,
    FIG_DOCUMENT = 9,
    FIG_DOCTYPE = 10,
    FIG_CONTENTS = 11 /* what stands in a template */
};

enum fig_namespace { FIG_NO_NAMESPACE, FIG_HTML, FIG_MATHML, FIG_SVG, FIG_XLINK, FIG_XML, FIG_XMLNS, FIG_OTHER_NAMESPACE };

typedef struct fig_text {
    const char *at;
    size_t length;
} fig_text;

typedef struct fig_attribute {
    fig_text name, value;
    uint32_t namespace_;
} fig_attribute;

static inline uint32_t fig_word(const uint8_t *at) {
    return at[0] | (uint32_t)at[1] << 8 | (uint32_t)at[2] << 16 | (uint32_t)at[3] << 24;
}

/* A word of a node's record. */
static inline uint32_t fig_of(const uint8_t *image, uint32_t node, int word) {
    return fig_word(image + 32 + (size_t)node * 48 + (size_t)word * 4);
}

static inline uint32_t fig_nodes(const uint8_t *image) { return fig_word(image + 8) / 48; }
static inline uint32_t fig_kind_of(const uint8_t *image, uint32_t node) { return fig_of(image, node, 0) & 255; }
static inline uint32_t fig_namespace_of(const uint8_t *image, uint32_t node) { return fig_of(image, node, 0) >> 8 & 255; }
static inline uint32_t fig_parent(const uint8_t *image, uint32_t node) { return fig_of(image, node, 1); }
static inline uint32_t fig_first_child(const uint8_t *image, uint32_t node) { return fig_of(image, node, 2); }
static inline uint32_t fig_last_child(const uint8_t *image, uint32_t node) { return fig_of(image, node, 3); }
static inline uint32_t fig_previous(const uint8_t *image, uint32_t node) { return fig_of(image, node, 4); }
static inline uint32_t fig_next(const uint8_t *image, uint32_t node) { return fig_of(image, node, 5); }

/* The contents of a template; FIG_NO_NODE for every other node. */
static inline uint32_t fig_contents(const uint8_t *image, uint32_t node) {
    return fig_kind_of(image, node) == FIG_ELEMENT ? fig_of(image, node, 10) : FIG_NO_NODE;
}

/* How many bytes an image has. */
static inline size_t fig_image_length(const uint8_t *image) {
    return 32 + (size_t)fig_word(image + 8) + fig_word(image + 12) + fig_word(image + 16);
}

/* The line on which a node begins and its column on it, in characters, both counted from 1: of what fig_placed_tree wrote. An element
 * begins at its tag, or at what made the parser put it there. */
static inline uint32_t fig_line(const uint8_t *image, uint32_t node) {
    return fig_word(image + fig_image_length(image) + 8 * (size_t)node);
}
static inline uint32_t fig_column(const uint8_t *image, uint32_t node) {
    return fig_word(image + fig_image_length(image) + 8 * (size_t)node + 4);
}

/* A text by its place and its length. */
static inline fig_text fig_text_at(const uint8_t *image, uint32_t place, uint32_t length) {
    fig_text it;
    it.at = (const char *)image + 32 + (size_t)fig_word(image + 8) + fig_word(image + 12) + place;
    it.length = length;
    return it;
}

/* An element's local name, the characters of a text or a comment, a doctype's name, the target of a processing instruction. */
static inline fig_text fig_text_of(const uint8_t *image, uint32_t node) {
    return fig_text_at(image, fig_of(image, node, 6), fig_of(image, node, 7));
}

/* How many attributes a node has. */
static inline uint32_t fig_attributes(const uint8_t *image, uint32_t node) {
    return fig_kind_of(image, node) == FIG_ELEMENT ? fig_of(image, node, 9) : 0;
}

/* An attribute of an element, by its number, which is less than fig_attributes(image, node). */
static inline fig_attribute fig_attribute_of(const uint8_t *image, uint32_t node, uint32_t number) {
    const uint8_t *at = image + 32 + (size_t)fig_word(image + 8) + fig_of(image, node, 8) + (size_t)number * 24;
    fig_attribute it;
    it.name = fig_text_at(image, fig_word(at), fig_word(at + 4));
    it.value = fig_text_at(image, fig_word(at + 8), fig_word(at + 12));
    it.namespace_ = fig_word(at + 16);
    return it;
}

/* What stands between the tags of an element, in the text that fig_serialize wrote of it, of `length` bytes (`innerHTML` of the DOM); of
 * the document and of a template's contents all of it, of another node nothing. */
static inline fig_text fig_inner(const uint8_t *image, uint32_t node, const uint8_t *html, size_t length) {
    uint32_t kind = fig_kind_of(image, node), n;
    size_t name = fig_text_of(image, node).length, at = 1 + name;
    fig_text it;
    it.at = (const char *)html;
    it.length = kind == FIG_DOCUMENT || kind == FIG_CONTENTS ? length : 0;
    if (kind != FIG_ELEMENT) return it;
    for (n = 0; n < fig_attributes(image, node); n++) {
        at += fig_attribute_of(image, node, n).name.length + 3; /* a space, the name, = and a quote */
        while (html[at++] != '"') {} /* the value, in which quotes are escaped, and a quote */
    }
    at++;
    it.at += at;
    if (at < length) it.length = length - at - (name + 3); /* unless it has no end tag, as `br` */
    return it;
}

/* The node that follows one in tree order below `top`, or FIG_NO_NODE. Begin with `top` itself; what stands in a template comes as
 * its children. */
static inline uint32_t fig_following(const uint8_t *image, uint32_t top, uint32_t node) {
    uint32_t inner = fig_contents(image, node);
    uint32_t next = fig_first_child(image, inner == FIG_NO_NODE ? node : inner);
    while (next == FIG_NO_NODE && node != top) {
        next = fig_next(image, node);
        if (next == FIG_NO_NODE) {
            node = fig_parent(image, node);
            if (node != top && fig_kind_of(image, node) == FIG_CONTENTS)
                node -= 1; /* the template */
        }
    }
    return next;
}

#ifdef __cplusplus
}
#endif
#endif
