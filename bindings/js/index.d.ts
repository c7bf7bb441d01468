/** A page, or a table of references: text, or its bytes in UTF-8. */
export type Page = string | Uint8Array;
export type Quirks = 'no' | 'limited' | 'yes';
export type Kind = 'document' | 'doctype' | 'element' | 'text' | 'comment' | 'processing instruction' | 'contents';

/** Why there is no result: bytes that are not UTF-8 (`answer` 1, at byte `at`), a table or selectors that are wrong, a tree that is too
 * large, or bytes that are not the image of a tree (48). Out of memory is a RangeError, an argument of another type a TypeError. */
export declare class Fault extends Error {
  readonly answer: number;
  readonly at: number;
}

export interface Attribute {
  /** The qualified name, as `href` or `xlink:href`. */
  name: string;
  value: string;
  namespace: string;
}

/** A link of a page. */
export interface Link {
  /** The element that has it. */
  element: Node;
  url: string;
}

/** A node of a tree. Each property is read from the image when it is asked for. */
export declare class Node {
  readonly kind: Kind;
  /** The local name of an element, the name of a doctype, the target of a processing instruction; else empty. */
  readonly name: string;
  /** The namespace of an element, as `http://www.w3.org/1999/xhtml`. */
  readonly namespace: string;
  /** The characters of a text, of a comment or of a processing instruction; else empty. */
  readonly data: string;
  readonly publicId: string;
  readonly systemId: string;
  readonly parent: Node | null;
  readonly firstChild: Node | null;
  readonly lastChild: Node | null;
  readonly previous: Node | null;
  readonly next: Node | null;
  /** The contents of a template, whose children its children are not. */
  readonly contents: Node | null;
  readonly children: Node[];
  readonly attributes: Attribute[];
  /** The value of an attribute, by its qualified name; null if there is none. */
  attribute(name: string): string | null;
  /** Its number in the image; the document is 0. */
  readonly number: number;
  isSame(other: Node): boolean;
  /** The line of the page on which this node begins, counted from 1: an element at its tag, or at what made the parser put it there. null
   * unless `parseWithPlaces` made the document. */
  readonly line: number | null;
  /** Its column on this line, counted from 1 in characters, or null. */
  readonly column: number | null;
  /** The nodes below this one in tree order, the contents of templates left out. */
  walk(): IterableIterator<Node>;
  /** The elements below this node that have a name, in tree order. */
  elements(name: string, namespace?: string): Node[];
  /** The characters of all texts in this node (`textContent` of the DOM). Time grows with the number of nodes in it.
   * @example parse('<ul><li>One<li>and <b>two</b></ul>').elements('ul')[0].text() // 'Oneand two' */
  text(): string;
  /** This node as HTML, with what is in it (`outerHTML` of the DOM; HTML Standard, section 13.3); of the document and of a template's
   * contents what is in them. It is written by the library, in time that grows with what is in the node. A text on its own is escaped,
   * also one of a `script`. A Fault where the image is of no tree.
   * @example parse('<p id=a>1 &lt; 2<br>').elements('p')[0].html() // '<p id="a">1 &lt; 2<br></p>' */
  html(): string;
  /** The elements below this node that CSS selectors select (Selectors Level 4), in tree order. `:scope` is this node, or where it is no
   * element the first element in it. The library reads the whole image for it. A Fault where the text is no selectors.
   * @example parse('<ul><li>a<li>b</ul>').select('li + li').map((it) => it.text()) // ['b'] */
  select(selectors: Page): Node[];
  /** The first element below this node that selectors select, or null. Throws as `select`. */
  selectOne(selectors: Page): Node | null;
  /** Where the elements below this node lead, in tree order: the `href` of each `a`, `area` and `link`, the `src` of each `img`, `script`,
   * frame, `embed`, `input` and of media, as it is written but for tabs and line breaks. The library reads the whole image for it.
   * @example parse('<link href=a><p><img src=b><a href=c>d</a>').urls() // ['a', 'b', 'c'] */
  urls(): string[];
  /** What is in this node as HTML, without the node itself (`innerHTML` of the DOM): of a template its contents, of a node that can have
   * no children the empty string. A Fault as of `html`.
   * @example parse('<p id=a>1 &lt; 2<br>').elements('p')[0].innerHtml() // '1 &lt; 2<br>' */
  innerHtml(): string;
}

export declare class Document extends Node {
  /** Makes a document of its image, and of the places of its nodes. */
  constructor(image: Uint8Array, places?: Uint8Array | null);
  /** The bytes of the image (docs/TREE_IMAGE.md), which another process or language may read. */
  readonly image: Uint8Array;
  /** The line and the column of each node, in four bytes each, the lowest first; null unless `parseWithPlaces` made the document. */
  readonly places: Uint8Array | null;
  readonly errors: number;
  readonly quirks: Quirks;
  /** Each `a` and `area` with an `href`, in tree order, with its URL, without the white space around it and the line breaks in it. The URL
   * is absolute, as `URL` makes it, if the page has a `base` that is absolute or `base` is given, the address of the page: what the page's
   * `base` says counts first. A URL that cannot be read stays as it is written.
   * @example parse('<a href=b?c>d</a>').links('http://example.org/a/').map((it) => it.url) // ['http://example.org/a/b?c'] */
  links(base?: string | null): Link[];
  /** The document element. */
  readonly root: Node | null;
}

export interface Normal {
  text: string;
  errors: number;
  quirks: Quirks;
  /** Whether the document is plain, so that its normal text is read back as it, without an error. */
  plain: boolean;
}

/** A parse error of a page. */
export interface ParseError {
  /** The line of the page on which it was found, counted from 1. */
  line: number;
  /** The Standard's code of it, or words where it has none, which may change. */
  message: string;
}

/** What cleaning kept, and how much it took away. */
export interface Cleaned {
  text: string;
  unwrapped: number;
  dropped: number;
  attributes: number;
  comments: number;
}

/** The normal text of a page. `table` has the named character references in place of the Standard's. */
export declare function normalise(page: Page, table?: Page): Normal;
/** The parse errors of a page, in the order in which they are found.
 * @example errors('<!DOCTYPE html>\n<p id=a id=b>') // [{ line: 2, message: 'duplicate-attribute' }] */
export declare function errors(page: Page): ParseError[];
/** The document of a page. */
export declare function parse(page: Page, table?: Page): Document;
/** The document of a page with the places of its nodes, which takes about 1.4 of `parse`'s time.
 * @example parseWithPlaces('<ul>\n<li>a\n<li>b').elements('li').map((it) => it.line) // [2, 3] */
export declare function parseWithPlaces(page: Page): Document;
/** The tree that a page makes as a fragment, as where `innerHTML` of a new element of HTML of the name `context` is set (without it `body`):
 * its nodes are the children of the document's `root`.
 * @example fragment('<td>a<td>b', 'tr').root.innerHtml() // '<td>a</td><td>b</td>' */
export declare function fragment(page: Page, context?: Page): Document;
/** What a policy keeps of a page, read as what stands in a `div`. `policy` has a rule in each line, as in docs/CLEANING.md; without it
 * text, links, tables and formatting are kept.
 * @example clean('<p id=x><b>c', 'keep p').text // '<p>c</p>' */
export declare function clean(page: Page, policy?: Page): Cleaned;
/** The same of a page that is read as a document. */
export declare function cleanDocument(page: Page, policy?: Page): Cleaned;
/** The text of a ready policy: that of `clean` is `text-and-links`. */
export declare function policy(name: 'text-alone' | 'text-and-links' | 'user-content' | 'mail'): string;
