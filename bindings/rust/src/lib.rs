//! Figpliers, a verified HTML parser: the normal text of a page, its tree, and what a sanitizer keeps of it.
//!
//! ```
//! let (text, report) = figpliers::normalise("<!DOCTYPE html><p>caf&eacute;")?;
//! assert_eq!(text, "<!DOCTYPE html><html><head></head><body><p>café</p></body></html>");
//! assert!(report.plain);
//!
//! let (text, _) = figpliers::clean("<b onclick=x>a</b><script>b</script>")?;
//! assert_eq!(text, "<b>a</b>");
//! # Ok::<(), figpliers::Fault>(())
//! ```
//!
//! The texts are what the library's contracts say (its `figpliers.h`); this crate adds room for them and types. The library keeps
//! no memory and hands none out, so what is owned here is a `String` or a `Vec` and needs no `Drop` of its own. Calls share
//! nothing and may be made from any thread.

mod part;
mod sys;
mod tree;

pub use tree::{Attribute, Document, Kind, Namespace, Node, Place};

use std::fmt;
use sys::{FigCleaned, FigDecoded, FigReport};

/// How closely a page is to be laid out as old browsers did (HTML Standard, section 13.2.6.4.1).
#[derive(Clone, Copy, Debug, PartialEq, Eq, Hash)]
pub enum Quirks {
    /// Laid out by the standards.
    No,
    /// Laid out as old browsers did in a few respects.
    Limited,
    /// Laid out as old browsers did.
    Yes,
}

impl Quirks {
    fn new(number: u32) -> Quirks {
        match number {
            0 => Quirks::No,
            1 => Quirks::Limited,
            _ => Quirks::Yes,
        }
    }
}

/// What is told of a page.
#[derive(Clone, Copy, Debug, PartialEq, Eq, Hash)]
pub struct Report {
    /// How many parse errors were counted: 0 in a page without any.
    pub errors: u64,
    /// The quirks mode of the document.
    pub quirks: Quirks,
    /// Whether the document is plain, so that its normal text is read back as it, without an error.
    pub plain: bool,
}

/// A parse error of a page.
#[derive(Clone, Debug, PartialEq, Eq, Hash)]
pub struct ParseError {
    /// The line of the page on which it was found, counted from 1.
    pub line: u64,
    /// The Standard's code of it, or words where it has none, which may change.
    pub message: String,
}

/// What cleaning took away.
#[derive(Clone, Copy, Debug, Default, PartialEq, Eq, Hash)]
pub struct Cleaned {
    /// Elements that gave way to what stands in them.
    pub unwrapped: u64,
    /// Elements that were dropped with what stands in them.
    pub dropped: u64,
    /// Attributes of elements that were kept.
    pub attributes: u64,
    /// Comments and processing instructions.
    pub comments: u64,
}

/// How the encoding of a page was found out (HTML Standard, section 13.2.3.2).
#[derive(Clone, Copy, Debug, PartialEq, Eq, Hash)]
pub enum Why {
    /// By a byte order mark.
    ByteOrderMark,
    /// By the label that came with the page.
    Label,
    /// By a declaration in the page.
    Declaration,
    /// By nothing: it is read as windows-1252.
    Nothing,
}

/// A page in UTF-8.
#[derive(Clone, Debug, PartialEq, Eq, Hash)]
pub struct Decoded {
    /// Its text.
    pub text: String,
    /// The name of its encoding, as the Encoding Standard writes it.
    pub encoding: &'static str,
    /// How that was found out.
    pub why: Why,
    /// How many errors the page has in it: each stands as U+FFFD in the text.
    pub errors: u64,
}

const ENCODINGS: [&str; 40] = [
    "Big5", "EUC-JP", "EUC-KR", "gb18030", "GBK", "IBM866", "ISO-2022-JP", "ISO-8859-2", "ISO-8859-3", "ISO-8859-4", "ISO-8859-5",
    "ISO-8859-6", "ISO-8859-7", "ISO-8859-8", "ISO-8859-8-I", "ISO-8859-10", "ISO-8859-13", "ISO-8859-14", "ISO-8859-15",
    "ISO-8859-16", "KOI8-R", "KOI8-U", "macintosh", "replacement", "Shift_JIS", "UTF-8", "UTF-16BE", "UTF-16LE", "windows-874",
    "windows-1250", "windows-1251", "windows-1252", "windows-1253", "windows-1254", "windows-1255", "windows-1256",
    "windows-1257", "windows-1258", "x-mac-cyrillic", "x-user-defined",
];

/// Why there is no text.
#[derive(Clone, Copy, Debug, PartialEq, Eq, Hash)]
#[non_exhaustive]
pub enum Fault {
    /// The page is not UTF-8; its longest front that is has `at` bytes.
    NotUtf8 { at: u64 },
    /// There was not enough memory.
    Memory,
    /// A part of the tree's image would have 2^32 bytes or more.
    TooLarge,
    /// The table is not UTF-8; its longest front that is has `at` bytes.
    TableNotUtf8 { at: u64 },
    /// A line of the table, counted from 1, is no row.
    TableLine { line: u64 },
    /// A row of the table has a name that is not letters and digits with `;` or nothing behind them.
    TableName { row: u64 },
    /// A row of the table has the name of an earlier one.
    TableDuplicate { row: u64 },
    /// A row of the table has a value that is no character.
    TableValue { row: u64 },
    /// The selectors are not UTF-8; their longest front that is has `at` bytes.
    SelectorNotUtf8 { at: u64 },
    /// The text is no selectors; so many characters stand before the first fault.
    Selector { at: u64 },
    /// The bytes are not the image of a tree.
    NotAnImage,
    /// The tree has no node of that number.
    NoSuchNode,
    /// The policy, or the name of a ready one, is not UTF-8; its longest front that is has `at` bytes.
    PolicyNotUtf8 { at: u64 },
    /// A line of the policy, counted from 1, is no rule.
    PolicyLine { line: u64 },
    /// The policy names an element, an attribute or a scheme that is never kept.
    NeverKept,
    /// There is no ready policy of that name.
    NoSuchPolicy,
    /// The name of a fragment's context is not UTF-8; its longest front that is has `at` bytes.
    ContextNotUtf8 { at: u64 },
    /// An answer of a later library.
    Other { answer: u32, at: u64 },
}

impl Fault {
    fn new(answer: u32, at: u64) -> Fault {
        match answer {
            1 => Fault::NotUtf8 { at },
            3 => Fault::Memory,
            4 => Fault::TooLarge,
            16 => Fault::TableNotUtf8 { at },
            17 => Fault::TableLine { line: at },
            18 => Fault::TableName { row: at },
            19 => Fault::TableDuplicate { row: at },
            20 => Fault::TableValue { row: at },
            32 => Fault::SelectorNotUtf8 { at },
            33 => Fault::Selector { at },
            48 => Fault::NotAnImage,
            49 => Fault::NoSuchNode,
            64 => Fault::PolicyNotUtf8 { at },
            65 => Fault::PolicyLine { line: at },
            66 => Fault::NeverKept,
            67 => Fault::NoSuchPolicy,
            80 => Fault::ContextNotUtf8 { at },
            _ => Fault::Other { answer, at },
        }
    }
}

impl fmt::Display for Fault {
    fn fmt(&self, f: &mut fmt::Formatter<'_>) -> fmt::Result {
        match self {
            Fault::NotUtf8 { at } => write!(f, "the page is not UTF-8 at byte {at}"),
            Fault::Memory => write!(f, "no memory was left"),
            Fault::TooLarge => write!(f, "the tree is too large for an image"),
            Fault::TableNotUtf8 { at } => write!(f, "the table is not UTF-8 at byte {at}"),
            Fault::TableLine { line } => write!(f, "line {line} of the table is no row"),
            Fault::TableName { row } => write!(f, "row {row} of the table has a bad name"),
            Fault::TableDuplicate { row } => write!(f, "row {row} of the table has the name of an earlier one"),
            Fault::TableValue { row } => write!(f, "row {row} of the table has a value that is no character"),
            Fault::SelectorNotUtf8 { at } => write!(f, "the selectors are not UTF-8 at byte {at}"),
            Fault::Selector { at } => write!(f, "the selectors are wrong at character {at}"),
            Fault::NotAnImage => write!(f, "the bytes are not the image of a tree"),
            Fault::NoSuchNode => write!(f, "the tree has no node of that number"),
            Fault::PolicyNotUtf8 { at } => write!(f, "the policy is not UTF-8 at byte {at}"),
            Fault::PolicyLine { line } => write!(f, "line {line} of the policy is no rule"),
            Fault::NeverKept => write!(f, "the policy names what is never kept"),
            Fault::NoSuchPolicy => write!(f, "there is no ready policy of that name"),
            Fault::ContextNotUtf8 { at } => write!(f, "the name of the context is not UTF-8 at byte {at}"),
            Fault::Other { answer, at } => write!(f, "answer {answer} at {at}"),
        }
    }
}

impl std::error::Error for Fault {}

/// What both reports have.
trait Told: Default {
    fn length(&self) -> usize;
    fn at(&self) -> u64;
}

impl Told for FigReport {
    fn length(&self) -> usize {
        self.length
    }

    fn at(&self) -> u64 {
        self.at
    }
}

impl Told for FigDecoded {
    fn length(&self) -> usize {
        self.length
    }

    fn at(&self) -> u64 {
        self.at
    }
}

impl Told for FigCleaned {
    fn length(&self) -> usize {
        self.length
    }

    fn at(&self) -> u64 {
        self.at
    }
}

/// Makes a call with room for a text, and again with as much as it is told to want where that was too short.
fn with_room<R: Told>(guess: usize, mut call: impl FnMut(*mut u8, usize, *mut R) -> u32) -> Result<(Vec<u8>, R), Fault> {
    let mut room = guess;
    loop {
        let mut output: Vec<u8> = Vec::new();
        output.try_reserve_exact(room).map_err(|_| Fault::Memory)?;
        let mut report = R::default();
        match call(output.as_mut_ptr(), output.capacity(), &mut report) {
            0 => {
                // SAFETY: the call wrote so many bytes to the front of the room.
                unsafe { output.set_len(report.length()) };
                return Ok((output, report));
            }
            2 => room = report.length(),
            answer => return Err(Fault::new(answer, report.at())),
        }
    }
}

/// A call by the Standard's table of references.
fn by_standard<R: Told>(call: sys::Call<R>, page: &[u8], guess: usize) -> Result<(Vec<u8>, R), Fault> {
    // SAFETY: slices and room are valid for the call, which keeps nothing; output and report overlap nothing.
    with_room(guess, |output, room, report| unsafe { call(page.as_ptr(), page.len(), output, room, report) })
}

/// A call by a table that is handed in, by a policy or by a label.
fn by_table<R: Told>(call: sys::CallWith<R>, table: &[u8], page: &[u8], guess: usize) -> Result<(Vec<u8>, R), Fault> {
    // SAFETY: as above.
    with_room(guess, |output, room, report| unsafe {
        call(table.as_ptr(), table.len(), page.as_ptr(), page.len(), output, room, report)
    })
}

/// What a call writes of a node of an image.
fn of_node(call: sys::CallOfNode, image: &[u8], node: u32) -> Result<String, Fault> {
    let image = tree::image_alone(image);
    // SAFETY: as above.
    let (text, _) = with_room(image.len() / 2 + 64, |output, room, report| unsafe {
        call(image.as_ptr(), image.len(), node, output, room, report)
    })?;
    Ok(text_of(text))
}

/// A node of an image as HTML.
fn serialized(image: &[u8], node: u32) -> Result<String, Fault> {
    of_node(sys::fig_serialize, image, node)
}

/// Where the elements below a node of an image lead.
fn urls(image: &[u8], node: u32) -> Result<Vec<String>, Fault> {
    Ok(of_node(sys::fig_links, image, node)?.lines().map(str::to_string).collect())
}

/// The text of what is proved to be UTF-8.
fn text_of(bytes: Vec<u8>) -> String {
    String::from_utf8(bytes).expect("what is written is UTF-8")
}

fn report_of(told: FigReport) -> Report {
    Report {
        errors: told.errors,
        quirks: Quirks::new(told.quirks.into()),
        plain: told.plain != 0,
    }
}

fn cleaned_of(told: FigCleaned) -> Cleaned {
    Cleaned {
        unwrapped: told.unwrapped,
        dropped: told.dropped,
        attributes: told.attributes,
        comments: told.comments,
    }
}

/// Room that is enough for most texts of a page.
fn text_guess(page: &[u8]) -> usize {
    page.len() + page.len() / 4 + 256
}

/// Room that is enough for most pages' trees.
fn tree_guess(page: &[u8]) -> usize {
    4 * page.len() + 1024
}

/// The normal text of a page: that of the document which the HTML Standard gives it.
///
/// Errors: the page is not UTF-8, or no memory was left.
pub fn normalise(page: impl AsRef<[u8]>) -> Result<(String, Report), Fault> {
    let page = page.as_ref();
    let (text, told) = by_standard(sys::fig_normalise, page, text_guess(page))?;
    Ok((text_of(text), report_of(told)))
}

/// The same by a table of named character references: lines of a name, a space and one to six hexadecimal digits, and for a second
/// character a space and its digits.
///
/// Errors: those of [`normalise`], and what is wrong with the table.
pub fn normalise_with(table: impl AsRef<[u8]>, page: impl AsRef<[u8]>) -> Result<(String, Report), Fault> {
    let page = page.as_ref();
    let (text, told) = by_table(sys::fig_normalise_with, table.as_ref(), page, text_guess(page))?;
    Ok((text_of(text), report_of(told)))
}

/// The text of a page that is in any encoding: in that of its byte order mark, or of `label`, which came with it, as in a header of HTTP;
/// where neither is there, in that which the page declares, or in windows-1252. A label that names no encoding, as one of no bytes, says
/// nothing.
///
/// ```
/// let page = figpliers::decode("", b"<meta charset=koi8-r><p>\xD1")?;
/// assert_eq!((page.text.as_str(), page.encoding), ("<meta charset=koi8-r><p>я", "KOI8-R"));
/// # Ok::<(), figpliers::Fault>(())
/// ```
///
/// Errors: no memory was left.
pub fn decode(label: impl AsRef<[u8]>, page: impl AsRef<[u8]>) -> Result<Decoded, Fault> {
    let page = page.as_ref();
    let (text, told): (_, FigDecoded) = by_table(sys::fig_decode, label.as_ref(), page, text_guess(page))?;
    let why = match told.why {
        0 => Why::ByteOrderMark,
        1 => Why::Label,
        2 => Why::Declaration,
        _ => Why::Nothing,
    };
    let encoding = ENCODINGS.get(told.encoding as usize).copied().unwrap_or("");
    Ok(Decoded { text: text_of(text), encoding, why, errors: told.errors })
}

/// The parse errors of a page, in the order in which they are found.
///
/// ```
/// let errors = figpliers::errors("<!DOCTYPE html>\n<p id=a id=b>")?;
/// assert_eq!((errors[0].line, errors[0].message.as_str()), (2, "duplicate-attribute"));
/// # Ok::<(), figpliers::Fault>(())
/// ```
///
/// Errors: as of [`normalise`].
pub fn errors(page: impl AsRef<[u8]>) -> Result<Vec<ParseError>, Fault> {
    let page = page.as_ref();
    let (text, _) = by_standard(sys::fig_errors, page, page.len() / 4 + 1024)?;
    let error = |it: &str| {
        let (line, message) = it.split_once(": ").expect("a line number and words");
        ParseError { line: line.parse().expect("a number"), message: message.to_string() }
    };
    Ok(text_of(text).lines().map(error).collect())
}

/// The document of a page, with its tree.
///
/// Errors: as of [`normalise`]; [`Fault::TooLarge`] for a tree of some 80 million nodes or 4 GiB of texts.
pub fn parse(page: impl AsRef<[u8]>) -> Result<Document, Fault> {
    let page = page.as_ref();
    let (image, _) = by_standard(sys::fig_tree, page, tree_guess(page))?;
    Ok(Document::new(image))
}

/// The same by a table of references, as [`normalise_with`] has it.
pub fn parse_with(table: impl AsRef<[u8]>, page: impl AsRef<[u8]>) -> Result<Document, Fault> {
    let page = page.as_ref();
    let (image, _) = by_table(sys::fig_tree_with, table.as_ref(), page, tree_guess(page))?;
    Ok(Document::new(image))
}

/// The document of a page, with its tree and the places of its nodes: [`Node::place`]. It takes about 1.4 of [`parse`]'s time.
///
/// ```
/// let page = figpliers::parse_with_places("<ul>\n<li>a\n  <li>b")?;
/// let place = page.select("li")?[1].place().unwrap();
/// assert_eq!((place.line, place.column), (3, 3));
/// # Ok::<(), figpliers::Fault>(())
/// ```
///
/// Errors: as of [`parse`].
pub fn parse_with_places(page: impl AsRef<[u8]>) -> Result<Document, Fault> {
    let page = page.as_ref();
    let (image, _) = by_standard(sys::fig_placed_tree, page, 5 * page.len() + 1024)?;
    Ok(Document::new(image))
}

/// The tree that a page makes as a fragment, as where `innerHTML` of a new element of HTML of the name `context` is set: its nodes are the
/// children of [`Document::root_element`].
///
/// ```
/// let row = figpliers::parse_fragment("tr", "<td>a<td>b")?;
/// assert_eq!(row.root_element().unwrap().inner_html()?, "<td>a</td><td>b</td>");
/// # Ok::<(), figpliers::Fault>(())
/// ```
///
/// Errors: as of [`parse`]; [`Fault::ContextNotUtf8`].
pub fn parse_fragment(context: impl AsRef<[u8]>, page: impl AsRef<[u8]>) -> Result<Document, Fault> {
    let page = page.as_ref();
    let (image, _) = by_table(sys::fig_fragment_tree, context.as_ref(), page, tree_guess(page))?;
    Ok(Document::new(image))
}

/// The numbers of the nodes below a node of an image that selectors select.
fn selected(selectors: &[u8], image: &[u8], node: u32) -> Result<Vec<u32>, Fault> {
    let image = tree::image_alone(image);
    // SAFETY: slices and room are valid for the call, which keeps nothing; output and report overlap nothing.
    let (bytes, _): (_, FigReport) = with_room(256, |output, room, report| unsafe {
        sys::fig_select(selectors.as_ptr(), selectors.len(), image.as_ptr(), image.len(), node, output, room, report)
    })?;
    Ok(bytes.chunks_exact(4).map(|it| u32::from_le_bytes(it.try_into().expect("four bytes"))).collect())
}

/// What the ready policy keeps of a page, read as what stands in a `div`: text, links, tables and formatting.
///
/// Errors: as of [`normalise`].
pub fn clean(page: impl AsRef<[u8]>) -> Result<(String, Cleaned), Fault> {
    let page = page.as_ref();
    let (text, told) = by_standard(sys::fig_clean, page, text_guess(page))?;
    Ok((text_of(text), cleaned_of(told)))
}

/// The same of a page that is read as a document.
///
/// Errors: as of [`normalise`].
pub fn clean_document(page: impl AsRef<[u8]>) -> Result<(String, Cleaned), Fault> {
    let page = page.as_ref();
    let (text, told) = by_standard(sys::fig_clean_document, page, text_guess(page))?;
    Ok((text_of(text), cleaned_of(told)))
}

/// What a policy of one's own keeps of a page, read as what stands in a `div`: `policy` has a rule in each line, as `keep a href`
/// (docs/CLEANING.md lists them). [`policy`] gives the ready ones.
///
/// ```
/// let (text, _) = figpliers::clean_by("keep p\nkeep a href\nscheme https", "<p id=x><a href=https://b>c</a><b>d")?;
/// assert_eq!(text, "<p><a href=\"https://b\">c</a>d</p>");
/// # Ok::<(), figpliers::Fault>(())
/// ```
///
/// Errors: as of [`normalise`]; the policy is not UTF-8, has a line that is no rule, or names what is never kept, as `script`.
pub fn clean_by(policy: impl AsRef<[u8]>, page: impl AsRef<[u8]>) -> Result<(String, Cleaned), Fault> {
    let page = page.as_ref();
    let (text, told) = by_table(sys::fig_clean_by, policy.as_ref(), page, text_guess(page))?;
    Ok((text_of(text), cleaned_of(told)))
}

/// The same of a page that is read as a document.
///
/// Errors: as of [`clean_by`].
pub fn clean_document_by(policy: impl AsRef<[u8]>, page: impl AsRef<[u8]>) -> Result<(String, Cleaned), Fault> {
    let page = page.as_ref();
    let (text, told) = by_table(sys::fig_clean_document_by, policy.as_ref(), page, text_guess(page))?;
    Ok((text_of(text), cleaned_of(told)))
}

/// The text of a ready policy: `text-alone`, `text-and-links` (that of [`clean`]), `user-content` or `mail`.
///
/// Errors: there is no such policy, or no memory was left.
pub fn policy(name: impl AsRef<[u8]>) -> Result<String, Fault> {
    let (text, _) = by_standard(sys::fig_policy, name.as_ref(), 4096)?;
    Ok(text_of(text))
}

#[cfg(test)]
mod layout {
    use super::sys::{FigCleaned, FigDecoded, FigReport};
    use std::mem::{offset_of, size_of};

    macro_rules! field {
        ($lines:ident, $name:literal, $kind:ty, $at:ident: $field:ty) => {
            $lines.push(format!("{}.{} {} {}", $name, stringify!($at), offset_of!($kind, $at), size_of::<$field>()));
        };
    }

    /// What test.sh compares with C's.
    #[test]
    fn printed() {
        let mut lines = Vec::new();
        field!(lines, "fig_report", FigReport, length: usize);
        field!(lines, "fig_report", FigReport, errors: u64);
        field!(lines, "fig_report", FigReport, at: u64);
        field!(lines, "fig_report", FigReport, quirks: u8);
        field!(lines, "fig_report", FigReport, plain: u8);
        field!(lines, "fig_cleaned", FigCleaned, length: usize);
        field!(lines, "fig_cleaned", FigCleaned, at: u64);
        field!(lines, "fig_cleaned", FigCleaned, unwrapped: u64);
        field!(lines, "fig_cleaned", FigCleaned, dropped: u64);
        field!(lines, "fig_cleaned", FigCleaned, attributes: u64);
        field!(lines, "fig_cleaned", FigCleaned, comments: u64);
        field!(lines, "fig_decoded", FigDecoded, length: usize);
        field!(lines, "fig_decoded", FigDecoded, errors: u64);
        field!(lines, "fig_decoded", FigDecoded, at: u64);
        field!(lines, "fig_decoded", FigDecoded, encoding: u8);
        field!(lines, "fig_decoded", FigDecoded, why: u8);
        let sizes = (size_of::<FigReport>(), size_of::<FigCleaned>(), size_of::<FigDecoded>());
        lines.push(format!("fig_report {}\nfig_cleaned {}\nfig_decoded {}", sizes.0, sizes.1, sizes.2));
        if let Ok(path) = std::env::var("FIGPLIERS_LAYOUT") {
            std::fs::write(path, lines.join("\n") + "\n").unwrap();
        }
    }
}
