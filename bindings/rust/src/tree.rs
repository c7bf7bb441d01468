//! The tree of a page, read from its image (`docs/TREE_IMAGE.md`).

use crate::{part, Fault, Quirks};
use std::fmt;

pub(crate) const NO_NODE: u32 = u32::MAX;
pub(crate) const HEADER: usize = 32;
pub(crate) const NODE: usize = 48;
pub(crate) const ATTRIBUTE: usize = 24;
/// A node with more than this part of all nodes in it is written from the whole image.
const SHARE: usize = 8;

/// The document of a page, with its tree.
///
/// ```
/// let page = figpliers::parse("<p>See <a href=/a>this</a> and <a href=/b>that</a>.")?;
/// let links: Vec<_> = page.root().descendants().filter_map(|node| Some((node.attribute("href")?, node.text()))).collect();
/// assert_eq!(links, [("/a", "this".to_string()), ("/b", "that".to_string())]);
/// # Ok::<(), figpliers::Fault>(())
/// ```
#[derive(Clone, PartialEq, Eq)]
pub struct Document {
    /// The image, and behind it the places of its nodes, or nothing.
    image: Vec<u8>,
}

/// A node of a tree.
#[derive(Clone, Copy)]
pub struct Node<'a> {
    image: &'a [u8],
    number: u32,
}

/// What a node is.
#[derive(Clone, Copy, Debug, PartialEq, Eq, Hash)]
pub enum Kind {
    Document,
    Doctype,
    Element,
    Text,
    Comment,
    ProcessingInstruction,
    /// The contents of a template.
    Contents,
}

/// The namespace of an element or an attribute.
#[derive(Clone, Copy, Debug, PartialEq, Eq, Hash)]
pub enum Namespace {
    None,
    Html,
    MathMl,
    Svg,
    XLink,
    Xml,
    Xmlns,
    Other,
}

/// Where a node begins in the text of its page: the line, and the column on it in characters, both counted from 1.
#[derive(Clone, Copy, Debug, PartialEq, Eq, Hash)]
pub struct Place {
    pub line: u32,
    pub column: u32,
}

/// An attribute.
#[derive(Clone, Copy, Debug, PartialEq, Eq)]
pub struct Attribute<'a> {
    /// The qualified name, as `href` or `xlink:href`.
    pub name: &'a str,
    pub value: &'a str,
    pub namespace: Namespace,
}

pub(crate) fn word(image: &[u8], at: usize) -> u32 {
    u32::from_le_bytes(image[at..at + 4].try_into().expect("four bytes"))
}

/// An image without what stands behind it.
pub(crate) fn image_alone(image: &[u8]) -> &[u8] {
    if image.len() < HEADER {
        return image;
    }
    let length = [8, 12, 16].iter().fold(HEADER, |length, &at| length.saturating_add(word(image, at) as usize));
    &image[..length.min(image.len())]
}

fn namespace_of(number: u32) -> Namespace {
    match number {
        0 => Namespace::None,
        1 => Namespace::Html,
        2 => Namespace::MathMl,
        3 => Namespace::Svg,
        4 => Namespace::XLink,
        5 => Namespace::Xml,
        6 => Namespace::Xmlns,
        _ => Namespace::Other,
    }
}

fn text_at(image: &[u8], at: u32, length: u32) -> &str {
    let texts = HEADER + word(image, 8) as usize + word(image, 12) as usize;
    let from = texts + at as usize;
    std::str::from_utf8(&image[from..from + length as usize]).expect("texts are UTF-8")
}

impl Document {
    pub(crate) fn new(image: Vec<u8>) -> Document {
        Document { image }
    }

    /// The node of the document.
    pub fn root(&self) -> Node<'_> {
        Node { image: &self.image, number: 0 }
    }

    /// The document element.
    pub fn root_element(&self) -> Option<Node<'_>> {
        self.root().children().find(|it| it.kind() == Kind::Element)
    }

    /// The elements that CSS selectors select (Selectors Level 4), in tree order.
    ///
    /// ```
    /// let page = figpliers::parse("<ul><li>a<li>b</ul>")?;
    /// let found = page.select("ul > li:nth-child(2)")?;
    /// assert_eq!(found[0].text(), "b");
    /// # Ok::<(), figpliers::Fault>(())
    /// ```
    ///
    /// Errors: as of [`Node::select`].
    pub fn select(&self, selectors: impl AsRef<[u8]>) -> Result<Vec<Node<'_>>, Fault> {
        self.root().select(selectors)
    }

    /// Each `a` and `area` with an `href`, in tree order, with its URL as it is written, but for the white space around it and the line
    /// breaks in it (URL Standard, section 4.4). To make URLs absolute needs a crate for URLs.
    ///
    /// ```
    /// let page = figpliers::parse("<a href=' b?c '>d</a>")?;
    /// let [(link, url)] = &page.links()[..] else { panic!() };
    /// assert_eq!((link.text().as_str(), url.as_str()), ("d", "b?c"));
    /// # Ok::<(), figpliers::Fault>(())
    /// ```
    pub fn links(&self) -> Vec<(Node<'_>, String)> {
        let is_link = |it: &Node<'_>| it.namespace() == Namespace::Html && matches!(it.name(), "a" | "area");
        let url_of = |it: Node<'_>| {
            let url = it.attribute("href")?.trim_matches([' ', '\t', '\n', '\x0C', '\r']);
            Some(url.replace(['\t', '\n', '\r'], ""))
        };
        self.root().descendants().filter(is_link).filter_map(|it| Some((it, url_of(it)?))).collect()
    }

    /// How many parse errors were counted: 0 in a page without any.
    pub fn errors(&self) -> u64 {
        u64::from(word(&self.image, 28)) << 32 | u64::from(word(&self.image, 24))
    }

    /// The quirks mode.
    pub fn quirks(&self) -> Quirks {
        Quirks::new(word(&self.image, 20))
    }

    /// The bytes of the image.
    pub fn as_bytes(&self) -> &[u8] {
        image_alone(&self.image)
    }
}

impl fmt::Debug for Document {
    fn fmt(&self, f: &mut fmt::Formatter<'_>) -> fmt::Result {
        write!(f, "Document of {} nodes", word(&self.image, 8) as usize / NODE)
    }
}

impl<'a> Node<'a> {
    fn word(self, k: usize) -> u32 {
        word(self.image, HEADER + self.number as usize * NODE + 4 * k)
    }

    fn other(self, k: usize) -> Option<Node<'a>> {
        match self.word(k) {
            NO_NODE => None,
            number => Some(Node { image: self.image, number }),
        }
    }

    /// Its number in the image; the document is 0.
    pub fn number(self) -> u32 {
        self.number
    }

    /// What it is.
    pub fn kind(self) -> Kind {
        match self.word(0) & 255 {
            1 => Kind::Element,
            3 => Kind::Text,
            7 => Kind::ProcessingInstruction,
            8 => Kind::Comment,
            9 => Kind::Document,
            10 => Kind::Doctype,
            _ => Kind::Contents,
        }
    }

    /// The local name of an element, the name of a doctype, the target of a processing instruction; else the empty text.
    pub fn name(self) -> &'a str {
        match self.kind() {
            Kind::Element | Kind::Doctype | Kind::ProcessingInstruction => text_at(self.image, self.word(6), self.word(7)),
            _ => "",
        }
    }

    /// The namespace of an element.
    pub fn namespace(self) -> Namespace {
        namespace_of(self.word(0) >> 8 & 255)
    }

    /// The characters of a text, of a comment or of a processing instruction; else the empty text.
    pub fn data(self) -> &'a str {
        match self.kind() {
            Kind::Text | Kind::Comment => text_at(self.image, self.word(6), self.word(7)),
            Kind::ProcessingInstruction => text_at(self.image, self.word(8), self.word(9)),
            _ => "",
        }
    }

    /// The public and the system identifier of a doctype.
    pub fn identifiers(self) -> Option<(&'a str, &'a str)> {
        match self.kind() {
            Kind::Doctype => Some((text_at(self.image, self.word(8), self.word(9)), text_at(self.image, self.word(10), self.word(11)))),
            _ => None,
        }
    }

    /// Where it begins: an element at its tag, or at what made the parser put it there. None unless [`parse_with_places`] made the
    /// document.
    ///
    /// [`parse_with_places`]: crate::parse_with_places
    pub fn place(self) -> Option<Place> {
        let places = &self.image[image_alone(self.image).len()..];
        let place = places.get(8 * self.number as usize..)?.get(..8)?;
        Some(Place { line: word(place, 0), column: word(place, 4) })
    }

    pub fn parent(self) -> Option<Node<'a>> {
        self.other(1)
    }

    pub fn first_child(self) -> Option<Node<'a>> {
        self.other(2)
    }

    pub fn last_child(self) -> Option<Node<'a>> {
        self.other(3)
    }

    pub fn previous_sibling(self) -> Option<Node<'a>> {
        self.other(4)
    }

    pub fn next_sibling(self) -> Option<Node<'a>> {
        self.other(5)
    }

    /// The contents of a template, whose children its children are not.
    pub fn contents(self) -> Option<Node<'a>> {
        match self.kind() {
            Kind::Element => self.other(10),
            _ => None,
        }
    }

    /// The children in their order.
    pub fn children(self) -> impl Iterator<Item = Node<'a>> {
        std::iter::successors(self.first_child(), |node| node.next_sibling())
    }

    /// The nodes below this one in tree order, the contents of templates left out.
    pub fn descendants(self) -> impl Iterator<Item = Node<'a>> {
        let top = self.number;
        std::iter::successors(self.first_child(), move |node| {
            let (mut node, mut following) = (*node, node.first_child());
            while following.is_none() && node.number != top {
                following = node.next_sibling();
                if following.is_none() {
                    node = node.parent()?;
                }
            }
            following
        })
    }

    /// The attributes of an element, in the order of the page; of another node none.
    pub fn attributes(self) -> impl Iterator<Item = Attribute<'a>> {
        let count = if self.kind() == Kind::Element { self.word(9) as usize } else { 0 };
        let from = HEADER + word(self.image, 8) as usize + self.word(8) as usize;
        let image = self.image;
        (0..count).map(move |k| {
            let at = from + k * ATTRIBUTE;
            Attribute {
                name: text_at(image, word(image, at), word(image, at + 4)),
                value: text_at(image, word(image, at + 8), word(image, at + 12)),
                namespace: namespace_of(word(image, at + 16)),
            }
        })
    }

    /// The value of the attribute of a qualified name.
    pub fn attribute(self, name: &str) -> Option<&'a str> {
        self.attributes().find(|it| it.name == name).map(|it| it.value)
    }

    /// The characters of this node, if it is a text, and of all texts below it (`textContent` of the DOM).
    ///
    /// ```
    /// let page = figpliers::parse("<ul><li>One<li>and <b>two</b></ul>")?;
    /// assert_eq!(page.select("ul")?[0].text(), "Oneand two");
    /// # Ok::<(), figpliers::Fault>(())
    /// ```
    pub fn text(self) -> String {
        std::iter::once(self).chain(self.descendants()).filter(|it| it.kind() == Kind::Text).map(Node::data).collect()
    }

    /// This node as HTML, with what is in it (HTML Standard, section 13.3); of the document and of a template's contents what is in
    /// them. It is written by the library, in time that grows with what is in the node. A text on its own is escaped, also one of a
    /// `script`.
    ///
    /// ```
    /// let page = figpliers::parse("<p id=a>1 &lt; 2<br>")?;
    /// assert_eq!(page.select("p")?[0].html()?, "<p id=\"a\">1 &lt; 2<br></p>");
    /// # Ok::<(), figpliers::Fault>(())
    /// ```
    ///
    /// Errors: [`Fault::Memory`].
    pub fn html(self) -> Result<String, Fault> {
        match self.kind() {
            Kind::Document => crate::serialized(self.image, 0),
            Kind::Contents => self.inner_html(),
            _ => {
                let nodes = word(self.image, 8) as usize / NODE;
                match part::inside(self.image, self.number, nodes / SHARE) {
                    Some(found) => crate::serialized(&part::copy(self.image, &found, false), 1),
                    None => crate::serialized(self.image, self.number),
                }
            }
        }
    }

    /// What is in this node as HTML, without the node itself (`innerHTML` of the DOM): of a template its contents, of a node that can
    /// have no children the empty text.
    ///
    /// ```
    /// let page = figpliers::parse("<p id=a>1 &lt; 2<br>")?;
    /// assert_eq!(page.select("p")?[0].inner_html()?, "1 &lt; 2<br>");
    /// # Ok::<(), figpliers::Fault>(())
    /// ```
    ///
    /// Errors: [`Fault::Memory`].
    pub fn inner_html(self) -> Result<String, Fault> {
        let element = match self.kind() {
            Kind::Document => return self.html(),
            Kind::Element => self,
            // they come just behind their template
            Kind::Contents => Node { number: self.number - 1, ..self },
            _ => return Ok(String::new()),
        };
        let found = part::inside(self.image, element.number, usize::MAX).expect("no more than there can be");
        // without attributes, so that the tags are as long as the name
        let html = crate::serialized(&part::copy(self.image, &found, true), 1)?;
        let name = element.name().len();
        Ok(html.get(name + 2..html.len().saturating_sub(name + 3)).unwrap_or("").to_string())
    }

    /// The elements below this node that CSS selectors select (Selectors Level 4), in tree order. `:scope` is this node, or where it is no
    /// element the first element in it. The library reads the whole image for it.
    ///
    /// ```
    /// let page = figpliers::parse("<ul><li>a<ul><li>b</ul></ul>")?;
    /// let inner = page.select("ul ul")?[0].select(":scope > li")?;
    /// assert_eq!(inner[0].text(), "b");
    /// # Ok::<(), figpliers::Fault>(())
    /// ```
    ///
    /// Errors: [`Fault::Selector`] where the text is no selectors; [`Fault::Memory`].
    pub fn select(self, selectors: impl AsRef<[u8]>) -> Result<Vec<Node<'a>>, Fault> {
        let numbers = crate::selected(selectors.as_ref(), self.image, self.number)?;
        Ok(numbers.into_iter().map(|number| Node { number, ..self }).collect())
    }

    /// Where the elements below this node lead, in tree order: the `href` of each `a`, `area` and `link`, the `src` of each `img`,
    /// `script`, frame, `embed`, `input` and of media, as it is written but for tabs and line breaks. The library reads the whole image
    /// for it.
    ///
    /// ```
    /// let page = figpliers::parse("<link href=a><p><img src=b><a href=c>d</a>")?;
    /// assert_eq!(page.root().urls()?, ["a", "b", "c"]);
    /// # Ok::<(), figpliers::Fault>(())
    /// ```
    ///
    /// Errors: [`Fault::Memory`].
    pub fn urls(self) -> Result<Vec<String>, Fault> {
        crate::urls(self.image, self.number)
    }
}

impl fmt::Debug for Node<'_> {
    fn fmt(&self, f: &mut fmt::Formatter<'_>) -> fmt::Result {
        write!(f, "{:?} {:?}", self.kind(), if self.name().is_empty() { self.data() } else { self.name() })
    }
}

impl PartialEq for Node<'_> {
    fn eq(&self, other: &Self) -> bool {
        std::ptr::eq(self.image, other.image) && self.number == other.number
    }
}

impl Eq for Node<'_> {}

#[cfg(test)]
mod tests {
    use super::{word, Node, NODE};

    /// HTML of a part, and texts, are what the library writes of the node in the whole image.
    #[test]
    fn each_node_as_in_the_whole_image() {
        let odd = "<!DOCTYPE a PUBLIC 'b'><p id=a class='\"&'>b<svg xlink:href=c></svg></p><script a=b>1<2</script><br><?g>\
            <template><i>d</i><template x>y</template></template>e<!--f--><table>g<td>h";
        for page in ["", "<li>1".repeat(40).as_str(), odd] {
            let page = crate::parse(page).unwrap();
            for number in 0..(word(&page.image, 8) as usize / NODE) as u32 {
                let node = Node { image: &page.image, number };
                assert_eq!(node.html(), crate::serialized(&page.image, number), "{number}");
                assert_eq!(Ok(node.text()), crate::of_node(crate::sys::fig_text_content, &page.image, number), "{number}");
            }
        }
        let page = crate::parse(odd).unwrap();
        assert_eq!(crate::serialized(&page.image, 1000), Err(crate::Fault::NoSuchNode));
        assert_eq!(crate::serialized(b"FIGT", 0), Err(crate::Fault::NotAnImage));
    }
}
