//! outside ROUNDS PAGE: a page in memory to its normal text in memory, by figpliers and by html5ever over its rcdom, in turns: the
//! median of the processor times, of their ratio within a round, and what the border's copy costs.

use html5ever::serialize::{Serialize, SerializeOpts, Serializer, TraversalScope};
use html5ever::tendril::{StrTendril, TendrilSink};
use html5ever::{parse_document, serialize, ParseOpts, QualName};
use markup5ever_rcdom::{Handle, NodeData, RcDom};
use std::io;

#[repr(C)]
struct Seconds {
    whole: i64,
    nanos: i64,
}

extern "C" {
    fn clock_gettime(clock: i32, time: *mut Seconds) -> i32;
}

/// Processor seconds of this process (the clock 2 of Linux).
fn now() -> f64 {
    let mut time = Seconds { whole: 0, nanos: 0 };
    // SAFETY: the place is a time's.
    unsafe { clock_gettime(2, &mut time) };
    time.whole as f64 + time.nanos as f64 / 1e9
}

/// A tree with what stands in templates, which rcdom's own walk leaves out.
struct Full(Handle);

enum Step {
    Open(Handle),
    Close(QualName),
}

impl Serialize for Full {
    fn serialize<S: Serializer>(&self, serializer: &mut S, _scope: TraversalScope) -> io::Result<()> {
        let mut steps: Vec<Step> = self.0.children.borrow().iter().rev().map(|it| Step::Open(it.clone())).collect();
        while let Some(step) = steps.pop() {
            let node = match step {
                Step::Close(name) => {
                    serializer.end_elem(name)?;
                    continue;
                }
                Step::Open(node) => node,
            };
            match &node.data {
                NodeData::Element { name, attrs, template_contents, .. } => {
                    serializer.start_elem(name.clone(), attrs.borrow().iter().map(|it| (&it.name, &it.value[..])))?;
                    steps.push(Step::Close(name.clone()));
                    let inside = template_contents.borrow().clone().unwrap_or(node.clone());
                    steps.extend(inside.children.borrow().iter().rev().map(|it| Step::Open(it.clone())));
                }
                NodeData::Doctype { name, .. } => serializer.write_doctype(name)?,
                NodeData::Text { contents } => serializer.write_text(&contents.borrow())?,
                NodeData::Comment { contents } => serializer.write_comment(contents)?,
                NodeData::ProcessingInstruction { target, contents } => serializer.write_processing_instruction(target, contents)?,
                NodeData::Document => unreachable!(),
            }
        }
        Ok(())
    }
}

#[inline(never)]
fn by_html5ever(page: &str) -> Vec<u8> {
    let dom = parse_document(RcDom::default(), ParseOpts::default()).one(StrTendril::from_slice(page));
    let mut output = Vec::with_capacity(page.len() + page.len() / 4 + 256);
    serialize(&mut output, &Full(dom.document.clone()), SerializeOpts::default()).unwrap();
    output
}

#[inline(never)]
fn by_figpliers(page: &str) -> Vec<u8> {
    figpliers::normalise(page).unwrap().0.into_bytes()
}

fn copied(text: &[u8]) -> Vec<u8> {
    text.to_vec()
}

fn timed<T>(work: impl FnOnce() -> T) -> (f64, T) {
    let begin = now();
    let made = work();
    (now() - begin, made)
}

fn median(mut seconds: Vec<f64>) -> f64 {
    seconds.sort_by(f64::total_cmp);
    seconds[seconds.len() / 2]
}

fn main() {
    let words: Vec<String> = std::env::args().collect();
    let rounds: usize = words[1].parse().unwrap();
    let page = std::fs::read_to_string(&words[2]).unwrap();
    let (mut ours, mut theirs, mut copies, mut ratios, mut length) = (vec![], vec![], vec![], vec![], 0);
    for _ in 0..rounds {
        let (our, text) = timed(|| by_figpliers(&page));
        let (their, other) = timed(|| by_html5ever(&page));
        assert!(text == other, "the texts are not the same");
        copies.push(timed(|| copied(&text)).0);
        (length, _) = (text.len(), ratios.push(our / their));
        ours.push(our);
        theirs.push(their);
    }
    println!("{} bytes in, {length} bytes out, the same ones; {rounds} rounds", page.len());
    println!("figpliers {:.4} s, html5ever {:.4} s, median ratio of a round {:.2}", median(ours), median(theirs), median(ratios));
    println!("a copy of the text to new memory {:.4} s", median(copies));
}
