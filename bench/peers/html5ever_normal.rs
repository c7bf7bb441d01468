//! Reads a page from standard input, with scripting on, and writes it as html5ever does over its `rcdom`, with what stands in templates.
use html5ever::serialize::{Serialize, Serializer, TraversalScope};
use html5ever::tendril::TendrilSink;
use html5ever::{ParseOpts, QualName, parse_document, serialize};
use markup5ever_rcdom::{Handle, NodeData, RcDom};
use std::io::{self, BufWriter, Write};

/// What is still to be written.
enum Step {
    Begin(Handle),
    End(QualName),
}

struct Document(Handle);

fn below(node: &Handle) -> impl Iterator<Item = Step> {
    let children = node.children.borrow().clone();
    children.into_iter().rev().map(Step::Begin)
}

impl Serialize for Document {
    fn serialize<S: Serializer>(&self, to: &mut S, _: TraversalScope) -> io::Result<()> {
        let mut steps: Vec<Step> = below(&self.0).collect();
        while let Some(step) = steps.pop() {
            let node = match step {
                Step::End(name) => {
                    to.end_elem(name)?;
                    continue;
                }
                Step::Begin(node) => node,
            };
            match &node.data {
                NodeData::Element { name, attrs, template_contents, .. } => {
                    to.start_elem(name.clone(), attrs.borrow().iter().map(|it| (&it.name, &it.value[..])))?;
                    steps.push(Step::End(name.clone()));
                    steps.extend(below(template_contents.borrow().as_ref().unwrap_or(&node)));
                }
                NodeData::Doctype { name, .. } => to.write_doctype(name)?,
                NodeData::Text { contents } => to.write_text(&contents.borrow())?,
                NodeData::Comment { contents } => to.write_comment(contents)?,
                NodeData::ProcessingInstruction { target, contents } => to.write_processing_instruction(target, contents)?,
                NodeData::Document => {}
            }
        }
        Ok(())
    }
}

fn main() -> io::Result<()> {
    let page = parse_document(RcDom::default(), ParseOpts::default()).from_utf8().read_from(&mut io::stdin().lock())?;
    let mut output = BufWriter::with_capacity(65536, io::stdout().lock());
    serialize(&mut output, &Document(page.document), Default::default())?;
    output.flush()
}
