//! The rows that all bindings are tested with, from several threads.

mod common;

use common::{rows_of, unescaped};
use figpliers::{Cleaned, Decoded, Document, Fault, Kind, Namespace, Node, Quirks, Report};

fn told(report: Report) -> String {
    let quirks = match report.quirks {
        Quirks::No => 0,
        Quirks::Limited => 1,
        Quirks::Yes => 2,
    };
    format!("{},0,{quirks},{}", if report.errors == 0 { "0" } else { "+" }, report.plain as u8)
}

/// The image of a document, and what is told of its page.
fn image_of(document: Document, report: Report) -> (Vec<u8>, String) {
    assert_eq!((document.errors(), document.quirks()), (report.errors, report.quirks));
    (document.as_bytes().to_vec(), told(report))
}

/// The image of a document, and the places of its nodes by their numbers.
fn placed(document: Document, report: Report) -> (Vec<u8>, String) {
    let (mut bytes, numbers) = image_of(document.clone(), report);
    let mut places: Vec<_> = nodes_in(document.root()).into_iter().map(|it| (it.number(), it.place().unwrap())).collect();
    places.sort_by_key(|it| it.0);
    for (_, place) in places {
        bytes.extend([place.line, place.column].iter().flat_map(|it| it.to_le_bytes()));
    }
    (bytes, numbers)
}

/// A node and all nodes in it, the contents of templates too.
fn nodes_in(node: Node<'_>) -> Vec<Node<'_>> {
    let inner = node.contents().into_iter().chain(node.children()).flat_map(nodes_in);
    std::iter::once(node).chain(inner).collect()
}

fn counted(counts: Cleaned) -> String {
    format!("0,{},{},{},{}", counts.unwrapped, counts.dropped, counts.attributes, counts.comments)
}

fn decoded(page: Decoded) -> (Vec<u8>, String) {
    let errors = if page.errors == 0 { "0" } else { "+" };
    (page.text.into_bytes(), format!("{errors},0,{},{}", page.encoding, page.why as u8))
}

fn answer(fault: Fault) -> (u32, u64) {
    match fault {
        Fault::NotUtf8 { at } => (1, at),
        Fault::Memory => (3, 0),
        Fault::TableNotUtf8 { at } => (16, at),
        Fault::TableLine { line } => (17, line),
        Fault::TableName { row } => (18, row),
        Fault::TableDuplicate { row } => (19, row),
        Fault::TableValue { row } => (20, row),
        Fault::SelectorNotUtf8 { at } => (32, at),
        Fault::Selector { at } => (33, at),
        Fault::PolicyNotUtf8 { at } => (64, at),
        Fault::PolicyLine { line } => (65, line),
        Fault::NeverKept => (66, 0),
        Fault::NoSuchPolicy => (67, 0),
        Fault::ContextNotUtf8 { at } => (80, at),
        other => panic!("{other}"),
    }
}

fn call(name: &str, table: &[u8], page: &[u8]) -> Result<(Vec<u8>, String), Fault> {
    Ok(match name {
        "normalise" => figpliers::normalise(page).map(|(text, report)| (text.into_bytes(), told(report)))?,
        "normalise_with" => figpliers::normalise_with(table, page).map(|(text, report)| (text.into_bytes(), told(report)))?,
        "tree" => image_of(figpliers::parse(page)?, figpliers::normalise(page)?.1),
        "placed_tree" => placed(figpliers::parse_with_places(page)?, figpliers::normalise(page)?.1),
        "fragment_tree" => {
            let document = figpliers::parse_fragment(table, page)?;
            let (errors, quirks) = (document.errors(), document.quirks());
            image_of(document, Report { errors, quirks, plain: false })
        }
        "tree_with" => image_of(figpliers::parse_with(table, page)?, figpliers::normalise_with(table, page)?.1),
        "select" => {
            let document = figpliers::parse(page)?;
            let numbers = document.select(table)?.into_iter().flat_map(|node| node.number().to_le_bytes()).collect();
            (numbers, told(figpliers::normalise(page)?.1))
        }
        "errors" => {
            let lines: String = figpliers::errors(page)?.into_iter().map(|it| format!("{}: {}\n", it.line, it.message)).collect();
            (lines.into_bytes(), told(figpliers::normalise(page)?.1))
        }
        "clean" => figpliers::clean(page).map(|(text, counts)| (text.into_bytes(), counted(counts)))?,
        "clean_document" => figpliers::clean_document(page).map(|(text, counts)| (text.into_bytes(), counted(counts)))?,
        "clean_by" => figpliers::clean_by(table, page).map(|(text, counts)| (text.into_bytes(), counted(counts)))?,
        "clean_document_by" => figpliers::clean_document_by(table, page).map(|(text, counts)| (text.into_bytes(), counted(counts)))?,
        "decode" => decoded(figpliers::decode(table, page)?),
        "policy" => (figpliers::policy(page)?.into_bytes(), "0,0,0,0".to_string()),
        other => panic!("{other}"),
    })
}

fn rows() -> usize {
    let mut count = 0;
    for row in rows_of("rows.tsv") {
        let fields: Vec<&str> = row.split('\t').collect();
        let want: u32 = fields[3].parse().unwrap();
        match call(fields[0], &unescaped(fields[1]), &unescaped(fields[2])) {
            Ok((text, numbers)) => assert_eq!((want, numbers.as_str(), text), (0, fields[4], unescaped(fields[5])), "{row}"),
            Err(fault) => {
                let at = if fields[0].starts_with("clean") { 0 } else { 1 };
                let place: u64 = fields[4].split(',').nth(at).unwrap().parse().unwrap();
                assert_eq!((want, place), answer(fault), "{row}");
                assert!(!fault.to_string().is_empty());
            }
        }
        count += 1;
    }
    count
}

#[test]
fn all_rows_from_each_thread() {
    let count = rows();
    std::thread::scope(|scope| {
        for _ in 0..4 {
            scope.spawn(rows);
        }
    });
    println!("Rust: {count} rows");
}

/// Where the first guess of room is too short.
#[test]
fn long_texts() {
    let page = "<p>".repeat(1000);
    assert_eq!(figpliers::normalise(&page).unwrap().0.matches("</p>").count(), 1000);
    let document = figpliers::parse(&page).unwrap();
    assert_eq!(document.root().descendants().filter(|it| it.name() == "p").count(), 1000);
    let deep = figpliers::parse("<div>".repeat(20000)).unwrap();
    assert_eq!(deep.root().descendants().count(), 20003);
}

/// What is read of a tree.
#[test]
fn trees() {
    let page = "<!DOCTYPE a PUBLIC 'b'><p id=c>d<svg xlink:href=e></svg></p><template><i>f</i></template>g<?h>";
    let document = figpliers::parse(page).unwrap();
    let doctype = document.root().first_child().unwrap();
    assert_eq!((doctype.kind(), doctype.name(), doctype.identifiers()), (Kind::Doctype, "a", Some(("b", ""))));
    let names: Vec<_> = document.root().descendants().map(|it| if it.name().is_empty() { it.data() } else { it.name() }).collect();
    assert_eq!(names, ["a", "html", "head", "body", "p", "d", "svg", "template", "g", "?h"]);
    let p = document.root().descendants().find(|it| it.name() == "p").unwrap();
    assert_eq!((p.attribute("id"), p.text().as_str(), p.namespace()), (Some("c"), "d", Namespace::Html));
    let svg = p.last_child().unwrap();
    let href = svg.attributes().next().unwrap();
    assert_eq!((svg.namespace(), href.name, href.value, href.namespace), (Namespace::Svg, "xlink:href", "e", Namespace::XLink));
    assert_eq!(document.select("p > svg").unwrap(), [svg]);
    assert_eq!(figpliers::parse_with("", "<p>").unwrap().select("p").unwrap().len(), 1);
    let template = p.next_sibling().unwrap();
    assert_eq!((template.children().count(), template.text().as_str()), (0, ""));
    assert_eq!(template.contents().unwrap().text(), "f");
    assert_eq!(template.previous_sibling().and_then(|it| it.parent()), p.parent());
    assert_eq!((p.place(), document.root_element().unwrap().name()), (None, "html"));
    let placed = figpliers::parse_with_places(page).unwrap();
    assert_eq!(placed.as_bytes(), document.as_bytes());
    assert_eq!((placed.select("svg").unwrap()[0].html(), placed.root().html()), (svg.html(), document.root().html()));
}
