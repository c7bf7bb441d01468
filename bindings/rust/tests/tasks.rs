//! The usual tasks with a page. Links are not made absolute here.

mod common;

use common::{rows_of, unescaped};
use figpliers::{Document, Fault, Kind, Node};

/// The name of a node as `nodeName` of the DOM has it, but for its letters.
fn name_of(node: Node<'_>) -> &str {
    match node.kind() {
        Kind::Text => "#text",
        Kind::Comment => "#comment",
        Kind::Document => "#document",
        _ => node.name(),
    }
}

fn on_node(task: &str, node: Node<'_>) -> Result<String, Fault> {
    Ok(match task {
        "select" => name_of(node).to_string(),
        "text" => node.text(),
        "attributes" => node.attributes().map(|it| format!("{}={}", it.name, it.value)).collect::<Vec<_>>().join(" "),
        "children" => node.children().map(name_of).collect::<Vec<_>>().join(" "),
        "parent" => name_of(node.parent().expect("a parent")).to_string(),
        "html" => node.html()?,
        "inner_html" => node.inner_html()?,
        "urls" => node.urls()?.join("\n"),
        "place" => node.place().map(|it| format!("{}:{}", it.line, it.column)).expect("a place"),
        other => panic!("{other}"),
    })
}

/// What selectors select, or all nodes of the tree.
fn nodes<'a>(page: &'a Document, selectors: &str) -> Result<Vec<Node<'a>>, Fault> {
    if selectors.is_empty() {
        Ok(std::iter::once(page.root()).chain(page.root().descendants()).collect())
    } else {
        page.select(selectors)
    }
}

fn answer(task: &str, argument: &str, page: &[u8]) -> Result<String, Fault> {
    Ok(match task {
        "links" => figpliers::parse(page)?.links().into_iter().map(|(_, url)| url + "\n").collect(),
        "clean" if argument.is_empty() => figpliers::clean(page)?.0,
        "clean" => figpliers::clean_by(argument, page)?.0,
        "errors" => figpliers::errors(page)?.into_iter().map(|it| format!("{}: {}\n", it.line, it.message)).collect(),
        "fragment" => {
            let made = figpliers::parse_fragment(if argument.is_empty() { "body" } else { argument }, page)?;
            let inner = made.root_element().expect("a root").inner_html()?;
            inner
        }
        _ => {
            let page = if task == "place" { figpliers::parse_with_places(page)? } else { figpliers::parse(page)? };
            let answers: Result<Vec<_>, _> = nodes(&page, argument)?.into_iter().map(|node| on_node(task, node)).collect();
            answers?.into_iter().filter(|it| task != "urls" || !it.is_empty()).map(|it| it + "\n").collect()
        }
    })
}

#[test]
fn all_tasks() {
    for row in rows_of("tasks.tsv") {
        let fields: Vec<Vec<u8>> = row.split('\t').map(unescaped).collect();
        let [task, argument, page, want] = &fields[..] else { panic!("{row}") };
        let text = |it: &[u8]| String::from_utf8(it.to_vec()).unwrap();
        if task != b"links_at" {
            assert_eq!(answer(&text(task), &text(argument), page), Ok(text(want)), "{row}");
        }
    }
}
