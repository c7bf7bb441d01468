"""The usual tasks with a page."""
import figpliers
import testing


def name_of(node):
    """The name of a node as `nodeName` of the DOM has it, but for its letters."""
    return {"text": "#text", "comment": "#comment", "document": "#document"}.get(node.kind, node.name)


ON_NODE = {
    "select": name_of,
    "text": lambda node: node.text(),
    "attributes": lambda node: " ".join(f"{name}={value}" for name, value in node.attrs.items()),
    "children": lambda node: " ".join(map(name_of, node.children)),
    "parent": lambda node: name_of(node.parent),
    "html": lambda node: node.html(),
    "inner_html": lambda node: node.inner_html(),
    "place": lambda node: f"{node.line}:{node.column}",
}


def answer(task, argument, page):
    if task == "clean":
        return figpliers.clean(page, argument or None)[0]
    if task == "errors":
        return "".join(f"{it.line}: {it.message}\n" for it in figpliers.errors(page))
    if task == "fragment":
        return figpliers.fragment(page, *filter(None, [argument])).root.inner_html()
    document = figpliers.parse(page, places=task == "place")
    if task in ("links", "links_at"):
        return "".join(url + "\n" for _, url in document.links(argument or None))
    nodes = document.select(argument) if argument else [document, *document.walk()]
    if task == "urls":
        return "".join(url + "\n" for node in nodes for url in node.urls())
    return "".join(ON_NODE[task](node) + "\n" for node in nodes)


for row in testing.rows_of("tasks.tsv"):
    task, argument, page, want = (field.decode() for field in row)
    got = answer(task, argument, page)
    testing.check(got == want, f"{task} {argument} {page}: {got}")
testing.end()
