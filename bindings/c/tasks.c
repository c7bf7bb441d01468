/* tasks TASKS: the usual tasks with a page, by the calls and functions of figpliers.h. Links are not made absolute here. */
#include "testing.h"

typedef uint32_t (*call_of_node)(const uint8_t *, size_t, uint32_t, uint8_t *, size_t, fig_report *);

/* What was answered: it grows by each text. */
static bytes answer;

static void put(const char *text, size_t length) {
    answer.at = realloc(answer.at, answer.length + length + 1);
    if (!answer.at) abort();
    if (length) memcpy(answer.at + answer.length, text, length);
    answer.length += length;
}

static void put_word(const char *word) { put(word, strlen(word)); }

static void put_text(fig_text text) { put(text.at, text.length); }

typedef uint32_t (*call_of_page)(const uint8_t *, size_t, uint8_t *, size_t, fig_report *);

/* The image of a page's tree, in memory of its length, with what the call writes behind it. */
static bytes image_by(call_of_page call, bytes page) {
    fig_report report;
    if (call(page.at, page.length, NULL, 0, &report) != FIG_TOO_SHORT) abort();
    bytes image = {memory(report.length), report.length};
    if (call(page.at, page.length, image.at, image.length, &report) != FIG_DONE) abort();
    image.length = fig_image_length(image.at);
    return image;
}

static bytes image_of(bytes page) { return image_by(fig_tree, page); }

/* What a call writes of a node, in memory of its length. */
static bytes written(call_of_node call, bytes image, uint32_t node) {
    fig_report report;
    uint32_t first = call(image.at, image.length, node, NULL, 0, &report);
    bytes text = {memory(report.length), report.length};
    if (first != FIG_TOO_SHORT && (first != FIG_DONE || text.length)) abort();
    if (text.length && call(image.at, image.length, node, text.at, text.length, &report) != FIG_DONE) abort();
    return text;
}

/* The name of a node as `nodeName` of the DOM has it, but for its letters. */
static void put_name(const uint8_t *image, uint32_t node) {
    switch (fig_kind_of(image, node)) {
    case FIG_TEXT: put_word("#text"); break;
    case FIG_COMMENT: put_word("#comment"); break;
    case FIG_DOCUMENT: put_word("#document"); break;
    default: put_text(fig_text_of(image, node));
    }
}

static void put_attributes(const uint8_t *image, uint32_t node) {
    for (uint32_t n = 0; n < fig_attributes(image, node); n++) {
        fig_attribute it = fig_attribute_of(image, node, n);
        if (n) put_word(" ");
        put_text(it.name), put_word("="), put_text(it.value);
    }
}

static void put_children(const uint8_t *image, uint32_t node) {
    for (uint32_t child = fig_first_child(image, node); child != FIG_NO_NODE; child = fig_next(image, child)) {
        if (fig_previous(image, child) != FIG_NO_NODE) put_word(" ");
        put_name(image, child);
    }
}

/* The node of the tree that follows one in tree order, without what stands in templates. */
static uint32_t following(const uint8_t *image, uint32_t node) {
    uint32_t next = fig_first_child(image, node);
    while (next == FIG_NO_NODE && node) {
        next = fig_next(image, node);
        node = fig_parent(image, node);
    }
    return next;
}

/* A task with one node, on a line of its own. */
static void on_node(const char *task, bytes image, uint32_t node) {
    if (!strcmp(task, "select")) put_name(image.at, node);
    else if (!strcmp(task, "attributes")) put_attributes(image.at, node);
    else if (!strcmp(task, "children")) put_children(image.at, node);
    else if (!strcmp(task, "parent")) put_name(image.at, fig_parent(image.at, node));
    else if (!strcmp(task, "place")) {
        char place[32];
        snprintf(place, sizeof place, "%u:%u", (unsigned)fig_line(image.at, node), (unsigned)fig_column(image.at, node));
        put_word(place);
    }
    else if (!strcmp(task, "urls")) {
        bytes text = written(fig_links, image, node);
        put((const char *)text.at, text.length);
        free(text.at);
        return;
    } else {
        bytes text = written(strcmp(task, "text") ? fig_serialize : fig_text_content, image, node);
        fig_text it = {(const char *)text.at, text.length};
        put_text(strcmp(task, "inner_html") ? it : fig_inner(image.at, node, text.at, text.length));
        free(text.at);
    }
    put_word("\n");
}

/* A task with each node that selectors select, or with all of the tree. */
static void on_nodes(const char *task, bytes selectors, bytes page) {
    bytes image = image_by(strcmp(task, "place") ? fig_tree : fig_placed_tree, page);
    static uint8_t numbers[1 << 12];
    fig_report report;
    if (!selectors.length)
        for (uint32_t node = 0; node != FIG_NO_NODE; node = following(image.at, node)) on_node(task, image, node);
    else if (fig_select(selectors.at, selectors.length, image.at, image.length, 0, numbers, sizeof numbers, &report) != FIG_DONE)
        put_word("no selectors");
    else
        for (size_t at = 0; at < report.length; at += 4) on_node(task, image, fig_word(numbers + at));
    free(image.at);
}

static int is_among(fig_text text, const char *one, const char *other) {
    return (text.length == strlen(one) && !memcmp(text.at, one, text.length)) || (other && is_among(text, other, NULL));
}

/* A URL without the white space around it and the line breaks in it. */
static void put_url(fig_text url) {
    while (url.length && strchr(" \t\n\f\r", url.at[0])) url.at++, url.length--;
    while (url.length && strchr(" \t\n\f\r", url.at[url.length - 1])) url.length--;
    for (size_t i = 0; i < url.length; i++)
        if (!strchr("\t\n\r", url.at[i])) put(url.at + i, 1);
    put_word("\n");
}

static void links(bytes page) {
    bytes image = image_of(page);
    for (uint32_t node = 0; (node = following(image.at, node)) != FIG_NO_NODE;) {
        if (fig_kind_of(image.at, node) != FIG_ELEMENT || fig_namespace_of(image.at, node) != FIG_HTML) continue;
        for (uint32_t n = 0; is_among(fig_text_of(image.at, node), "a", "area") && n < fig_attributes(image.at, node); n++)
            if (is_among(fig_attribute_of(image.at, node, n).name, "href", NULL)) put_url(fig_attribute_of(image.at, node, n).value);
    }
    free(image.at);
}

/* What a page makes in an element of a name, as HTML. */
static void fragment(bytes context, bytes page) {
    static uint8_t image[1 << 16], html[1 << 12];
    fig_report report;
    if (!context.length) context.at = (uint8_t *)"body", context.length = 4;
    if (fig_fragment_tree(context.at, context.length, page.at, page.length, image, sizeof image, &report) != FIG_DONE) abort();
    uint32_t root = fig_first_child(image, 0);
    if (fig_serialize(image, report.length, root, html, sizeof html, &report) != FIG_DONE) abort();
    put_text(fig_inner(image, root, html, report.length));
}

static void on_page(const char *task, bytes argument, bytes page) {
    static uint8_t text[1 << 12];
    fig_report report;
    fig_cleaned cleaned;
    if (!strcmp(task, "links")) {
        links(page);
    } else if (!strcmp(task, "fragment")) {
        fragment(argument, page);
    } else if (!strcmp(task, "clean")) {
        uint32_t told = argument.length ? fig_clean_by(argument.at, argument.length, page.at, page.length, text, sizeof text, &cleaned)
                                        : fig_clean(page.at, page.length, text, sizeof text, &cleaned);
        if (told == FIG_DONE) put((char *)text, cleaned.length);
    } else {
        if (fig_errors(page.at, page.length, text, sizeof text, &report) == FIG_DONE) put((char *)text, report.length);
    }
}

int main(int argc, char **argv) {
    static char line[1 << 16];
    char *fields[4];
    if (argc != 2) return 2;
    FILE *file = opened(argv[1]);
    for (int row = 0; next_row(file, line, sizeof line, fields, 4, &row);) {
        if (!strcmp(fields[0], "links_at")) continue;
        bytes argument = unescaped(fields[1]), page = unescaped(fields[2]), want = unescaped(fields[3]);
        answer.length = 0;
        static const char *const of_page[] = {"links", "clean", "errors", "fragment"};
        int is_of_page = 0;
        for (size_t i = 0; i < sizeof of_page / sizeof *of_page; i++) is_of_page |= !strcmp(fields[0], of_page[i]);
        if (is_of_page) on_page(fields[0], argument, page);
        else on_nodes(fields[0], argument, page);
        put("", 0);
        answer.at[answer.length] = 0;
        check(answer.length == want.length && (!want.length || !memcmp(answer.at, want.at, want.length)), (char *)answer.at, row);
        free(argument.at), free(page.at), free(want.at);
    }
    free(answer.at);
    fclose(file);
    printf("C: %d passed, %d failed\n", passed, failed);
    return failed != 0;
}
