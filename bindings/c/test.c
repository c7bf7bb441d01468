/* test ROWS: the rows, each in rooms of its very length, one byte less and none; then what no row says. Memory is taken for the
 * very lengths, so that a sanitizer sees each byte that is read or written past them. */
#include "testing.h"

#define ALL(call, field) \
    printf("%s.%s %zu %zu\n", #call, #field, offsetof(call, field), sizeof(((call *)0)->field))

typedef struct told {
    uint32_t answer;
    size_t length;
    char numbers[128];
} told;

/* What selectors select in the image of a page's tree; or why there is no image. */
static uint32_t selected(bytes selectors, bytes page, uint8_t *output, size_t room, fig_report *report) {
    uint32_t answer = fig_tree(page.at, page.length, NULL, 0, report);
    if (answer != FIG_TOO_SHORT) return answer;
    bytes image = {memory(report->length), report->length};
    if (fig_tree(page.at, page.length, image.at, image.length, report) != FIG_DONE) abort();
    memset(report, 0xA5, sizeof *report);
    answer = fig_select(selectors.at, selectors.length, image.at, image.length, 0, output, room, report);
    free(image.at);
    return answer;
}

/* Makes a row's call, and writes its report as the rows have it. */
static told call(const char *name, bytes table, bytes page, uint8_t *output, size_t room) {
    told it;
    if (!strncmp(name, "clean", 5)) {
        fig_cleaned r;
        memset(&r, 0xA5, sizeof r);
        if (!strcmp(name, "clean_by")) it.answer = fig_clean_by(table.at, table.length, page.at, page.length, output, room, &r);
        else if (!strcmp(name, "clean_document_by"))
            it.answer = fig_clean_document_by(table.at, table.length, page.at, page.length, output, room, &r);
        else it.answer = (strcmp(name, "clean") ? fig_clean_document : fig_clean)(page.at, page.length, output, room, &r);
        it.length = r.length;
        snprintf(it.numbers, sizeof it.numbers, "%llu,%llu,%llu,%llu,%llu", (unsigned long long)r.at, (unsigned long long)r.unwrapped,
                 (unsigned long long)r.dropped, (unsigned long long)r.attributes, (unsigned long long)r.comments);
        return it;
    }
    if (!strcmp(name, "decode")) {
        fig_decoded r;
        memset(&r, 0xA5, sizeof r);
        it.answer = fig_decode(table.at, table.length, page.at, page.length, output, room, &r);
        it.length = r.length;
        snprintf(it.numbers, sizeof it.numbers, "%s,%llu,%s,%u", r.errors ? "+" : "0", (unsigned long long)r.at,
                 fig_encoding_name(r.encoding), r.why);
        return it;
    }
    fig_report r;
    memset(&r, 0xA5, sizeof r);
    if (!strcmp(name, "normalise")) it.answer = fig_normalise(page.at, page.length, output, room, &r);
    else if (!strcmp(name, "errors")) it.answer = fig_errors(page.at, page.length, output, room, &r);
    else if (!strcmp(name, "policy")) it.answer = fig_policy(page.at, page.length, output, room, &r);
    else if (!strcmp(name, "tree")) it.answer = fig_tree(page.at, page.length, output, room, &r);
    else if (!strcmp(name, "placed_tree")) it.answer = fig_placed_tree(page.at, page.length, output, room, &r);
    else if (!strcmp(name, "fragment_tree"))
        it.answer = fig_fragment_tree(table.at, table.length, page.at, page.length, output, room, &r);
    else if (!strcmp(name, "select")) it.answer = selected(table, page, output, room, &r);
    else it.answer = (strcmp(name, "tree_with") ? fig_normalise_with : fig_tree_with)(
             table.at, table.length, page.at, page.length, output, room, &r);
    it.length = r.length;
    snprintf(it.numbers, sizeof it.numbers, "%s,%llu,%u,%u", r.errors ? "+" : "0", (unsigned long long)r.at, r.quirks, r.plain);
    return it;
}

/* One room: the answer, the report, and each byte of the room. */
static void in_room(int row, char **fields, bytes table, bytes page, bytes text, size_t room) {
    uint32_t want = (uint32_t)atoi(fields[3]);
    uint8_t *output = memory(room), *before = memory(room);
    told it = call(fields[0], table, page, output, room);
    size_t written = want == FIG_DONE && room >= text.length ? text.length : 0;
    check(it.answer == (want == FIG_DONE && room < text.length ? FIG_TOO_SHORT : want), "the answer", row);
    check(it.length == text.length, "the length", row);
    check(!strcmp(it.numbers, fields[4]), it.numbers, row);
    check(!written || !memcmp(output, text.at, written), "the text", row);
    check(room == written || !memcmp(output + written, before + written, room - written), "the room behind the text", row);
    free(output);
    free(before);
}

static void rows(const char *path) {
    static char line[1 << 16];
    FILE *file = opened(path);
    char *fields[6];
    for (int row = 0; next_row(file, line, sizeof line, fields, 6, &row);) {
        bytes table = unescaped(fields[1]), page = unescaped(fields[2]), text = unescaped(fields[5]);
        in_room(row, fields, table, page, text, text.length + 100);
        in_room(row, fields, table, page, text, text.length);
        if (text.length) in_room(row, fields, table, page, text, text.length - 1);
        in_room(row, fields, table, page, text, 0);
        free(table.at);
        free(page.at);
        free(text.at);
    }
    fclose(file);
}

static int is_text(fig_text text, const char *word) { return text.length == strlen(word) && !memcmp(text.at, word, text.length); }

/* One call on a node of an image, in the room that it asks for and in one byte less: the answer, and the text. */
static void on_node(const uint8_t *image, size_t length, uint32_t node, int text, uint32_t answer, const char *want) {
    uint32_t (*const call)(const uint8_t *, size_t, uint32_t, uint8_t *, size_t, fig_report *) = text ? fig_text_content : fig_serialize;
    size_t size = strlen(want);
    uint8_t *output = memory(size);
    fig_report report;
    check(call(image, length, node, output, size, &report) == answer && report.length == size, want, (int)node);
    check(!size || !memcmp(output, want, size), want, (int)node);
    if (size) check(call(image, length, node, output, size - 1, &report) == FIG_TOO_SHORT && report.length == size, "no room", (int)node);
    free(output);
}

/* Nodes of an image, as HTML and as text; and bytes that are no image. */
static void nodes(uint8_t *image, size_t length) {
    on_node(image, length, 0, 0, FIG_DONE,
            "<!DOCTYPE html><html><head></head><body><p id=\"a\">b<svg xlink:href=\"c\"></svg></p>"
            "<template><i>d</i></template>e<!--f--></body></html>");
    on_node(image, length, 0, 1, FIG_DONE, "be");
    on_node(image, length, 5, 0, FIG_DONE, "<p id=\"a\">b<svg xlink:href=\"c\"></svg></p>");
    on_node(image, length, 5, 1, FIG_DONE, "b");
    on_node(image, length, 6, 1, FIG_DONE, "b");
    on_node(image, length, fig_nodes(image), 0, FIG_NO_SUCH_NODE, "");
    on_node(image, length, FIG_NO_NODE, 1, FIG_NO_SUCH_NODE, "");
    on_node(image, length - 1, 0, 0, FIG_NOT_AN_IMAGE, "");
    on_node(NULL, 0, 0, 1, FIG_NOT_AN_IMAGE, "");
    /* each word of the records in turn, as another node, another place or no node */
    for (size_t at = 0; at + 4 <= 32 + 48 * (size_t)fig_nodes(image); at += 4) {
        uint8_t kept[4];
        fig_report report;
        memcpy(kept, image + at, 4);
        for (int i = 0; i < 3; i++) {
            memset(image + at, i == 2 ? 0xFF : 0, 4);
            image[at] = (uint8_t)(i == 2 ? 0xFF : kept[0] + i + 1);
            uint32_t answer = fig_serialize(image, length, 0, NULL, 0, &report);
            check(answer == FIG_NOT_AN_IMAGE || answer == FIG_TOO_SHORT, "a changed word", (int)at);
            memcpy(image + at, kept, 4);
        }
    }
}

/* An image, read by the functions of the header. */
static void image(void) {
    static const char page[] = "<!DOCTYPE html><p id=a>b<svg xlink:href=c></svg></p><template><i>d</i></template>e<!--f-->";
    static const char *const names[] = {"html", "html", "head", "body", "p", "b", "svg", "template", "i", "d", "e", "f"};
    fig_report report;
    uint8_t *tree, *moved;
    fig_tree((const uint8_t *)page, sizeof page - 1, NULL, 0, &report);
    tree = memory(report.length);
    check(fig_tree((const uint8_t *)page, sizeof page - 1, tree, report.length, &report) == FIG_DONE, "an image", 0);
    moved = memory(report.length);
    memcpy(moved, tree, report.length);
    free(tree);
    uint32_t node = 0, seen = 0, contents = 0;
    while ((node = fig_following(moved, 0, node)) != FIG_NO_NODE) {
        if (fig_kind_of(moved, node) == FIG_CONTENTS) {
            contents++;
            continue;
        }
        check(seen < 12 && is_text(fig_text_of(moved, node), names[seen]), "a node in tree order", (int)seen);
        if (fig_attributes(moved, node)) {
            fig_attribute it = fig_attribute_of(moved, node, 0);
            int is_svg = fig_namespace_of(moved, node) == FIG_SVG;
            check(is_text(it.name, is_svg ? "xlink:href" : "id") && is_text(it.value, is_svg ? "c" : "a"), "an attribute", (int)seen);
            check(it.namespace_ == (is_svg ? FIG_XLINK : FIG_NO_NAMESPACE), "an attribute's namespace", (int)seen);
        }
        seen++;
    }
    check(seen == 12 && !contents, "all nodes", 0);
    node = fig_first_child(moved, fig_last_child(moved, fig_last_child(moved, 0)));
    check(is_text(fig_text_of(moved, node), "p") && fig_previous(moved, fig_next(moved, node)) == node, "siblings", 0);
    check(fig_parent(moved, fig_parent(moved, fig_parent(moved, node))) == 0 && fig_parent(moved, 0) == FIG_NO_NODE, "parents", 0);
    check(fig_nodes(moved) == 14, "the number of nodes", 0);
    nodes(moved, report.length);
    free(moved);
}

/* A page of many bytes, elements that are deeply nested, and its text in each direction of the border. */
static void large(void) {
    size_t count = 100000, length = 0;
    uint8_t *page = memory(count * 8);
    for (size_t i = 0; i < count; i++) {
        memcpy(page + length, i % 2 ? "a<div>" : "<i x=1>", i % 2 ? 6 : 7);
        length += i % 2 ? 6 : 7;
    }
    page = realloc(page, length);
    fig_report first, second;
    check(fig_normalise(page, length, NULL, 0, &first) == FIG_TOO_SHORT && first.length > length, "the length of a large page", 0);
    uint8_t *output = memory(first.length), *again = memory(first.length + 100);
    check(fig_normalise(page, length, output, first.length, &first) == FIG_DONE, "a large page", 0);
    check(fig_normalise(output, first.length, again, first.length + 100, &second) == FIG_DONE, "its text", 0);
    free(page);
    free(output);
    free(again);
}

int main(int argc, char **argv) {
    if (argc != 2) return 2;
    ALL(fig_report, length), ALL(fig_report, errors), ALL(fig_report, at), ALL(fig_report, quirks), ALL(fig_report, plain);
    ALL(fig_cleaned, length), ALL(fig_cleaned, at), ALL(fig_cleaned, unwrapped), ALL(fig_cleaned, dropped);
    ALL(fig_cleaned, attributes), ALL(fig_cleaned, comments);
    ALL(fig_decoded, length), ALL(fig_decoded, errors), ALL(fig_decoded, at), ALL(fig_decoded, encoding), ALL(fig_decoded, why);
    printf("fig_report %zu\nfig_cleaned %zu\nfig_decoded %zu\n", sizeof(fig_report), sizeof(fig_cleaned), sizeof(fig_decoded));
    rows(argv[1]);
    image();
    large();
    printf("C: %d passed, %d failed\n", passed, failed);
    return failed != 0;
}
