/* What lexbor's selectors find in a page, and how long that takes: lexbor_select PAGE SELECTOR..

   Standard error gets a line for each selector, as from `bench_pages select`: how many elements were found, and the seconds. */
#include <lexbor/css/css.h>
#include <lexbor/html/html.h>
#include <lexbor/selectors/selectors.h>
#include <stdio.h>
#include <stdlib.h>
#include <string.h>
#include <time.h>

static lxb_status_t count(lxb_dom_node_t *node, lxb_css_selector_specificity_t specificity, void *found) {
    (void)node, (void)specificity;
    ++*(size_t *)found;
    return LXB_STATUS_OK;
}

static double now(void) {
    struct timespec time;
    clock_gettime(CLOCK_MONOTONIC, &time);
    return time.tv_sec + time.tv_nsec / 1e9;
}

int main(int argc, char **argv) {
    FILE *file = argc > 1 ? fopen(argv[1], "rb") : NULL;
    if (!file || fseek(file, 0, SEEK_END)) return 2;
    size_t length = ftell(file);
    unsigned char *page = malloc(length + 1);
    rewind(file);
    if (!page || fread(page, 1, length, file) != length) return 2;
    lxb_html_document_t *document = lxb_html_document_create();
    if (!document || lxb_html_document_parse(document, page, length) != LXB_STATUS_OK) return 2;
    lxb_selectors_t *selectors = lxb_selectors_create();
    if (lxb_selectors_init(selectors) != LXB_STATUS_OK) return 2;
    lxb_selectors_opt_set(selectors, LXB_SELECTORS_OPT_MATCH_FIRST); /* each element once, whichever of a list selects it */
    for (int i = 2; i < argc; i++) {
        lxb_css_parser_t *parser = lxb_css_parser_create();
        if (lxb_css_parser_init(parser, NULL) != LXB_STATUS_OK) return 2;
        lxb_css_selector_list_t *list = lxb_css_selectors_parse(parser, (unsigned char *)argv[i], strlen(argv[i]));
        size_t found = 0;
        if (!list) {
            fprintf(stderr, "%s: refused\n", argv[i]);
            continue;
        }
        double start = now();
        if (lxb_selectors_find(selectors, lxb_dom_interface_node(document), list, count, &found) != LXB_STATUS_OK) return 2;
        double seconds = now() - start;
        fprintf(stderr, "%s: %zu found, %.9f s\n", argv[i], found, seconds);
        lxb_css_selector_list_destroy_memory(list);
        lxb_css_parser_destroy(parser, true);
    }
    return 0;
}
