/* Prints the address and the text of each link of a page on standard input. */
#include <figpliers.h>
#include <stdio.h>
#include <stdlib.h>
#include <string.h>

int main(void) {
    static uint8_t page[1 << 24];
    size_t length = fread(page, 1, sizeof page, stdin);
    fig_report report;
    if (fig_tree(page, length, NULL, 0, &report) != FIG_TOO_SHORT) return 1;
    uint8_t *image = malloc(report.length);
    if (!image || fig_tree(page, length, image, report.length, &report) != FIG_DONE) return 1;
    for (uint32_t node = 0; (node = fig_following(image, 0, node)) != FIG_NO_NODE;)
        for (uint32_t n = 0; n < fig_attributes(image, node); n++) {
            fig_attribute it = fig_attribute_of(image, node, n);
            if (it.name.length != 4 || memcmp(it.name.at, "href", 4)) continue;
            printf("%.*s ", (int)it.value.length, it.value.at);
            for (uint32_t below = node; (below = fig_following(image, node, below)) != FIG_NO_NODE;)
                if (fig_kind_of(image, below) == FIG_TEXT)
                    printf("%.*s", (int)fig_text_of(image, below).length, fig_text_of(image, below).at);
            putchar('\n');
        }
    free(image);
    return 0;
}
