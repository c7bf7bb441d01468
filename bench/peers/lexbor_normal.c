/* Reads a page from standard input in pieces of 4,096 bytes, with scripting on, and writes it as lexbor does, 64 KB at a time. */
#include <lexbor/html/html.h>
#include <lexbor/html/serialize.h>
#include <string.h>
#include <unistd.h>

static char held[65536];
static size_t length;

static lxb_status_t put(const lxb_char_t *data, size_t size, void *context) {
    (void) context;
    if (length + size > sizeof held) {
        if (write(1, held, length) < 0) return LXB_STATUS_ERROR;
        length = 0;
    }
    if (size > sizeof held) return write(1, data, size) < 0 ? LXB_STATUS_ERROR : LXB_STATUS_OK;
    memcpy(held + length, data, size);
    length += size;
    return LXB_STATUS_OK;
}

int main(void) {
    static lxb_char_t piece[4096];
    lxb_html_document_t *document = lxb_html_document_create();
    lxb_dom_document_scripting_set(lxb_dom_interface_document(document), true);
    if (lxb_html_document_parse_chunk_begin(document) != LXB_STATUS_OK) return 1;
    for (ssize_t size; (size = read(0, piece, sizeof piece)) > 0;) {
        if (lxb_html_document_parse_chunk(document, piece, size) != LXB_STATUS_OK) return 1;
    }
    if (lxb_html_document_parse_chunk_end(document) != LXB_STATUS_OK) return 1;
    if (lxb_html_serialize_tree_cb(lxb_dom_interface_node(document), put, NULL) != LXB_STATUS_OK) return 1;
    return write(1, held, length) < 0;
}
