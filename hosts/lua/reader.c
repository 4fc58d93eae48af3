/* reader.c: see reader.h. */
#include "reader.h"

#include <limits.h>
#include <string.h>

const unsigned char *take(struct reader *r, size_t count) {
    const unsigned char *at = r->at;
    r->bad = r->bad || count > (size_t)(r->end - at);
    r->at = r->bad ? r->end : at + count;
    return at;
}

unsigned take_byte(struct reader *r) {
    const unsigned char *byte = take(r, 1);
    return r->bad ? 0 : *byte;
}

size_t take_size(struct reader *r) {
    size_t size = 0;
    unsigned byte = 0;
    while (!r->bad && !(byte & 0x80)) {
        byte = take_byte(r);
        r->bad = r->bad || size > SIZE_MAX >> 7;
        size = size << 7 | (byte & 0x7f);
    }
    return r->bad ? 0 : size;
}

int take_line(struct reader *r) {
    size_t line = take_size(r);
    r->bad = r->bad || line > INT_MAX;
    return r->bad ? 0 : (int)line;
}

void skip(struct reader *r, size_t count, size_t size) {
    r->bad = r->bad || count > SIZE_MAX / size;
    take(r, r->bad ? 0 : count * size);
}

struct part take_text(struct reader *r) {
    size_t size = take_size(r);
    const unsigned char *at = take(r, size ? size - 1 : 0);
    return size && !r->bad ? (struct part){ (const char *)at, size - 1 } : (struct part){ NULL, 0 };
}

void expect(struct reader *r, const void *bytes, size_t count) {
    const unsigned char *at = take(r, count);
    r->bad = r->bad || memcmp(at, bytes, count);
}
