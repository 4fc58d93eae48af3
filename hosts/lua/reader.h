/* reader.h: bytes, numbers and texts of what lua_dump writes. What does not fit gives zeros from then on. */
#ifndef READER_H
#define READER_H

#include <stdbool.h>

#include "protos.h"

struct reader {
    const unsigned char *at, *end;
    bool bad;  /* something did not fit. Nothing is left then */
};

const unsigned char *take(struct reader *r, size_t count);
unsigned take_byte(struct reader *r);

/* Seven bits in each byte, the highest ones first. The last byte has the eighth bit. */
size_t take_size(struct reader *r);

int take_line(struct reader *r);

/* Its `at` is NULL if there is none. */
struct part take_text(struct reader *r);

/* Passes over so many items of this size. */
void skip(struct reader *r, size_t count, size_t size);

/* Takes these bytes and no others. */
void expect(struct reader *r, const void *bytes, size_t count);

#endif
