/* text.h: text that every reader takes. */
#ifndef TEXT_H
#define TEXT_H

#include <stdbool.h>
#include <stddef.h>

/* Puts a question mark in place of each byte that is not part of a character of UTF-8 which XML allows, and a colon in
 * place of each semicolon and each control character. */
void text_clean(char *text);

/* A text that is put together in `room` bytes. It ends with a 0, which its length does not count. */
struct text {
    char *bytes;
    size_t room, length;
    bool is_cut;
};

/* Adds bytes, behind which there is a 0. A byte that is not part of a character of UTF-8 is written as "\xE9", by its number. A text
 * that has no room is cut, and ends with "...". */
void text_add(struct text *to, const char *from, size_t length);

#endif
