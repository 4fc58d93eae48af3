/* text.c: what UTF-8 is, by RFC 3629, and which characters XML 1.0 allows. */
#include "text.h"

#include <stdint.h>
#include <stdio.h>
#include <string.h>

enum { LONGEST_STEP = 8 };  /* "\xE9" or a character, "..." and a 0 */

/* How many bytes a character has that begins with this one, or 0. */
static int length_by(unsigned char first) {
    return first < 0x80 ? 1 : first < 0xc2 ? 0 : first < 0xe0 ? 2 : first < 0xf0 ? 3 : first < 0xf5 ? 4 : 0;
}

static bool is_character(uint32_t character, int length) {
    static const uint32_t least[] = { 0, 0, 0x80, 0x800, 0x10000 };
    bool surrogate = character >= 0xd800 && character < 0xe000;
    return character >= least[length] && character < 0x110000 && !surrogate;
}

/* Reads the character here. Returns its length, or 0 if it is none. Behind the text is a 0. */
static int read_character(const unsigned char *text, uint32_t *character) {
    int length = length_by(*text);
    *character = length > 1 ? *text & (0x7f >> length) : *text;
    for (int i = 1; i < length; i++) {
        if ((text[i] & 0xc0) != 0x80)
            return 0;
        *character = *character << 6 | (text[i] & 0x3f);
    }
    return length && is_character(*character, length) ? length : 0;
}

/* The length of the character here, or 0 if it is none, or one that XML does not allow. */
static int length_of(const unsigned char *text) {
    uint32_t character;
    int length = read_character(text, &character);
    return character == 0xfffe || character == 0xffff ? 0 : length;
}

void text_clean(char *text) {
    for (int length; *text; text += length ? length : 1) {
        length = length_of((const unsigned char *)text);
        if (!length)
            *text = '?';
        else if (*text == ';' || (unsigned char)*text < ' ' || *text == 0x7f)
            *text = ':';
    }
}

/* Adds a character of so many bytes, or a byte that is none as \xE9. */
static void add_character(struct text *to, const char *from, int length) {
    if (length)
        memcpy(to->bytes + to->length, from, (size_t)length);
    else
        length = sprintf(to->bytes + to->length, "\\x%02X", (unsigned char)*from);
    to->length += (size_t)length;
}

static void cut(struct text *of) {
    memcpy(of->bytes + of->length, "...", 3);
    of->length += 3;
    of->is_cut = true;
}

void text_add(struct text *to, const char *from, size_t length) {
    const char *end = from + length;
    while (from < end && !to->is_cut) {
        uint32_t character;
        int size = read_character((const unsigned char *)from, &character);
        if (to->room - to->length < LONGEST_STEP)
            cut(to);
        else
            add_character(to, from, size);
        from += size ? size : 1;
    }
    to->bytes[to->length] = 0;
}
