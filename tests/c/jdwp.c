/* jdwp.c: see jdwp.h. */
#include "jdwp.h"

#include <ctype.h>

void add_number(packet *to, uint64_t number, size_t size) {
    CHECK(to->length + size <= LONGEST_PACKET);
    for (size_t i = 0; i < size; i++) {
        to->bytes[to->length++] = (uint8_t)(number >> 8 * (size - 1 - i));
    }
}

/* Adds a text that ends with a space or with the data. Returns where it ends. */
static const char *add_text(packet *to, const char *text) {
    size_t length = strcspn(text, " ");
    add_number(to, length, 4);
    for (size_t i = 0; i < length; i++) {
        add_number(to, (uint8_t)text[i], 1);
    }
    return text + length;
}

static unsigned digit(char of) {
    CHECK(isxdigit((unsigned char)of));
    return (unsigned)(of <= '9' ? of - '0' : of - 'a' + 10);
}

void add_data(packet *to, const char *data) {
    while (*data) {
        if (*data == ' ') {
            data++;
        } else if (!strncmp(data, "s:", 2)) {
            data = add_text(to, data + 2);
        } else {
            add_number(to, digit(data[0]) * 16 + digit(data[1]), 1);
            data += 2;
        }
    }
}

/* Writes the length in front, once the data is there. */
static void end_packet(packet *made, const char *data) {
    size_t length;
    add_data(made, data);
    length = made->length;
    made->length = 0;
    add_number(made, length, 4);
    made->length = length;
}

void make_request(packet *made, uint32_t id, uint8_t set, uint8_t command, const char *data) {
    made->length = 4;
    add_number(made, id, 4);
    add_number(made, 0, 1);
    add_number(made, set, 1);
    add_number(made, command, 1);
    end_packet(made, data);
}

void make_reply(packet *made, uint32_t id, uint16_t error, const char *data) {
    made->length = 4;
    add_number(made, id, 4);
    add_number(made, 0x80, 1);
    add_number(made, error, 2);
    end_packet(made, data);
}

uint32_t number_at(const uint8_t *bytes, size_t size) {
    uint32_t number = 0;
    for (size_t i = 0; i < size; i++) {
        number = number << 8 | bytes[i];
    }
    return number;
}

static void show(const char *what, const uint8_t *bytes, size_t count) {
    fprintf(stderr, "%s:", what);
    for (size_t i = 0; i < count && i < 200; i++) {
        fprintf(stderr, "%s%02x", i % 4 == 0 ? " " : "", bytes[i]);
    }
    fprintf(stderr, "\n");
}

void check_bytes(const uint8_t *found, size_t count, const packet *wanted) {
    if (count != wanted->length || memcmp(found, wanted->bytes, count) != 0) {
        show("found", found, count);
        show("wanted", wanted->bytes, wanted->length);
        CHECK(!"the bytes are those that are wanted");
    }
}
