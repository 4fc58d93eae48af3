/* signature.c: see signature.h. */
#include "signature.h"

#include <stdbool.h>
#include <stdlib.h>
#include <string.h>

static bool is_digit(char c) {
    return c >= '0' && c <= '9';
}

static bool is_letter(char c) {
    return (c >= 'a' && c <= 'z') || (c >= 'A' && c <= 'Z') || c == '_' || c == '$';
}

/* Writes an identifier: at most two bytes for each of `text`, or one for none. Returns its end. */
static char *put_identifier(char *at, const char *text, size_t length) {
    if (length == 0 || is_digit(*text))
        *at++ = '_';
    for (size_t i = 0; i < length; i++)
        *at++ = is_letter(text[i]) || is_digit(text[i]) ? text[i] : '_';
    return at;
}

/* Room for the signature of a text, which begins with `start`. */
static char *begin(const char *start, const char *text) {
    char *made = malloc(strlen(start) + 2 * strlen(text) + sizeof "_;");
    return made ? strcpy(made, start) : NULL;
}

static void end(char *at) {
    strcpy(at, ";");
}

/* Where the last part of a path ends: before ".lua", if that is its ending. */
static const char *end_of(const char *path) {
    size_t length = strlen(path);
    return path + (length >= 4 && !strcmp(path + length - 4, ".lua") ? length - 4 : length);
}

static char *put_path(char *at, const char *path) {
    const char *stop = end_of(path), *slash;
    while ((slash = memchr(path, '/', (size_t)(stop - path)))) {
        if (slash > path) {
            at = put_identifier(at, path, (size_t)(slash - path));
            *at++ = '/';
        }
        path = slash + 1;
    }
    return put_identifier(at, path, (size_t)(stop - path));
}

char *signature_of_source(const char *source) {
    char *made = begin("L", source);
    if (!made)
        return NULL;
    source += strncmp(source, "./", 2) ? 0 : 2;
    end(*source == '[' ? put_identifier(made + 1, source, strlen(source)) : put_path(made + 1, source));
    return made;
}

char *signature_of_native(const char *name) {
    char *made = begin("LC/", name);
    if (made)
        end(put_identifier(made + strlen(made), name, strlen(name)));
    return made;
}
