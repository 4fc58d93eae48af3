/* protos.h: the functions of a chunk, read out of what lua_dump writes of it.
 *
 * What is read is the format of Lua 5.4. It is not public, so the head is compared byte by byte, and whatever does not
 * fit is refused. */
#ifndef PROTOS_H
#define PROTOS_H

#include <stddef.h>
#include <stdint.h>

/* A part of the dump. It does not end with a 0. */
struct part {
    const char *at;
    size_t length;
};

/* A local variable of a function, or an upvalue. The latter lives everywhere. */
struct variable {
    struct part name;
    size_t start, end;     /* the instructions at which it lives: from here to before there */
    uint32_t first, last;  /* the lowest and the highest line of these. There is none if `first` is the higher one */
};

/* A function of a chunk. */
struct proto {
    struct part name;  /* by what the code does with the function that it makes, or "function" */
    int line;          /* where it is defined: 0 for a main chunk */
    int last;          /* the line of its end */
    uint64_t code;     /* a hash of all that it is, with the functions within. It is not 0 */
    uint32_t *lines;   /* at which a hook may be called, in rising order. It is NULL if there are none */
    size_t line_count;
    struct variable *variables;  /* the local ones in the order in which they begin, and then the upvalues by their numbers */
    size_t variable_count, local_count;
    size_t next;       /* behind the functions within, which follow it */
};

struct protos {
    struct proto *at;  /* the chunk itself comes first */
    size_t count;
    size_t room;
};

/* Reads a dump that was not stripped. Names point into it. Returns 0, or -1 if it is none of Lua 5.4, if it was
 * stripped, or if there is no memory. `protos` is zeros at first, and then freed by protos_free in any case. */
int protos_read(const void *dump, size_t size, struct protos *protos);

void protos_free(struct protos *protos);

#endif
