/* methods.h: the numbers of methods. One table serves all states of the process, and all agents. Each method belongs to
 * a class of the service, so that every tool over the library has its name: a chunk is a class with all its functions.
 * A function that was met without its chunk is a class of its own. */
#ifndef METHODS_H
#define METHODS_H

#include <stdbool.h>
#include <stddef.h>
#include <stdint.h>

#include "cebdyraq.h"
#include "protos.h"

/* A method. Once made it stays as it is, and where it is, until the process ends. */
struct method {
    const char *source;  /* the file's name, or the short form of a text that was loaded, or "[C]" */
    int line;            /* where it is defined: 0 for a main chunk, -1 for a C function */
    int last;            /* the line of its end, if it belongs to a chunk */
    uint64_t code;       /* a hash of the function, if it belongs to a chunk, or 0 */
    const char *name;
    uint32_t number;
    const struct variable *variables;  /* as in a struct proto, if it belongs to a chunk */
    size_t variable_count, local_count;
};

enum {
    METHOD_UNKNOWN = 0,  /* there was no memory for the method */
    METHOD_LEFT_OUT = 1, /* stands for frames that a deep stack does not show */
    METHOD_LATE = 2,     /* the time was spent in no function of which it is known */
    METHOD_OWN = METHOD_LATE
};

/* Makes the table, with the methods above. Nobody else defines classes in the service, which may be NULL. Returns 0, or
 * -1 when there is no memory. */
int methods_make(cq_service *service);

/* Lets go of the service. No method is made from then on. */
void methods_end(void);

/* Defines the class of a chunk, with a method for each of its functions, unless the same functions of this source are
 * there. Writes the number of the first of them, which the others follow. False when there is no memory: each will be a class of its own. */
bool methods_define(const char *source, const struct protos *protos, uint32_t *first);

/* A function that was seen in a stack. */
struct function {
    const char *source;
    int line, last;
    const char *name;  /* by which it is called */
    uint64_t code;     /* as in a method, or 0 if it is not known */
};

/* Whether chunks have several methods of this source and these lines. Then `code` tells which of them it is. */
bool methods_are_many(const struct function *f);

/* The method of a function. One that no chunk has is made if it is new. NULL when there is no memory. */
const struct method *methods_find(const struct function *f);

/* The method of a number that methods_find gave. */
const struct method *methods_get(uint32_t number);

/* Writes "name (source:line)", or "[C] name" of a C function. It is UTF-8, without a semicolon and a control
 * character (text.h). */
void method_text(uint32_t number, char *text, size_t size);

#endif
