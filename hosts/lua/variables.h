/* variables.h: variables of scripts, for a debugger. These are the functions of a cq_variables, whose context is the host.
 *
 * A variable's slot is its place in the method's list: local variables first, and then the upvalues. Locations are lines. */
#ifndef VARIABLES_H
#define VARIABLES_H

#include "cebdyraq_serve.h"

/* The variables of a method. Those of a function that no chunk of a file has, and of a C function, are not known. */
uint32_t variables_of_method(void *context, uint32_t method, cq_teller *teller);

/* The values of the frame at a depth of a script's stack. A script that runs, or is in native code, is refused. */
uint32_t variables_of_frame(void *context, uint32_t thread, uint32_t depth, cq_teller *teller);

#endif
