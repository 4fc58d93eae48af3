/* values.h: values of Lua as texts. No code of the script runs for them, and no memory of its state is taken. */
#ifndef VALUES_H
#define VALUES_H

#include <lua.h>

#include "cebdyraq_serve.h"

enum {
    VALUES_PUSHED = 4,     /* at most so many values are pushed at once. The caller has made room for them */
    VALUES_ENTRIES = 3000  /* entries of tables that one answer has room for, beside the values */
};

/* An answer, and how many entries of tables it may still have. */
struct telling {
    cq_teller *teller;
    int entries;
};

/* Tells the value on the top as that of a variable. A long text is cut, and so is a table with many entries. */
void value_tell(lua_State *L, uint32_t slot, struct telling *to);

#endif
