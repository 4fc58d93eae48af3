/* cebdyraq_heap.h: how the library's own C gets memory. It is not installed. */
#ifndef CEBDYRAQ_HEAP_H
#define CEBDYRAQ_HEAP_H

#include <stdbool.h>
#include <stddef.h>

/* Whether there is memory, and where. It is never NULL, also if there is none. */
typedef struct { bool ok; void *at; } tried;

tried rattle_alloc(size_t size, size_t align);
tried rattle_realloc(void *block, size_t kept, size_t size, size_t align);
void rattle_dealloc(void *block);

#endif
