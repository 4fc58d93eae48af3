/* counted_heap.h: cebdyraq_heap.c over a malloc that counts its blocks and refuses memory on demand. */
#ifndef COUNTED_HEAP_H
#define COUNTED_HEAP_H

/* After this many more blocks no more memory is had. A negative number is for no end. */
void heap_refuse_after(long blocks);

/* How many blocks the library has. */
long heap_blocks(void);

/* How many times memory was refused. */
long heap_refusals(void);

#endif
