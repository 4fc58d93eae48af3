/* copy.h: two copies of the library, each used by functions with names of their own (copy.c). */
#ifndef COPY_H
#define COPY_H

int one_begin(unsigned method);
unsigned one_method(void);
int one_end(void);
long one_blocks(void);
long one_taken(void);

int two_begin(unsigned method);
unsigned two_method(void);
int two_end(void);
long two_blocks(void);
long two_taken(void);

#endif
