/* plain_memory.c: memcpy, memmove and memset under other names, for the library under the thread sanitizer.
 *
 * The sanitizer sees memcpy and its like wherever they are called, and the library's own atomics nowhere. So it would report
 * what the library copies under a lock that it does not see. With these names it sees neither. */
#include <stddef.h>

void *plain_memcpy(void *to, const void *from, size_t count) {
    for (size_t i = 0; i < count; i++) ((volatile char *)to)[i] = ((const char *)from)[i];
    return to;
}

void *plain_memmove(void *to, const void *from, size_t count) {
    if (to <= from) return plain_memcpy(to, from, count);
    while (count-- > 0) ((volatile char *)to)[count] = ((const char *)from)[count];
    return to;
}

void *plain_memset(void *to, int byte, size_t count) {
    for (size_t i = 0; i < count; i++) ((volatile char *)to)[i] = (char)byte;
    return to;
}
