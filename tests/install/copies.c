/* copies.c: two copies of the library in one process. Each has a service, threads and a heap of its own. */
#include "copy.h"

#include <stdio.h>

static int failures;

static void expect(int holds, const char *what) {
    if (!holds) {
        failures++;
        fprintf(stderr, "not so: %s\n", what);
    }
}

int main(void) {
    expect(one_begin(11) == 0, "the first begins");
    expect(one_taken() > 0 && two_taken() == 0, "the first takes memory of its own heap");
    long taken = one_taken();
    expect(two_begin(22) == 0, "the second begins");
    expect(one_taken() == taken && two_taken() > 0, "the second takes memory of its own heap");
    expect(one_method() == 11 && two_method() == 22, "each sees its own thread");
    expect(one_end() == 0 && one_blocks() == 0, "the first gives all memory back");
    expect(two_method() == 22, "the second goes on");
    expect(two_end() == 0 && two_blocks() == 0, "the second gives all memory back");
    return failures;
}
