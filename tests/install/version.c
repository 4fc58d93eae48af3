/* version.c: writes the version of the library, and whether it fits the header. */
#include <cebdyraq.h>

#include <stdio.h>

int main(void) {
    printf("%u %s\n", cq_version(), cq_version_fits() ? "fits" : "does not fit");
    return 0;
}
