/* cebdyraq_futex.h: the futex call that takes times of 64 bits. It is not installed. */
#ifndef CEBDYRAQ_FUTEX_H
#define CEBDYRAQ_FUTEX_H

#include <linux/futex.h>
#include <stdint.h>
#include <sys/syscall.h>

/* On 32-bit systems it is one of its own, from Linux 5.1 on, whatever size the program's time_t has. */
#ifdef SYS_futex_time64
enum { FUTEX = SYS_futex_time64 };
#else
enum { FUTEX = SYS_futex };
_Static_assert(sizeof(void *) == 8, "a 32-bit system needs the headers of Linux 5.1 or later");
#endif
typedef struct { int64_t seconds, nanoseconds; } futex_time;

#endif
