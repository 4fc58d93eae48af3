/* place.c: see host.h. The system call in which a thread is tells it. */
#include "host.h"

#include <fcntl.h>
#include <stdlib.h>
#include <sys/syscall.h>
#include <unistd.h>

#define NATIVE(call) {.is_native = true, .name = call}

static const struct {
    long number;
    struct place place;
} calls[] = {
    {SYS_clock_nanosleep, {.reason = CQ_SLEEP, .name = "sleep"}},
    {SYS_nanosleep, {.reason = CQ_SLEEP, .name = "sleep"}},
    {SYS_poll, NATIVE("poll")},
    {SYS_ppoll, NATIVE("poll")},
    {SYS_select, NATIVE("select")},
    {SYS_pselect6, NATIVE("select")},
    {SYS_epoll_wait, NATIVE("epoll")},
    {SYS_epoll_pwait, NATIVE("epoll")},
    {SYS_read, NATIVE("read")},
    {SYS_pread64, NATIVE("read")},
    {SYS_write, NATIVE("write")},
    {SYS_pwrite64, NATIVE("write")},
    {SYS_fsync, NATIVE("fsync")},
    {SYS_recvfrom, NATIVE("recv")},
    {SYS_recvmsg, NATIVE("recv")},
    {SYS_sendto, NATIVE("send")},
    {SYS_sendmsg, NATIVE("send")},
    {SYS_accept, NATIVE("accept")},
    {SYS_accept4, NATIVE("accept")},
    {SYS_connect, NATIVE("connect")},
    {SYS_wait4, NATIVE("wait")},
    {SYS_waitid, NATIVE("wait")},
    {SYS_openat, NATIVE("open")},
};

/* A futex of the GIL is a wait to run Python. Any other is a lock, with a time if the fourth argument leads to one. */
static struct place in_futex(char *arguments) {
    uintptr_t words[4] = {0}, gil = (uintptr_t)&_PyRuntime.ceval.gil;
    for (int i = 0; i < 4; i++) words[i] = strtoul(arguments, &arguments, 16);
    if (words[0] >= gil && words[0] < gil + sizeof _PyRuntime.ceval.gil)
        return (struct place){.reason = CQ_MONITOR_ENTER, .name = "gil"};
    return (struct place){.reason = words[3] ? CQ_TIMED_PARK : CQ_PARK, .name = "lock"};
}

/* Reads /proc/self/task/TID/syscall: "running", or the call's number and its arguments in hexadecimal. False if it cannot be read. */
static bool read_syscall(struct thread *t, char *line, size_t room) {
    if (t->syscall < 0) {
        snprintf(line, room, "/proc/self/task/%lu/syscall", t->state->native_thread_id);
        t->syscall = open(line, O_RDONLY | O_CLOEXEC);
    }
    ssize_t length = t->syscall < 0 ? -1 : pread(t->syscall, line, room - 1, 0);
    line[length > 0 ? length : 0] = 0;
    return length > 0;
}

struct place place_of(struct thread *t, PyThreadState *holder) {
    char line[256], *arguments;
    if (t->state == holder || !read_syscall(t, line, sizeof line)) return (struct place){.runs = true};
    if (line[0] == 'r') return (struct place)NATIVE("code");
    long number = strtol(line, &arguments, 10);
    if (number == SYS_futex) return in_futex(arguments);
    for (size_t i = 0; i < sizeof calls / sizeof *calls; i++)
        if (calls[i].number == number) return calls[i].place;
    return (struct place)NATIVE("syscall");
}
