/* ending.c: see ending.h. */
#include "ending.h"

#include <errno.h>
#include <signal.h>
#include <stdio.h>
#include <stdlib.h>
#include <sys/eventfd.h>
#include <unistd.h>

static const int SIGNALS[] = { SIGINT, SIGTERM, SIGHUP };

static int wake;            /* host->ended */
static sem_t done;
static atomic_bool watched; /* the tool has still to write */
static atomic_bool asked;
static atomic_int came;     /* the first signal, or 0 */

static void ask(void) {
    uint64_t one = 1;
    atomic_store(&asked, true);
    if (write(wake, &one, sizeof one) < 0)
        return;  /* it can be read already */
}

/* The second signal of a kind ends the process at once. */
static void on_signal(int signal) {
    int error = errno, none = 0;
    atomic_compare_exchange_strong(&came, &none, signal);
    ask();
    errno = error;
}

/* Runs in `exit`, on the thread of a script. */
static void on_exit_of_script(void) {
    if (!atomic_load(&watched))
        return;
    ask();
    while (sem_wait(&done))
        continue;
}

static int set_handler(int signal, void (*from)(int), void (*to)(int)) {
    struct sigaction old, action = { .sa_handler = to, .sa_flags = SA_RESTART | SA_RESETHAND };
    if (sigaction(signal, NULL, &old))
        return -1;
    return old.sa_handler == from ? sigaction(signal, &action, NULL) : 0;
}

static int set_handlers(void (*from)(int), void (*to)(int)) {
    int bad = 0;
    for (size_t i = 0; i < sizeof SIGNALS / sizeof *SIGNALS; i++)
        bad = set_handler(SIGNALS[i], from, to) || bad;
    return bad;
}

int ending_watch(struct host *host) {
    wake = host->ended;
    if (sem_init(&done, 0, 0) || atexit(on_exit_of_script) || set_handlers(SIG_DFL, on_signal)) {
        perror("cqlua");
        return -1;
    }
    atomic_store(&watched, true);
    return 0;
}

bool ending_asked(void) {
    return atomic_load(&asked);
}

/* What the scripts have printed goes out, unless one of them is just printing. */
static void flush_output(void) {
    if (ftrylockfile(stdout))
        return;
    fflush(stdout);
    funlockfile(stdout);
}

void ending_done(void) {
    set_handlers(on_signal, SIG_DFL);
    atomic_store(&watched, false);
    sem_post(&done);
    int signal = atomic_load(&came);
    if (!signal)
        return;
    flush_output();
    raise(signal);
}
