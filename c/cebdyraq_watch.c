/* cebdyraq_watch.c: see cebdyraq_watch.h.
 *
 * The proved half keeps a list of wanted threads for each watch. A call that enters a thread into a list then adds one to the news, before
 * it returns. All watches of the process have one count of news. Each call that may have entered a thread looks whether somebody watches
 * (cebdyraq_calls.c), and wakes them. All steps are sequentially consistent, and so are those of the proved half.
 *
 * Why no wake-up is lost. A caller that is about to sleep reads the news, and then tries. If it finds no thread, it counts itself, and the
 * futex puts it to sleep only while the news are what it read. A thread that the try did not find brings its news later. If that is before
 * the futex compares them, the caller does not sleep. If it is after, the call that brings them finds the sleeper counted, and wakes it.
 *
 * One wake is enough for each number of the news. The first call that wakes for a number sets `last_told` to it. Another call that brings
 * news, and finds `last_told` at the present number, leaves the wake to that one, which has read these news and wakes after that. A
 * sleeper that they have to wake has slept since before they came, so the wake finds it.
 *
 * A file descriptor is emptied, then armed, and then comes one more try. A thread that this try does not find brings its news once the
 * descriptor is armed, and then somebody writes to it. Nobody empties it before the next try.
 *
 * A call that wakes others counts itself in `wakers`, and then reads where the news are. When the last watch is closed, that place is
 * taken away first. Once no such call is left, the count's memory is freed.
 *
 * The locks are taken in this order: that of a watch or that of opening, then that of the list of watches. Nobody sleeps with one. */
#define _GNU_SOURCE
#include "cebdyraq_proved.h"
#include "cebdyraq_futex.h"
#include "cebdyraq_watchers.h"

#include <errno.h>
#include <pthread.h>
#include <sched.h>
#include <string.h>
#include <sys/eventfd.h>
#include <time.h>
#include <unistd.h>

#define LOAD(at) __atomic_load_n(at, __ATOMIC_SEQ_CST)
#define STORE(at, value) __atomic_store_n(at, value, __ATOMIC_SEQ_CST)
#define ADD(at, value) __atomic_add_fetch(at, value, __ATOMIC_SEQ_CST)
#define SUB(at, value) __atomic_sub_fetch(at, value, __ATOMIC_SEQ_CST)

enum { FOREVER = -1 };

/* What lies in a cq_watch. */
typedef struct __attribute__((may_alias)) watch {
    uint32_t kind;         /* these two are the proved half's */
    void *at;
    pthread_mutex_t lock;  /* of what follows, and of the list of wanted threads */
    uint32_t waiting;      /* callers in cq_wait_next_wanted */
    int32_t fd;
    bool has_fd;
    bool is_armed;         /* the descriptor is written to at the next news. Under the lock of the list, as is what follows */
    struct watch *next;    /* the next one that is open */
} watch;
_Static_assert(sizeof(watch) <= sizeof(cq_watch), "it fits");

static pthread_once_t once = PTHREAD_ONCE_INIT;
static pthread_mutex_t of_opening = PTHREAD_MUTEX_INITIALIZER;
static cq_watch root;       /* it watches nothing, and keeps the count that all others have. Under the lock of opening */
static pthread_mutex_t of_list = PTHREAD_MUTEX_INITIALIZER;
static watch *first_watch;
static uint32_t armed;      /* how many of them are armed; it is changed with the lock of the list */
static uint32_t asleep;     /* how many callers sleep, or are about to */
static uint64_t *news;      /* the count, or NULL while no watch is open */
static uint64_t last_told;  /* the news for which somebody wakes those who sleep */
static uint32_t wakers;     /* callers that wake others */

/* ------------------------------------------------------------------------------------------------------------------
 * Waking.
 */

/* The half of the news that a futex compares. It changes whenever they do, and is the same again after 2^32 of them. */
static uint32_t *low_half(uint64_t *count) {
    return (uint32_t *)count + (__BYTE_ORDER__ == __ORDER_BIG_ENDIAN__);
}

/* These two are no points at which a thread is cancelled, since it holds a lock. */
static void write_to(int32_t fd) {
    uint64_t one = 1;
    syscall(SYS_write, fd, &one, sizeof one);
}

static void empty(int32_t fd) {
    uint64_t written;
    syscall(SYS_read, fd, &written, sizeof written);
}

/* With the lock of the list. */
static void set_armed(watch *w, bool is_armed) {
    uint32_t more = (uint32_t)is_armed - (uint32_t)w->is_armed;
    w->is_armed = is_armed;
    ADD(&armed, more);
    ADD(&cebdyraq_watchers.count, more);
}

static void write_to_armed(void) {
    pthread_mutex_lock(&of_list);
    for (watch *w = first_watch; w; w = w->next) {
        if (w->is_armed) {
            set_armed(w, false);
            write_to(w->fd);
        }
    }
    pthread_mutex_unlock(&of_list);
}

/* Whether nobody wakes others for these news yet. Then the caller does. */
static bool are_untold(const uint64_t *count) {
    for (;;) {
        uint64_t told = LOAD(&last_told), now = LOAD(count);
        if (told == now) {
            return false;
        }
        if (__atomic_compare_exchange_n(&last_told, &told, now, false, __ATOMIC_SEQ_CST, __ATOMIC_SEQ_CST)) {
            return true;
        }
    }
}

static void wake_watchers(void) {
    int kept = errno;
    ADD(&wakers, 1);
    uint64_t *count = LOAD(&news);
    if (count && are_untold(count)) {
        if (LOAD(&asleep) != 0) syscall(FUTEX, low_half(count), FUTEX_WAKE_PRIVATE, INT32_MAX, NULL, NULL, 0);
        if (LOAD(&armed) != 0) write_to_armed();
    }
    SUB(&wakers, 1);
    errno = kept;
}

/* ------------------------------------------------------------------------------------------------------------------
 * Forks.
 */

static void before_fork(void) {
    pthread_mutex_lock(&of_opening);
    pthread_mutex_lock(&of_list);
}

static void in_parent(void) {
    pthread_mutex_unlock(&of_list);
    pthread_mutex_unlock(&of_opening);
}

/* All watches are the parent's. They are forgotten, with the memory that the proved half has for them, since a thread that is gone may
 * have been amid a change of it. */
static void in_child(void) {
    for (watch *w = first_watch, *next; w; w = next) {
        next = w->next;
        if (w->has_fd) close(w->fd);
        memset(w, 0, sizeof *w);
    }
    first_watch = NULL;
    root = (cq_watch){ 0 };
    news = NULL;
    armed = asleep = wakers = cebdyraq_watchers.count = 0;
    in_parent();
}

static void begin_once(void) {
    cebdyraq_watchers.wake = wake_watchers;
    pthread_atfork(before_fork, in_parent, in_child);
}

/* ------------------------------------------------------------------------------------------------------------------
 * Opening and closing.
 */

/* With the lock of opening, as long as no watch is open. It begins the count. */
static uint32_t open_root(void) {
    cq_watch none = { 0 };
    uint64_t *count = NULL;
    uint32_t code = cebdyraq_open_watch(&none, &root);
    if (code == CQ_OK) {
        code = cebdyraq_news_of(&root, &count);
        STORE(&last_told, *count);
        STORE(&news, count);
    }
    return code;
}

/* With the lock of opening, once no watch is open. */
static void close_root(void) {
    STORE(&news, NULL);
    while (LOAD(&wakers) != 0) {
        sched_yield();
    }
    cebdyraq_close_watch(&root);
}

static void add_watch(watch *w) {
    pthread_mutex_lock(&of_list);
    w->next = first_watch;
    first_watch = w;
    pthread_mutex_unlock(&of_list);
}

/* Nobody writes to its descriptor any more. */
static void remove_watch(watch *w) {
    pthread_mutex_lock(&of_list);
    watch **at = &first_watch;
    while (*at != w) {
        at = &(*at)->next;
    }
    *at = w->next;
    set_armed(w, false);
    pthread_mutex_unlock(&of_list);
}

/* With the lock of opening. */
static uint32_t open_now(cq_watch *at) {
    watch *w = (watch *)at;
    uint32_t code = first_watch ? CQ_OK : open_root();
    if (code != CQ_OK) {
        return code;
    }
    code = cebdyraq_open_watch(&root, at);
    if (code == CQ_OK) {
        pthread_mutex_init(&w->lock, NULL);
        add_watch(w);
    } else if (!first_watch) {
        close_root();
    }
    return code;
}

uint32_t cq_open_watch(cq_watch *at) {
    if (at->kind != 0) {
        return CQ_MISUSED;
    }
    pthread_once(&once, begin_once);
    pthread_mutex_lock(&of_opening);
    uint32_t code = open_now(at);
    pthread_mutex_unlock(&of_opening);
    return code;
}

/* The watch, or NULL if it is not open. Its kind stays as long as it is, so nobody needs the lock for this. */
static watch *opened(cq_watch *at) {
    return at->kind != 0 ? (watch *)at : NULL;
}

static bool is_waited_in(watch *w) {
    pthread_mutex_lock(&w->lock);
    bool waits = w->waiting != 0;
    pthread_mutex_unlock(&w->lock);
    return waits;
}

uint32_t cq_close_watch(cq_watch *at) {
    watch *w = opened(at);
    if (!w || is_waited_in(w)) {
        return CQ_MISUSED;
    }
    pthread_mutex_lock(&of_opening);
    remove_watch(w);
    if (w->has_fd) close(w->fd);
    pthread_mutex_destroy(&w->lock);
    cebdyraq_close_watch(at);
    memset(w, 0, sizeof *w);
    if (!first_watch) close_root();
    pthread_mutex_unlock(&of_opening);
    return CQ_OK;
}

/* ------------------------------------------------------------------------------------------------------------------
 * Threads.
 */

uint32_t cq_watch_thread(cq_thread *thread, cq_watch *at) {
    watch *w = opened(at);
    if (!w) {
        return CQ_MISUSED;
    }
    pthread_mutex_lock(&w->lock);
    uint32_t code = cebdyraq_watch_thread(thread, at);
    pthread_mutex_unlock(&w->lock);
    tell_watchers();
    return code;
}

uint32_t cq_unwatch_thread(cq_thread *thread) {
    return cebdyraq_unwatch_thread(thread);
}

uint32_t cq_watch_stops(cq_service *service, cq_watch *at) {
    watch *w = opened(at);
    if (!w) {
        return CQ_MISUSED;
    }
    pthread_mutex_lock(&w->lock);
    uint32_t code = cebdyraq_watch_stops(service, at);
    pthread_mutex_unlock(&w->lock);
    return code;
}

/* One try, with the lock of the watch. */
static uint32_t take(cq_watch *at, uint32_t *threads, size_t room, uint64_t *count) {
    size_t taken = 0;
    while (taken < room && cebdyraq_next_wanted(at, &threads[taken]) == CQ_OK) {
        taken++;
    }
    if (taken == 0) {
        return CQ_NONE;
    }
    *count = taken;
    return CQ_OK;
}

/* Empties the descriptor, and then has the next news written to it. */
static void arm(watch *w) {
    int kept = errno;
    empty(w->fd);
    errno = kept;
    pthread_mutex_lock(&of_list);
    set_armed(w, true);
    pthread_mutex_unlock(&of_list);
}

/* Why a try is refused, or CQ_OK. */
static uint32_t refusal(const watch *w, size_t room) {
    return !w ? CQ_MISUSED : room == 0 ? CQ_ILLEGAL_ARGUMENT : CQ_OK;
}

uint32_t cq_next_wanted(cq_watch *at, uint32_t *threads, size_t room, uint64_t *count) {
    watch *w = opened(at);
    uint32_t code = refusal(w, room);
    if (code != CQ_OK) {
        return code;
    }
    pthread_mutex_lock(&w->lock);
    code = take(at, threads, room, count);
    if (code == CQ_NONE && w->has_fd) {
        arm(w);
        code = take(at, threads, room, count);
    }
    pthread_mutex_unlock(&w->lock);
    return code;
}

static int64_t now_ns(void) {
    struct timespec now;
    clock_gettime(CLOCK_MONOTONIC, &now);
    return (int64_t)now.tv_sec * 1000000000 + now.tv_nsec;
}

/* Sleeps while the news are those that it saw, until this time at the latest. A negative time is for ever. */
static void sleep_until(uint64_t *count, uint64_t seen, int64_t end) {
    futex_time until = { end / 1000000000, end % 1000000000 };
    int kept = errno;
    ADD(&asleep, 1);
    ADD(&cebdyraq_watchers.count, 1);
    syscall(FUTEX, low_half(count), FUTEX_WAIT_BITSET_PRIVATE, (uint32_t)seen, end < 0 ? NULL : &until, NULL, FUTEX_BITSET_MATCH_ANY);
    SUB(&cebdyraq_watchers.count, 1);
    SUB(&asleep, 1);
    errno = kept;
}

/* When a wait ends that begins now. */
static int64_t end_of(int64_t timeout_ns) {
    int64_t now = now_ns();
    return timeout_ns < 0 || timeout_ns > INT64_MAX - now ? FOREVER : now + timeout_ns;
}

/* With the lock of the watch, which it gives up while it sleeps. */
static uint32_t wait_for_wanted(cq_watch *at, int64_t timeout_ns, uint32_t *threads, size_t room, uint64_t *count) {
    watch *w = (watch *)at;
    uint64_t *of_all = LOAD(&news);
    int64_t end = FOREVER;
    for (bool has_tried = false;; has_tried = true) {
        uint64_t seen = LOAD(of_all);
        uint32_t code = take(at, threads, room, count);
        if (code != CQ_NONE) {
            return code;
        }
        if (!has_tried) {
            end = end_of(timeout_ns);
        }
        if (timeout_ns == 0 || (end >= 0 && now_ns() >= end)) {
            return CQ_TIMED_OUT;
        }
        pthread_mutex_unlock(&w->lock);
        sleep_until(of_all, seen, end);
        pthread_mutex_lock(&w->lock);
    }
}

uint32_t cq_wait_next_wanted(cq_watch *at, int64_t timeout_ns, uint32_t *threads, size_t room, uint64_t *count) {
    watch *w = opened(at);
    uint32_t code = refusal(w, room);
    if (code != CQ_OK) {
        return code;
    }
    pthread_mutex_lock(&w->lock);
    w->waiting++;
    code = wait_for_wanted(at, timeout_ns, threads, room, count);
    w->waiting--;
    pthread_mutex_unlock(&w->lock);
    return code;
}

/* With the lock of the watch. The descriptor is readable at first. */
static uint32_t make_fd(watch *w) {
    int fd = w->has_fd ? w->fd : eventfd(1, EFD_NONBLOCK | EFD_CLOEXEC);
    if (fd < 0) {
        return CQ_SYSTEM;
    }
    w->fd = fd;
    w->has_fd = true;
    return CQ_OK;
}

uint32_t cq_watch_fd(cq_watch *at, int32_t *fd) {
    watch *w = opened(at);
    if (!w) {
        return CQ_MISUSED;
    }
    pthread_mutex_lock(&w->lock);
    uint32_t code = make_fd(w);
    if (code == CQ_OK) *fd = w->fd;
    pthread_mutex_unlock(&w->lock);
    return code;
}
