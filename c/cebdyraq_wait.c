/* cebdyraq_wait.c: see cebdyraq_wait.h.
 *
 * Why no wake-up is lost. A caller that is about to sleep counts itself in `sleepers`, then reads `news`, and then tries once
 * more. It sleeps only while `news` is what it read. A caller that wakes others has done its call, and then reads `sleepers`.
 * If the sleeper is counted, `news` changes. If it is not yet, its last try comes after the call, and succeeds. All of these
 * steps are sequentially consistent, and so are those of the library.
 *
 * Which sleepers are woken. Threads that are barred sleep apart from agents. Each sleeps for the news of one thread, by one of 31 bits,
 * and an agent that waits for an event by one more. An agent that waits for several threads has the bits of all. So a hand-over
 * wakes agents that wait for its thread, and a resumption the thread. Threads whose numbers have one bit wake each other's,
 * which then sleep on.
 *
 * A try of a trace is many steps, up to the first that fails. The trace sleeps for that one alone. What lets it go on comes
 * after that step, and so after `news` was read. Then `news` has changed, and the trace does not sleep.
 *
 * Two that gather at once do not wait for each other in a ring. Both stop threads in the order of their numbers. So one that meets a
 * thread which the other has stopped has itself stopped none that the other still wants to stop. The other wakes it when it
 * has let all threads go, also if its time was over. */
#define _GNU_SOURCE
#include "cebdyraq_wait.h"
#include "cebdyraq_futex.h"
#include "cebdyraq_servers.h"

#include <errno.h>
#include <sched.h>
#include <stdlib.h>
#include <time.h>
#include <unistd.h>

enum { FOREVER = -1 };
/* How long to spin before sleeping, at most. Where it does not pay, one wait of so many spins for a little, to find out anew. */
enum { SPIN_NS = 20000, PROBE_NS = 2000, WAITS_A_PROBE = 16 };
static const int64_t NAP_NS = 50000;   /* the longest sleep after CQ_BUSY, since nobody wakes it */
static const int64_t LONG_NAP_NS = 100000000;  /* the same where CQ_BUSY may also mean that a call is out */
static const uint32_t COMINGS = (uint32_t)1 << 31;  /* the bit of callers that wait for an event */

/* A caller that waits: it tries a call until the call gives neither CQ_BUSY nor `not_yet`, or the time is over. */
typedef struct {
    cq_signal *signal;
    cq_sleepers *among;
    uint32_t bits;    /* of the threads whose news it waits for */
    int64_t timeout;
    uint32_t not_yet;
    uint32_t code;    /* what the last try gave */
    bool tried;
    bool counted;     /* among the sleepers */
    uint32_t seen;    /* the news before the last try, once it is counted */
    int64_t began;    /* when the first try had failed, or -1 */
    int64_t stuck;    /* since when it comes no further, or -1 */
    uint32_t stuck_by;  /* the code that it has got since then */
    int32_t spin;     /* how long it spins from then on, in nanoseconds */
    int64_t nap;      /* how long it sleeps after CQ_BUSY, at most */
    bool naps_longer; /* each nap takes twice as long as the one before, until it is woken */
} waiter;

/* The thread sanitizer does not see the atomics of the library. A program that has it is told by these what they order: what a
 * thread did before it handed over or reached a stop, and what an agent did before it let a thread go on, comes before what an agent
 * does after an answer; and the latter before what the thread does after its return. What threads did is noted at `agents`, for whom it
 * is, and what agents did at `threads`. Without the sanitizer they are NULL. */
extern void __tsan_acquire(void *at) __attribute__((weak));
extern void __tsan_release(void *at) __attribute__((weak));

static void thread_did(cq_signal *signal) {
    if (__tsan_release) __tsan_release(&signal->agents);
}

static void agent_did(cq_signal *signal) {
    if (__tsan_release) __tsan_release(&signal->threads);
}

static void thread_follows(cq_signal *signal) {
    if (__tsan_acquire) __tsan_acquire(&signal->threads);
}

static void agent_follows(cq_signal *signal) {
    if (!__tsan_acquire) return;
    __tsan_acquire(&signal->agents);
    __tsan_acquire(&signal->threads);
}

/* A caller that waits among the agents, for news of any thread. */
static waiter begin(cq_signal *signal, int64_t timeout_ns, uint32_t not_yet) {
    return (waiter){
        .signal = signal, .among = &signal->agents, .bits = FUTEX_BITSET_MATCH_ANY, .timeout = timeout_ns,
        .not_yet = not_yet, .code = CQ_BUSY, .began = -1, .stuck = -1, .nap = NAP_NS,
    };
}

static uint32_t bit_of(uint32_t thread) {
    return (uint32_t)1 << thread % 31;
}

static uint32_t bit_of_own(cq_thread *thread) {
    uint32_t number = 0;
    cq_thread_number(thread, &number);
    return bit_of(number);
}

/* A thread that hands over, or reaches what it may stop at. */
static waiter begin_hand_over(cq_signal *signal) {
    thread_did(signal);
    return begin(signal, FOREVER, CQ_BUSY);
}

/* A thread that waits until nothing bars it. */
static waiter begin_own(cq_thread *thread, cq_signal *signal, int64_t timeout_ns) {
    waiter w = begin(signal, timeout_ns, CQ_BARRED);
    w.among = &signal->threads;
    w.bits = bit_of_own(thread);
    return w;
}

static int64_t now_ns(void) {
    struct timespec now;
    clock_gettime(CLOCK_MONOTONIC, &now);
    return (int64_t)now.tv_sec * 1000000000 + now.tv_nsec;
}

/* How many processors the process may use. */
static long processors(void) {
    cpu_set_t set;
    return sched_getaffinity(0, sizeof set, &set) == 0 ? CPU_COUNT(&set) : sysconf(_SC_NPROCESSORS_ONLN);
}

/* On a single processor nobody else gets on while one spins. */
static bool may_spin(void) {
    static int32_t found = -1;
    int32_t spins = __atomic_load_n(&found, __ATOMIC_RELAXED);
    if (spins < 0) {
        spins = processors() > 1;
        __atomic_store_n(&found, spins, __ATOMIC_RELAXED);
    }
    return spins != 0;
}

/* How long it pays to spin, as waits have found it, and how many waits found that it does not. It pays if the one waited for runs: on a
 * machine that is busy with other work it mostly does not. CQ_BUSY ends soon, since nobody waits in a function of cebdyraq.h. */
typedef struct { int32_t pays_ns; uint32_t waits; } experience;

static experience of_busy = { SPIN_NS, 0 }, of_threads = { SPIN_NS, 0 }, of_agents = { SPIN_NS, 0 };

static experience *experience_of(const waiter *w) {
    if (w->stuck_by == CQ_BUSY) return &of_busy;
    return w->among == &w->signal->threads ? &of_threads : &of_agents;
}

static int32_t spin_of(const waiter *w) {
    if (!may_spin()) return 0;
    experience *learnt = experience_of(w);
    int32_t pays = __atomic_load_n(&learnt->pays_ns, __ATOMIC_RELAXED);
    if (pays >= PROBE_NS) return pays;
    return __atomic_fetch_add(&learnt->waits, 1, __ATOMIC_RELAXED) % WAITS_A_PROBE == 0 ? PROBE_NS : 0;
}

/* A spin that took so long was not in vain: what was waited for has come. It pays to spin for some times as long. */
static void learn_that_it_paid(const waiter *w, int64_t took) {
    experience *learnt = experience_of(w);
    int64_t pays = (__atomic_load_n(&learnt->pays_ns, __ATOMIC_RELAXED) + 4 * took + 2 * PROBE_NS) / 2;
    __atomic_store_n(&learnt->pays_ns, (int32_t)(pays < SPIN_NS ? pays : SPIN_NS), __ATOMIC_RELAXED);
}

static void learn_that_it_was_in_vain(const waiter *w) {
    experience *learnt = experience_of(w);
    int32_t pays = __atomic_load_n(&learnt->pays_ns, __ATOMIC_RELAXED);
    __atomic_store_n(&learnt->pays_ns, pays - pays / 4, __ATOMIC_RELAXED);
}

static void pause_a_little(void) {
    for (int i = 0; i < 32; i++) {
#if defined(__x86_64__) || defined(__i386__)
        __builtin_ia32_pause();
#elif defined(__aarch64__)
        __asm__ volatile("yield");
#endif
    }
}

/* Sleeps while the news are those that it saw, until this time at the latest. A negative time is for ever. */
static void sleep_until(waiter *w, int64_t end) {
    futex_time until = { end / 1000000000, end % 1000000000 };
    int kept = errno;
    syscall(FUTEX, &w->among->news, FUTEX_WAIT_BITSET_PRIVATE, w->seen, end < 0 ? NULL : &until, NULL, w->bits);
    errno = kept;
}

static void sleep_on(waiter *w, int64_t now) {
    int64_t end = w->timeout < 0 || w->timeout > INT64_MAX - w->began ? FOREVER : w->began + w->timeout;
    if (w->code == CQ_BUSY && (end < 0 || end > now + w->nap)) {
        end = now + w->nap;
    }
    sleep_until(w, end);
}

/* Reads the news. If they have changed it was woken, and what keeps it busy from now on is a hold, which ends soon. */
static void see_news(waiter *w) {
    uint32_t news = __atomic_load_n(&w->among->news, __ATOMIC_SEQ_CST);
    bool is_woken = news != w->seen;
    w->nap = is_woken || !w->naps_longer ? NAP_NS : w->nap < LONG_NAP_NS / 2 ? 2 * w->nap : LONG_NAP_NS;
    w->seen = news;
}

/* It comes further: the wait is over, the hold of another has ended, or a trace has made a step. */
static void comes_on(waiter *w) {
    if (w->stuck >= 0 && w->spin > 0) learn_that_it_paid(w, now_ns() - w->stuck);
    w->stuck = -1;
}

/* Notes what holds it up. Once CQ_BUSY is over, it spins anew for what it waits for, and no further CQ_BUSY has it do so again: callers
 * that meet each other's holds would never sleep. */
static void note_stuck(waiter *w, int64_t now) {
    if (w->stuck_by == CQ_BUSY && w->code != CQ_BUSY) comes_on(w);
    if (w->stuck >= 0) return;
    w->stuck = now;
    w->stuck_by = w->code;
    w->spin = spin_of(w);
}

static void leave(waiter *w) {
    if (w->counted) {
        __atomic_fetch_sub(&w->among->sleepers, 1, __ATOMIC_SEQ_CST);
        w->counted = false;
    }
}

/* Spins or sleeps, and says whether to try once more. */
static __attribute__((noinline)) bool await(waiter *w) {
    int64_t now = now_ns();
    if (w->began < 0) {
        w->began = now;
    }
    note_stuck(w, now);
    if (w->timeout >= 0 && now - w->began >= w->timeout) {
        w->code = CQ_TIMED_OUT;
        leave(w);
        return false;
    }
    if (now - w->stuck < w->spin) {
        pause_a_little();
        return true;
    }
    if (w->spin > 0) {
        learn_that_it_was_in_vain(w);
        w->spin = 0;
    }
    if (w->counted) {
        sleep_on(w, now);
    } else {
        __atomic_fetch_add(&w->among->sleepers, 1, __ATOMIC_SEQ_CST);
        w->counted = true;
    }
    see_news(w);
    return true;
}

static __attribute__((noinline)) void end(waiter *w) {
    comes_on(w);
    leave(w);
}

/* Whether to try once more. A call that need not wait pays for three tests. */
static bool again(waiter *w) {
    if (!w->tried) {
        w->tried = true;
        return true;
    }
    if (w->code == CQ_BUSY || w->code == w->not_yet) {
        return await(w);
    }
    if (w->began >= 0) {
        end(w);
    }
    return false;
}

static bool has_sleepers(const cq_sleepers *among) {
    return __atomic_load_n(&among->sleepers, __ATOMIC_SEQ_CST) != 0;
}

/* Wakes those of them that wait for news of one of these threads. */
static void wake(cq_sleepers *among, uint32_t bits) {
    if (!has_sleepers(among)) {
        return;
    }
    __atomic_fetch_add(&among->news, 1, __ATOMIC_SEQ_CST);
    int kept = errno;
    syscall(FUTEX, &among->news, FUTEX_WAKE_BITSET_PRIVATE, INT32_MAX, NULL, NULL, bits);
    errno = kept;
}

/* It is NULL in a program that has no server. */
#pragma weak cebdyraq_wake_servers

/* Wakes agents by these bits, and servers that look for stops, which sleep in poll. */
static void wake_for_stop(cq_signal *signal, uint32_t bits) {
    wake(&signal->agents, bits);
    if (cebdyraq_wake_servers) cebdyraq_wake_servers(signal);
}

void cq_wake(cq_signal *signal) {
    wake(&signal->threads, FUTEX_BITSET_MATCH_ANY);
    wake_for_stop(signal, FUTEX_BITSET_MATCH_ANY);
}

/* The code of a call by which a thread may have handed over. If it has, callers that wait for its answers go on. */
static uint32_t handed_over(cq_thread *thread, cq_signal *signal, uint32_t code) {
    if ((code == CQ_OK || code == CQ_HELD) && has_sleepers(&signal->agents)) {
        wake(&signal->agents, bit_of_own(thread));
    }
    return code;
}

/* The code of a call by which a thread may go on. */
static uint32_t goes_on(cq_signal *signal, uint32_t code) {
    if (code == CQ_OK) thread_follows(signal);
    return code;
}

/* The code of a call whose answer may be there. */
static uint32_t answered(const waiter *w) {
    if (w->code == CQ_OK) agent_follows(w->signal);
    return w->code;
}

/* The code of a call that may be news of the list (cq_has_news): a thread has started or ended, a thread or an environment has come
 * or gone, threads were met, or a thread stops or no longer has to. If so, callers that wait for that go on. */
static uint32_t came_or_went(const waiter *w) {
    if (w->code == CQ_OK) {
        wake(&w->signal->agents, COMINGS);
    }
    return w->code;
}

/* The code of a call that writes to `stops` whether a thread has to stop. If it has, environments that wait for a stop go on. */
static uint32_t may_stop(const waiter *w, const bool *stops) {
    return w->code == CQ_OK && *stops ? came_or_went(w) : w->code;
}

/* The service. */

uint32_t cq_wait_attach_thread(cq_service *service, cq_signal *signal, const uint8_t *name, size_t length,
                               int32_t priority, cq_thread *thread) {
    waiter w = begin(signal, FOREVER, CQ_BUSY);
    while (again(&w)) w.code = cq_attach_thread(service, name, length, priority, thread);
    return came_or_went(&w);
}

uint32_t cq_wait_attach_environment(cq_service *service, cq_signal *signal, cq_env *env) {
    waiter w = begin(signal, FOREVER, CQ_BUSY);
    while (again(&w)) w.code = cq_attach_environment(service, env);
    return came_or_went(&w);
}

/* A thread of the runtime. */

uint32_t cq_wait_start(cq_thread *thread, cq_signal *signal, int64_t timeout_ns) {
    waiter w = begin_own(thread, signal, timeout_ns);
    while (again(&w)) w.code = cq_start(thread);
    came_or_went(&w);
    return goes_on(signal, w.code);
}

uint32_t cq_wait_poll(cq_thread *thread, cq_signal *signal) {
    if (cq_poll_clear(thread)) {
        return CQ_OK;
    }
    waiter w = begin_hand_over(signal);
    while (again(&w)) w.code = cq_poll(thread);
    return handed_over(thread, signal, w.code) == CQ_HELD ? cq_wait_back(thread, signal, FOREVER) : w.code;
}

/* A transition mostly succeeds at once, so these make a waiter only when one did not. */

uint32_t cq_wait_native(cq_thread *thread, cq_signal *signal) {
    thread_did(signal);
    uint32_t code = cq_native(thread);
    if (code != CQ_BUSY) return handed_over(thread, signal, code);
    waiter w = begin_hand_over(signal);
    while (again(&w)) w.code = cq_native(thread);
    return handed_over(thread, signal, w.code);
}

uint32_t cq_wait_block(cq_thread *thread, cq_signal *signal, uint32_t reason) {
    thread_did(signal);
    uint32_t code = cq_block(thread, reason);
    if (code != CQ_BUSY) return handed_over(thread, signal, code);
    waiter w = begin_hand_over(signal);
    while (again(&w)) w.code = cq_block(thread, reason);
    return handed_over(thread, signal, w.code);
}

uint32_t cq_wait_back(cq_thread *thread, cq_signal *signal, int64_t timeout_ns) {
    uint32_t code = cq_back(thread);
    if (code != CQ_BUSY && code != CQ_BARRED) return goes_on(signal, code);
    waiter w = begin_own(thread, signal, timeout_ns);
    while (again(&w)) w.code = cq_back(thread);
    return goes_on(signal, w.code);
}

uint32_t cq_wait_reached(cq_thread *thread, cq_signal *signal, uint32_t method, uint32_t location, bool *stops) {
    waiter w = begin_hand_over(signal);
    while (again(&w)) w.code = cq_reached(thread, method, location, stops);
    return may_stop(&w, stops);
}

uint32_t cq_wait_leaves(cq_thread *thread, cq_signal *signal, uint32_t method, uint32_t location, uint32_t frames, bool *stops) {
    waiter w = begin_hand_over(signal);
    while (again(&w)) w.code = cq_leaves(thread, method, location, frames, stops);
    return may_stop(&w, stops);
}

/* CQ_BARRED as long as the thread has to stop. */
static uint32_t stop_ended(cq_thread *thread) {
    bool stops = true;
    uint32_t code = cq_is_stopped(thread, &stops);
    return code == CQ_OK && stops ? CQ_BARRED : code;
}

uint32_t cq_wait_stop(cq_thread *thread, cq_signal *signal) {
    uint32_t code = cq_wait_block(thread, signal, CQ_PARK);
    wake_for_stop(signal, COMINGS);
    if (code != CQ_OK) return code;
    waiter w = begin_own(thread, signal, FOREVER);
    while (again(&w)) w.code = stop_ended(thread);
    code = cq_wait_back(thread, signal, FOREVER);
    return w.code != CQ_OK ? w.code : code;
}

uint32_t cq_wait_end(cq_thread *thread, cq_signal *signal) {
    waiter w = begin_hand_over(signal);
    while (again(&w)) w.code = cq_end(thread);
    came_or_went(&w);
    return handed_over(thread, signal, w.code);
}

uint32_t cq_wait_detach_thread(cq_thread *thread, cq_signal *signal) {
    waiter w = begin(signal, FOREVER, CQ_BUSY);
    while (again(&w)) w.code = cq_detach_thread(thread);
    return came_or_went(&w);
}

/* An agent's environment. */

uint32_t cq_wait_meet(cq_env *env, cq_signal *signal) {
    waiter w = begin(signal, FOREVER, CQ_BUSY);
    while (again(&w)) w.code = cq_meet(env);
    return came_or_went(&w);
}

uint32_t cq_wait_let_go(cq_env *env, cq_signal *signal, uint32_t thread, bool *gone) {
    waiter w = begin(signal, FOREVER, CQ_BUSY);
    while (again(&w)) w.code = cq_let_go(env, thread, gone);
    return w.code;
}

uint32_t cq_wait_let_go_of_all(cq_env *env, cq_signal *signal) {
    waiter w = begin(signal, FOREVER, CQ_BUSY);
    while (again(&w)) w.code = cq_let_go_of_all(env);
    return w.code;
}

uint32_t cq_wait_get_all_threads(cq_env *env, cq_signal *signal, uint32_t *threads, size_t room, uint64_t *count) {
    waiter w = begin(signal, FOREVER, CQ_BUSY);
    while (again(&w)) w.code = cq_get_all_threads(env, threads, room, count);
    return w.code;
}

uint32_t cq_wait_get_thread_info(cq_env *env, cq_signal *signal, uint32_t thread, cq_thread_info *info, uint8_t *name,
                                 size_t room) {
    waiter w = begin(signal, FOREVER, CQ_BUSY);
    while (again(&w)) w.code = cq_get_thread_info(env, thread, info, name, room);
    return w.code;
}

uint32_t cq_wait_cancel(cq_env *env, cq_signal *signal, const cq_ticket *ticket) {
    waiter w = begin(signal, FOREVER, CQ_BUSY);
    while (again(&w)) w.code = cq_cancel(env, ticket);
    return w.code;
}

uint32_t cq_wait_discard(cq_env *env, cq_signal *signal, uint32_t thread, bool *discarded) {
    waiter w = begin(signal, FOREVER, CQ_BUSY);
    while (again(&w)) w.code = cq_discard(env, thread, discarded);
    return w.code;
}

uint32_t cq_wait_dispose_environment(cq_env *env, cq_signal *signal) {
    return cq_wait_dispose_environment_within(env, signal, FOREVER);
}

uint32_t cq_wait_dispose_environment_within(cq_env *env, cq_signal *signal, int64_t timeout_ns) {
    agent_did(signal);
    waiter w = begin(signal, timeout_ns, CQ_BUSY);
    w.naps_longer = true;
    while (again(&w)) w.code = cq_dispose_environment(env);
    if (w.code == CQ_OK) wake(&signal->threads, FUTEX_BITSET_MATCH_ANY);
    return came_or_went(&w);
}

uint32_t cq_wait_set_event_notification_mode(cq_env *env, cq_signal *signal, bool enabled, uint32_t kind) {
    waiter w = begin(signal, FOREVER, CQ_BUSY);
    while (again(&w)) w.code = cq_set_event_notification_mode(env, enabled, kind);
    return w.code;
}

uint32_t cq_wait_next_event(cq_env *env, cq_signal *signal, int64_t timeout_ns, cq_event *event) {
    waiter w = begin(signal, timeout_ns, CQ_NONE);
    w.bits = COMINGS;
    while (again(&w)) w.code = cq_next_event(env, event);
    return w.code;
}

uint32_t cq_wait_next_stop(cq_env *env, cq_signal *signal, int64_t timeout_ns, cq_stop *stop) {
    waiter w = begin(signal, timeout_ns, CQ_NONE);
    w.bits = COMINGS;
    while (again(&w)) w.code = cq_next_stop(env, stop);
    came_or_went(&w);
    return answered(&w);
}

uint32_t cq_wait_end_stop(cq_env *env, cq_signal *signal, uint32_t thread) {
    agent_did(signal);
    waiter w = begin(signal, FOREVER, CQ_BUSY);
    while (again(&w)) w.code = cq_end_stop(env, thread);
    if (w.code == CQ_OK) wake(&signal->threads, bit_of(thread));
    return came_or_went(&w);
}

/* Calls at a thread. */

uint32_t cq_wait_collect(cq_env *env, cq_signal *signal, const cq_ticket *ticket, int64_t timeout_ns, cq_answer *answer,
                         cq_frame *frames, size_t room) {
    waiter w = begin(signal, timeout_ns, CQ_WAITING);
    w.bits = bit_of(ticket->thread);
    while (again(&w)) w.code = cq_collect(env, ticket, answer, frames, room);
    return answered(&w);
}

uint32_t cq_wait_collect_cancelled(cq_env *env, cq_signal *signal, uint32_t thread, int64_t timeout_ns, cq_answer *answer,
                                   cq_frame *frames, size_t room) {
    waiter w = begin(signal, timeout_ns, CQ_WAITING);
    w.bits = bit_of(thread);
    while (again(&w)) w.code = cq_collect_cancelled(env, thread, answer, frames, room);
    return answered(&w);
}

/* One try at each of these calls, up to the first whose answer is there. */
static uint32_t collect_first(cq_env *env, const cq_ticket *tickets, size_t count, size_t *which, cq_answer *answer,
                              cq_frame *frames, size_t room) {
    uint32_t none = CQ_WAITING;
    for (size_t i = 0; i < count; i++) {
        uint32_t code = cq_collect(env, &tickets[i], answer, frames, room);
        if (code == CQ_BUSY) {
            none = CQ_BUSY;
        } else if (code != CQ_WAITING) {
            *which = i;
            return code;
        }
    }
    return cq_has_news(env) ? CQ_NONE : none;
}

uint32_t cq_wait_any(cq_env *env, cq_signal *signal, const cq_ticket *tickets, size_t count, int64_t timeout_ns,
                     size_t *which, cq_answer *answer, cq_frame *frames, size_t room) {
    uint32_t capabilities;
    uint32_t misused = cq_get_capabilities(env, &capabilities);
    if (misused != CQ_OK) {
        return misused;
    }
    waiter w = begin(signal, timeout_ns, CQ_WAITING);
    w.bits = COMINGS;
    for (size_t i = 0; i < count; i++) w.bits |= bit_of(tickets[i].thread);
    while (again(&w)) w.code = collect_first(env, tickets, count, which, answer, frames, room);
    return answered(&w);
}

/* A call at a thread. */
typedef struct {
    enum { STATE, COUNT, LOCATION, TRACE, SUSPEND, RESUME, POP, GET_WORD, SET_WORD } what;
    uint32_t thread;
    int32_t first;  /* the depth of a location, and where a trace begins */
    int32_t most;   /* how many frames a trace has at most */
    uint64_t word;  /* to set */
} thread_call;

static uint32_t post(cq_env *env, const thread_call *call, cq_answer *answer, cq_frame *frames, size_t room) {
    switch (call->what) {
    case STATE: return cq_get_thread_state(env, call->thread, answer);
    case COUNT: return cq_get_frame_count(env, call->thread, answer);
    case LOCATION: return cq_get_frame_location(env, call->thread, call->first, answer);
    case TRACE: return cq_get_stack_trace(env, call->thread, call->first, call->most, answer, frames, room);
    case SUSPEND: return cq_suspend_thread(env, call->thread, answer);
    case RESUME: return cq_resume_thread(env, call->thread, answer);
    case POP: return cq_pop_frame(env, call->thread, answer);
    case GET_WORD: return cq_get_thread_local_storage(env, call->thread, answer);
    case SET_WORD: return cq_set_thread_local_storage(env, call->thread, call->word, answer);
    }
    return CQ_MISUSED;
}

/* Discards the answers that are there to calls that were cancelled at the thread. CQ_BUSY if some may be left. */
static uint32_t discard_all(cq_env *env, uint32_t thread) {
    bool discarded = true;
    uint32_t code = CQ_OK;
    while (discarded && code == CQ_OK) {
        code = cq_discard(env, thread, &discarded);
    }
    return code;
}

/* One try to post a call. Calls that were cancelled at the thread and are answered take no room in the window any more. If the window is
 * full because some could not be discarded, nobody wakes the caller for the room that they give up: it is CQ_BUSY. */
static uint32_t post_now(cq_env *env, const thread_call *call, cq_answer *answer, cq_frame *frames, size_t room) {
    uint32_t discarding = discard_all(env, call->thread);
    uint32_t code = post(env, call, answer, frames, room);
    return code == CQ_FULL && discarding == CQ_BUSY ? CQ_BUSY : code;
}

/* Posts a call once its thread is free, and unless `not_yet` is CQ_BUSY, also once there is room in the window. */
static waiter posted(cq_env *env, cq_signal *signal, const thread_call *call, int64_t timeout_ns, uint32_t not_yet,
                     cq_answer *answer, cq_frame *frames, size_t room) {
    if (call->what == RESUME) agent_did(signal);
    waiter w = begin(signal, timeout_ns, not_yet);
    w.bits = bit_of(call->thread);
    while (again(&w)) w.code = post_now(env, call, answer, frames, room);
    answered(&w);
    return w;
}

/* The code of a call that was posted, once its answer is there. When the time is over, the call is cancelled. */
static uint32_t collected(cq_env *env, waiter *w, const cq_ticket *ticket, cq_answer *answer, cq_frame *frames, size_t room) {
    w->not_yet = CQ_WAITING;
    while (again(w)) w->code = cq_collect(env, ticket, answer, frames, room);
    if (w->code == CQ_TIMED_OUT) {
        cq_wait_cancel(env, w->signal, ticket);
    }
    return answered(w);
}

static uint32_t call_with(cq_env *env, cq_signal *signal, thread_call call, int64_t timeout_ns, cq_answer *answer,
                          cq_frame *frames, size_t room) {
    waiter w = posted(env, signal, &call, timeout_ns, CQ_FULL, answer, frames, room);
    if (w.code == CQ_WAITING) {
        cq_ticket ticket = answer->ticket;
        collected(env, &w, &ticket, answer, frames, room);
    }
    if (call.what == RESUME && w.code == CQ_OK) {
        wake(&signal->threads, bit_of(call.thread));  /* it may return now */
    }
    return w.code;
}

/* A call whose answer has no frames, or one. */
static uint32_t call_at(cq_env *env, cq_signal *signal, thread_call call, int64_t timeout_ns, cq_answer *answer) {
    cq_frame none;
    return call_with(env, signal, call, timeout_ns, answer, &none, 0);
}

uint32_t cq_wait_get_thread_state(cq_env *env, cq_signal *signal, uint32_t thread, int64_t timeout_ns,
                                  uint32_t *state) {
    cq_answer answer;
    uint32_t code = call_at(env, signal, (thread_call){ .what = STATE, .thread = thread }, timeout_ns, &answer);
    if (code == CQ_OK) *state = (uint32_t)answer.number;
    return code;
}

uint32_t cq_wait_get_frame_count(cq_env *env, cq_signal *signal, uint32_t thread, int64_t timeout_ns,
                                 uint32_t *count) {
    cq_answer answer;
    uint32_t code = call_at(env, signal, (thread_call){ .what = COUNT, .thread = thread }, timeout_ns, &answer);
    if (code == CQ_OK) *count = (uint32_t)answer.number;
    return code;
}

uint32_t cq_wait_get_frame_location(cq_env *env, cq_signal *signal, uint32_t thread, int32_t depth, int64_t timeout_ns,
                                    cq_frame *frame) {
    cq_answer answer;
    thread_call call = { .what = LOCATION, .thread = thread, .first = depth };
    uint32_t code = call_at(env, signal, call, timeout_ns, &answer);
    if (code == CQ_OK) *frame = answer.frame;
    return code;
}

uint32_t cq_wait_get_stack_trace(cq_env *env, cq_signal *signal, uint32_t thread, int32_t start, int32_t max_count,
                                 int64_t timeout_ns, cq_frame *frames, size_t room, uint32_t *count) {
    cq_answer answer;
    thread_call call = { .what = TRACE, .thread = thread, .first = start, .most = max_count };
    uint32_t code = call_with(env, signal, call, timeout_ns, &answer, frames, room);
    if (code == CQ_OK) *count = (uint32_t)answer.number;
    return code;
}

uint32_t cq_wait_suspend_thread(cq_env *env, cq_signal *signal, uint32_t thread, int64_t timeout_ns) {
    cq_answer answer;
    return call_at(env, signal, (thread_call){ .what = SUSPEND, .thread = thread }, timeout_ns, &answer);
}

uint32_t cq_wait_resume_thread(cq_env *env, cq_signal *signal, uint32_t thread, int64_t timeout_ns) {
    cq_answer answer;
    return call_at(env, signal, (thread_call){ .what = RESUME, .thread = thread }, timeout_ns, &answer);
}

uint32_t cq_wait_ensure_resumed(cq_env *env, cq_signal *signal, uint32_t thread, int64_t timeout_ns) {
    agent_did(signal);
    waiter w = begin(signal, timeout_ns, CQ_WAITING);
    w.bits = bit_of(thread);
    while (again(&w)) w.code = cq_ensure_resumed(env, thread);
    if (w.code == CQ_OK) {
        wake(&signal->threads, bit_of(thread));  /* it may return now */
    }
    return answered(&w);
}

uint32_t cq_wait_pop_frame(cq_env *env, cq_signal *signal, uint32_t thread, int64_t timeout_ns) {
    cq_answer answer;
    return call_at(env, signal, (thread_call){ .what = POP, .thread = thread }, timeout_ns, &answer);
}

uint32_t cq_wait_get_thread_local_storage(cq_env *env, cq_signal *signal, uint32_t thread, int64_t timeout_ns,
                                          uint64_t *word) {
    cq_answer answer;
    uint32_t code = call_at(env, signal, (thread_call){ .what = GET_WORD, .thread = thread }, timeout_ns, &answer);
    if (code == CQ_OK) *word = answer.number;
    return code;
}

uint32_t cq_wait_set_thread_local_storage(cq_env *env, cq_signal *signal, uint32_t thread, uint64_t word,
                                          int64_t timeout_ns) {
    cq_answer answer;
    return call_at(env, signal, (thread_call){ .what = SET_WORD, .thread = thread, .word = word }, timeout_ns, &answer);
}

/* Traces of several threads. */

/* Goes on with a trace as far as it can. CQ_OK at its end, CQ_WAITING if another has to do something first, and CQ_BUSY. */
static uint32_t step_on(cq_env *env, waiter *w) {
    bool over = false;
    uint32_t code = CQ_OK;
    while (!over && (code = cq_gather_step(env, &over)) == CQ_OK) {
        comes_on(w);
    }
    return code == CQ_ALREADY_STOPPED || code == CQ_STILL_RUNNING ? CQ_WAITING : code;
}

/* Goes on with a trace until its end, or until the time is over. */
static uint32_t step_to_end(cq_env *env, cq_signal *signal, int64_t timeout_ns) {
    waiter w = begin(signal, timeout_ns, CQ_WAITING);
    while (again(&w)) w.code = step_on(env, &w);
    return w.code;
}

/* A trace that has begun, until its end. When the time is over, it is given up if it still can be. Then it waits only while
 * threads are used by others. At the end it wakes all sleepers: threads that were stopped, and traces that met them so. */
static uint32_t gathered(cq_env *env, cq_signal *signal, int64_t timeout_ns, uint64_t *count) {
    uint32_t code = step_to_end(env, signal, timeout_ns);
    if (code == CQ_TIMED_OUT && cq_gather_give_up(env) == CQ_OK) {
        code = step_to_end(env, signal, FOREVER);
    }
    cq_wake(signal);
    if (code != CQ_OK) return code;
    agent_follows(signal);
    return cq_gathered(env, count) == CQ_NONE ? CQ_TIMED_OUT : CQ_OK;
}

uint32_t cq_wait_end_environment(cq_env *env, cq_signal *signal, int64_t timeout_ns) {
    if (cq_gather_give_up(env) == CQ_OK) {
        uint32_t over = step_to_end(env, signal, FOREVER);
        cq_wake(signal);
        if (over != CQ_OK) return over;
    }
    return cq_wait_dispose_environment_within(env, signal, timeout_ns);
}

uint32_t cq_wait_get_all_stack_traces(cq_env *env, cq_signal *signal, int32_t max_count, int64_t timeout_ns,
                                      uint64_t *count) {
    uint32_t code = cq_gather_all_stack_traces(env, max_count);
    return code == CQ_OK ? gathered(env, signal, timeout_ns, count) : code;
}

uint32_t cq_wait_get_thread_list_stack_traces(cq_env *env, cq_signal *signal, const uint32_t *threads,
                                              size_t thread_count, int32_t max_count, int64_t timeout_ns,
                                              uint64_t *count) {
    uint32_t code = cq_gather_thread_list_stack_traces(env, threads, thread_count, max_count);
    return code == CQ_OK ? gathered(env, signal, timeout_ns, count) : code;
}

/* Lists. */

/* What is left of the time of a list. */
static int64_t left_of(int64_t timeout_ns, int64_t began) {
    if (timeout_ns < 0) {
        return timeout_ns;
    }
    int64_t spent = now_ns() - began;
    return spent < timeout_ns ? timeout_ns - spent : 0;
}

/* Why a list is refused as a whole: the environment lacks the capability, or the handle is misused. */
static uint32_t list_refusal(cq_env *env) {
    uint32_t capabilities = 0;
    uint32_t code = cq_get_capabilities(env, &capabilities);
    return code == CQ_OK && !(capabilities & CQ_CAN_SUSPEND) ? CQ_MUST_POSSESS_CAPABILITY : code;
}

static void collect_each(cq_env *env, cq_signal *signal, size_t count, int64_t timeout_ns, int64_t began,
                         const cq_ticket *tickets, uint32_t *codes) {
    cq_frame none;
    for (size_t i = 0; i < count; i++) {
        if (codes[i] == CQ_WAITING) {
            cq_answer answer;
            waiter w = begin(signal, left_of(timeout_ns, began), CQ_WAITING);
            w.bits = bit_of(tickets[i].thread);
            codes[i] = collected(env, &w, &tickets[i], &answer, &none, 0);
        }
    }
}

/* If a window is full, the answers to the earlier calls of the list are collected before room is waited for. */
static void post_each(cq_env *env, cq_signal *signal, thread_call call, const uint32_t *threads, size_t count,
                      int64_t timeout_ns, int64_t began, cq_ticket *tickets, uint32_t *codes) {
    cq_frame none;
    for (size_t i = 0; i < count; i++) {
        cq_answer answer;
        call.thread = threads[i];
        codes[i] = posted(env, signal, &call, left_of(timeout_ns, began), CQ_BUSY, &answer, &none, 0).code;
        if (codes[i] == CQ_FULL) {
            collect_each(env, signal, i, timeout_ns, began, tickets, codes);
            codes[i] = posted(env, signal, &call, left_of(timeout_ns, began), CQ_FULL, &answer, &none, 0).code;
        }
        if (codes[i] == CQ_WAITING) tickets[i] = answer.ticket;
    }
}

/* A call at each thread of a list. All are posted before the first answer is waited for. */
static uint32_t call_each(cq_env *env, cq_signal *signal, thread_call call, const uint32_t *threads, size_t count,
                          int64_t timeout_ns, uint32_t *codes) {
    uint32_t code = list_refusal(env);
    if (code != CQ_OK || count == 0) {
        return code;
    }
    cq_ticket *tickets = calloc(count, sizeof *tickets);
    if (!tickets) {
        return CQ_OUT_OF_MEMORY;
    }
    int64_t began = now_ns();
    post_each(env, signal, call, threads, count, timeout_ns, began, tickets, codes);
    collect_each(env, signal, count, timeout_ns, began, tickets, codes);
    free(tickets);
    return CQ_OK;
}

uint32_t cq_wait_suspend_thread_list(cq_env *env, cq_signal *signal, const uint32_t *threads, size_t count,
                                     int64_t timeout_ns, uint32_t *codes) {
    return call_each(env, signal, (thread_call){ .what = SUSPEND }, threads, count, timeout_ns, codes);
}

uint32_t cq_wait_resume_thread_list(cq_env *env, cq_signal *signal, const uint32_t *threads, size_t count,
                                    int64_t timeout_ns, uint32_t *codes) {
    uint32_t code = call_each(env, signal, (thread_call){ .what = RESUME }, threads, count, timeout_ns, codes);
    wake(&signal->threads, FUTEX_BITSET_MATCH_ANY);  /* those that are resumed may return now */
    return code;
}
