/* prof.c: a sampling profiler.
 *
 * At each tick it asks each thread for its stack, and waits for none. A thread that runs is nudged, and gives its
 * stack at once, or when the C function returns in which it is. The answer is taken at a later tick. A thread that
 * still owes its stack is not asked again. That stack counts for each tick since. So there are as many stacks as ticks
 * at which a thread was alive.
 *
 * In a deep stack a nudge costs more. It is put off until it costs a hundredth of the time that the answer is due. If
 * the answer comes late without one, it is of a function that ran later, and the ticks count as late.
 *
 * Stacks of unequal weights are worth fewer equal ones: the square of the weights' sum, by the sum of their squares.
 * */
#include <errno.h>
#include <math.h>
#include <poll.h>
#include <sched.h>
#include <stdio.h>
#include <stdlib.h>
#include <string.h>
#include <time.h>

#include "agent.h"
#include "ending.h"
#include "nudge.h"
#include "tree.h"

enum { NUDGE_SHARE = 100 };  /* a nudge takes at most such a part of the time that an answer is due */

static const cq_frame LATE = { METHOD_LATE, -1 }, LEFT_OUT = { METHOD_LEFT_OUT, -1 };

/* What a thread owes. */
struct owed {
    bool out;
    bool nudged;
    cq_ticket ticket;
    uint64_t ticks;
};

struct profile {
    struct agent agent;
    struct node root;
    struct owed *owed;  /* by thread number, which is the script's place in the host */
    double period;      /* between two ticks, in nanoseconds */
    bool full;          /* there was no memory for a stack */
    uint64_t ticks;
    uint64_t late;      /* ticks at which a thread still owed its stack */
    double squares;     /* the sum of the squares of the stacks' weights */
    cq_frame frames[FRAMES];
};

static double read_clock(clockid_t clock) {
    struct timespec t;
    clock_gettime(clock, &t);
    return (double)t.tv_sec + (double)t.tv_nsec / 1e9;
}

static double now(void) {
    return read_clock(CLOCK_MONOTONIC);
}

static void count_stack(struct profile *p, const cq_frame *frames, uint64_t count, uint64_t times) {
    p->squares += (double)times * (double)times;
    if (!tree_add(&p->root, count ? frames : &LEFT_OUT, count ? count : 1, times))
        p->full = true;
}

/* Counts what a thread owed, and has given, or cannot give any more. */
static void settle(struct profile *p, struct owed *owed, uint32_t code, uint64_t count) {
    owed->out = false;
    if (code == CQ_OK && (owed->nudged || owed->ticks == 1))
        count_stack(p, p->frames, count, owed->ticks);
    else
        count_stack(p, &LATE, 1, owed->ticks);
}

/* Takes the answer of a thread that owes one, if it is there. */
static void collect(struct profile *p, struct owed *owed) {
    cq_answer answer = { 0 };
    uint32_t code = cq_collect(&p->agent.env, &owed->ticket, &answer, p->frames, FRAMES);
    if (code != CQ_WAITING && code != CQ_BUSY)
        settle(p, owed, code, answer.number);
}

static void nudge_if_cheap(struct profile *p, uint32_t thread) {
    struct owed *owed = &p->owed[thread];
    struct script *script = &p->agent.host->scripts[thread];
    if (owed->nudged || (double)owed->ticks * p->period < (double)(NUDGE_SHARE * nudge_price(script)))
        return;
    owed->nudged = true;
    nudge(script);
}

/* Asks a thread that owes nothing. */
static void ask(struct profile *p, uint32_t thread) {
    cq_answer answer;
    uint32_t code;
    do
        code = cq_get_stack_trace(&p->agent.env, thread, 0, FRAMES, &answer, p->frames, FRAMES);
    while (code == CQ_BUSY && !sched_yield());
    if (code == CQ_OK)
        count_stack(p, p->frames, answer.number, 1);
    else if (code == CQ_WAITING)
        p->owed[thread] = (struct owed){ .out = true, .ticket = answer.ticket, .ticks = 1 };
    else if (code != CQ_THREAD_NOT_ALIVE)
        count_stack(p, &LEFT_OUT, 1, 1);
}

/* One tick at one thread. */
static void tick(struct profile *p, uint32_t thread) {
    struct owed *owed = &p->owed[thread];
    if (owed->out)
        collect(p, owed);
    if (owed->out) {
        owed->ticks++;
        p->late++;
    } else {
        ask(p, thread);
    }
    if (owed->out)
        nudge_if_cheap(p, thread);
}

/* Waits for the last answers, until then. */
static void collect_last(struct profile *p, double end) {
    for (size_t i = 0; i < p->agent.host->count; i++) {
        struct owed *owed = &p->owed[i];
        cq_answer answer = { 0 };
        int64_t left_ns = end > now() ? (int64_t)((end - now()) * 1e9) : 0;
        if (!owed->out)
            continue;
        uint32_t code = cq_wait_collect(&p->agent.env, &p->agent.host->signal, &owed->ticket, left_ns, &answer,
                                        p->frames, FRAMES);
        settle(p, owed, code, answer.number);
    }
}

/* Sleeps until then, or until the last script has ended, or the end was asked for. */
static void sleep_until(const struct host *host, double time) {
    struct pollfd ended = { .fd = host->ended, .events = POLLIN };
    double left = time - now();
    if (left <= 0)
        return;
    struct timespec t = { (time_t)left, (long)((left - (double)(time_t)left) * 1e9) };
    ppoll(&ended, 1, &t, NULL);
}

static bool goes_on(const struct profile *p, double seconds) {
    return atomic_load(&p->agent.host->living) > 0 && !ending_asked() && seconds > 0;
}

/* Samples until all scripts have ended, the end is asked for, or the time is over. Ticks that are missed are not made
 * up for. */
static double sample(struct profile *p, const struct prof_options *o) {
    struct agent *agent = &p->agent;
    double start = now(), next = start, end = o->seconds > 0 ? start + o->seconds : HUGE_VAL;
    while (goes_on(p, end - next)) {
        if (cq_has_news(&agent->env))
            agent_meet(agent);
        for (size_t i = 0; i < agent->count; i++)
            tick(p, agent->threads[i]);
        p->ticks++;
        next += 1 / o->rate;
        if (next < now())
            next = now();
        sleep_until(agent->host, next);
    }
    collect_last(p, now() + 1);
    return now() - start;
}

static int write_profile(struct profile *p, const struct prof_options *o, FILE *out) {
    char title[LINE];
    snprintf(title, sizeof title, "cqlua prof: %llu stacks of %zu scripts, %g a second of each",
             (unsigned long long)p->root.all, p->agent.host->count, o->rate);
    tree_sort(&p->root);
    if (o->svg)
        tree_write_flame(&p->root, title, out);
    else
        tree_write_folded(&p->root, out);
    bool bad = fflush(out) || ferror(out);
    if (bad)
        fprintf(stderr, "cqlua: %s: the profile cannot be written\n", o->file ? o->file : "standard output");
    return bad ? -1 : 0;
}

static void tell(const struct profile *p, double seconds, double spent) {
    double all = (double)p->root.all, worth = all > 0 ? all * all / p->squares : 0;
    fprintf(stderr, "cqlua: %llu ticks in %.2f s, %.0f stacks, %llu times late, worth %.0f; the agent took %.3f s%s\n",
            (unsigned long long)p->ticks, seconds, all, (unsigned long long)p->late, worth, spent,
            p->full ? "; there was no memory for all stacks" : "");
}

static int run_profile(struct profile *p, struct host *host, const struct prof_options *o, FILE *out) {
    if (nudge_open() || agent_open(&p->agent, host, 0))
        return -1;
    agent_meet(&p->agent);
    if (ending_watch(host))
        return -1;
    if (host_start(host)) {
        ending_done();
        return -1;
    }
    p->period = 1e9 / o->rate;
    double spent = read_clock(CLOCK_THREAD_CPUTIME_ID), seconds = sample(p, o);
    spent = read_clock(CLOCK_THREAD_CPUTIME_ID) - spent;
    tell(p, seconds, spent);
    int status = write_profile(p, o, out);
    ending_done();
    agent_close(&p->agent);
    tree_free(&p->root);
    return status;
}

int prof(struct host *host, const struct prof_options *options) {
    FILE *out = options->file ? fopen(options->file, "w") : stdout;
    struct profile *p = calloc(1, sizeof *p);
    int status = -1;
    if (p)
        p->owed = calloc(host->count, sizeof *p->owed);
    if (!out)
        fprintf(stderr, "cqlua: %s: %s\n", options->file, strerror(errno));
    else if (!p || !p->owed)
        perror("cqlua");
    else
        status = run_profile(p, host, options, out);
    if (out && out != stdout && fclose(out))
        status = -1;
    if (p)
        free(p->owed);
    free(p);
    return status;
}
