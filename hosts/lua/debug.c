/* debug.c: a small debugger on the terminal, while the scripts run. */
#include <errno.h>
#include <poll.h>
#include <sched.h>
#include <stdio.h>
#include <stdlib.h>
#include <string.h>
#include <unistd.h>

#include "agent.h"

static const int64_t PATIENCE_NS = 2000000000;  /* how long a command waits for a thread that does not poll */

/* What the debugger did to a thread. */
struct hold {
    bool suspended;  /* it suspended the thread, */
    bool out;        /* or the suspension waits for the thread's next poll */
    cq_ticket ticket;
};

struct debugger {
    struct agent agent;
    struct hold *holds;  /* by thread number */
    char line[LINE];
    size_t length;
    cq_frame frames[FRAMES];
};

static const char HELP[] =
    "threads             all threads, and where they are\n"
    "bt N, or all        the stack of thread N, newest frame first, or all stacks at one moment\n"
    "suspend N, or all   holds threads at their next polls\n"
    "resume N, or all    lets them go on\n"
    "quit                resumes what was suspended; the scripts run on\n";

/* ------------------------------------------------------------------------------------------------------------------
 * Commands at a thread.
 */

static const char *word_of(uint32_t code) {
    switch (code) {
    case CQ_OK: return "done";
    case CQ_INVALID_THREAD: return "there is no such thread";
    case CQ_THREAD_NOT_ALIVE: return "it has ended, or has not started";
    case CQ_THREAD_SUSPENDED: return "it is suspended already";
    case CQ_THREAD_NOT_SUSPENDED: return "it is not suspended";
    case CQ_TIMED_OUT: return "it has not polled yet";
    default: return "refused";
    }
}

static void show_threads(struct debugger *d) {
    for (size_t i = 0; i < d->agent.count; i++) {
        struct look look;
        char frame[LINE] = "(has not polled)";
        if (!agent_look(&d->agent, d->agent.threads[i], &look))
            continue;
        if (look.answered)
            frame[0] = 0;
        if (look.answered && look.depth > 0)
            frame_text(&look.newest, frame, sizeof frame);
        printf("%u  %s  %s  %s\n", d->agent.threads[i], look.name, look.state, frame);
    }
}

/* The frames that were read last. */
static void show_frames(const struct debugger *d, uint64_t count) {
    char text[LINE];
    for (uint64_t i = 0; i < count; i++) {
        frame_text(&d->frames[i], text, sizeof text);
        printf("#%-3u %s\n", (unsigned)i, text);
    }
}

static void show_stack(struct debugger *d, uint32_t thread) {
    uint32_t count = 0;
    uint32_t code = cq_wait_get_stack_trace(&d->agent.env, &d->agent.host->signal, thread, 0, FRAMES, PATIENCE_NS,
                                            d->frames, FRAMES, &count);
    if (code != CQ_OK)
        printf("thread %u: %s\n", thread, word_of(code));
    show_frames(d, count);
}

/* All threads that are alive, at one moment: none runs until all stacks are read. */
static void show_all_stacks(struct debugger *d) {
    uint64_t count = 0;
    cq_stack_info info;
    char name[NAME], state[LINE];
    uint32_t code = cq_wait_get_all_stack_traces(&d->agent.env, &d->agent.host->signal, FRAMES, PATIENCE_NS, &count);
    if (code != CQ_OK)
        printf("bt all: %s\n", code == CQ_TIMED_OUT ? "a thread has not polled yet" : word_of(code));
    for (uint64_t i = 0; i < count; i++) {
        if (cq_gathered_stack(&d->agent.env, i, &info, d->frames, FRAMES) != CQ_OK)
            return;
        agent_name(&d->agent, info.thread, name);
        state_text(info.state, state, sizeof state);
        printf("thread %u  %s  %s\n", info.thread, name, state);
        show_frames(d, info.frame_count);
    }
}

/* Waits for the answer to a suspension that is out, at most for so long. */
static uint32_t finish(struct debugger *d, struct hold *hold, int64_t timeout_ns) {
    cq_answer answer;
    cq_frame none;
    uint32_t code = cq_wait_collect(&d->agent.env, &d->agent.host->signal, &hold->ticket, timeout_ns, &answer, &none,
                                    0);
    hold->out = code == CQ_TIMED_OUT;
    hold->suspended = code == CQ_OK;
    return code;
}

static uint32_t suspend(struct debugger *d, uint32_t thread) {
    struct hold *hold = &d->holds[thread];
    cq_answer answer;
    uint32_t code;
    if (hold->out)
        return finish(d, hold, PATIENCE_NS);
    do
        code = cq_suspend_thread(&d->agent.env, thread, &answer);
    while (code == CQ_BUSY && !sched_yield());
    if (code == CQ_OK)
        hold->suspended = true;
    if (code != CQ_WAITING)
        return code;
    hold->ticket = answer.ticket;
    return finish(d, hold, PATIENCE_NS);
}

static uint32_t resume(struct debugger *d, uint32_t thread) {
    struct hold *hold = &d->holds[thread];
    if (hold->out && finish(d, hold, PATIENCE_NS) == CQ_TIMED_OUT)
        return CQ_TIMED_OUT;
    hold->suspended = false;
    return cq_wait_resume_thread(&d->agent.env, &d->agent.host->signal, thread, PATIENCE_NS);
}

/* Resumes what it suspended, also what is only suspended once it polls. */
static void resume_own(struct debugger *d) {
    for (size_t i = 0; i < d->agent.host->count; i++) {
        struct hold *hold = &d->holds[i];
        if (hold->out)
            finish(d, hold, -1);
        if (hold->suspended)
            resume(d, (uint32_t)i);
    }
}

/* ------------------------------------------------------------------------------------------------------------------
 * The command line.
 */

static bool is_alive(struct debugger *d, uint32_t thread) {
    struct look look;
    return agent_look(&d->agent, thread, &look);
}

static void act(struct debugger *d, uint32_t thread, const char *verb) {
    uint32_t code = *verb == 's' ? suspend(d, thread) : resume(d, thread);
    printf("%s %u: %s\n", verb, thread, word_of(code));
}

static void act_on_all(struct debugger *d, const char *verb) {
    for (size_t i = 0; i < d->agent.count; i++)
        if (is_alive(d, d->agent.threads[i]))
            act(d, d->agent.threads[i], verb);
}

/* A command about a thread, or all. */
static void run_at(struct debugger *d, const char *verb, const char *whom) {
    char *end;
    unsigned long number = strtoul(whom, &end, 10);
    bool all = !strcmp(whom, "all");
    if (!all && (*end || end == whom || number >= d->agent.host->count))
        printf("%s: there is no thread \"%s\"\n", verb, whom);
    else if (!strcmp(verb, "bt") && !all)
        show_stack(d, (uint32_t)number);
    else if (!strcmp(verb, "bt"))
        show_all_stacks(d);
    else if (all)
        act_on_all(d, verb);
    else
        act(d, (uint32_t)number, verb);
}

/* Returns whether to go on. */
static bool run_command(struct debugger *d) {
    char verb[LINE] = "", whom[LINE] = "", more[2] = "";
    int words = sscanf(d->line, "%255s %255s %1s", verb, whom, more);
    if (cq_has_news(&d->agent.env))
        agent_meet(&d->agent);
    if (words <= 0)
        return true;
    bool at = !strcmp(verb, "bt") || !strcmp(verb, "suspend") || !strcmp(verb, "resume");
    if (words == 1 && (!strcmp(verb, "quit") || !strcmp(verb, "q")))
        return false;
    if (words == 1 && !strcmp(verb, "threads"))
        show_threads(d);
    else if (words == 1 && !strcmp(verb, "help"))
        fputs(HELP, stdout);
    else if (words == 2 && at)
        run_at(d, verb, whom);
    else
        printf("\"%s\" is no command; help lists them\n", d->line);
    return true;
}

static void prompt(void) {
    fputs("(cqlua) ", stdout);
    fflush(stdout);
}

/* Runs the commands of the bytes that came. Returns whether to go on. */
static bool take(struct debugger *d, const char *bytes, size_t count) {
    for (size_t i = 0; i < count; i++) {
        if (bytes[i] != '\n') {
            if (d->length < sizeof d->line - 1)
                d->line[d->length++] = bytes[i];
            continue;
        }
        d->line[d->length] = 0;
        d->length = 0;
        if (!run_command(d))
            return false;
        prompt();
    }
    return true;
}

/* Takes commands until one quits, the input ends, or the last script has ended. */
static void take_commands(struct debugger *d) {
    int ended = d->agent.host->ended;
    struct pollfd fds[] = { { .fd = STDIN_FILENO, .events = POLLIN }, { .fd = ended, .events = POLLIN } };
    char bytes[LINE];
    prompt();
    for (;;) {
        if (poll(fds, 2, -1) < 0 && errno != EINTR)
            return;
        if (fds[0].revents) {
            ssize_t count = read(STDIN_FILENO, bytes, sizeof bytes);
            if (count <= 0 || !take(d, bytes, (size_t)count))
                return;
        } else if (fds[1].revents) {
            printf("\nall scripts have ended\n");
            return;
        }
    }
}

int debug(struct host *host) {
    struct debugger *d = calloc(1, sizeof *d);
    if (!d || !(d->holds = calloc(host->count, sizeof *d->holds))) {
        perror("cqlua");
        free(d);
        return -1;
    }
    int status = agent_open(&d->agent, host, CQ_CAN_SUSPEND);
    if (!status) {
        agent_meet(&d->agent);
        status = host_start(host);
    }
    if (!status) {
        take_commands(d);
        resume_own(d);
        agent_close(&d->agent);
    }
    free(d->holds);
    free(d);
    return status;
}
