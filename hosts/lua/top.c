/* top.c: a table of all threads, once a second. */
#include <stdio.h>
#include <time.h>

#include "agent.h"

static void write_row(struct agent *agent, uint32_t thread) {
    struct look look;
    char frame[LINE] = "(has not polled)", depth[16] = "?";
    if (!agent_look(agent, thread, &look))
        return;
    if (look.answered) {
        snprintf(depth, sizeof depth, "%u", look.depth);
        frame[0] = 0;
        if (look.depth > 0)
            frame_text(&look.newest, frame, sizeof frame);
    }
    printf("%4u  %-20.20s  %-26s  %5s  %s\n", thread, look.name, look.state, depth, frame);
}

static void write_table(struct agent *agent, unsigned seconds) {
    if (cq_has_news(&agent->env))
        agent_meet(agent);
    printf("\n%u s\n%4s  %-20s  %-26s  %5s  %s\n", seconds, "no", "name", "state", "depth", "newest frame");
    for (size_t i = 0; i < agent->count; i++)
        write_row(agent, agent->threads[i]);
    fflush(stdout);
}

/* How long it is from now until so many seconds after the start. */
static int until(const struct timespec *start, unsigned seconds) {
    struct timespec now;
    clock_gettime(CLOCK_MONOTONIC, &now);
    long long gone = (now.tv_sec - start->tv_sec) * 1000LL + (now.tv_nsec - start->tv_nsec) / 1000000;
    long long left = seconds * 1000LL - gone;
    return left > 0 ? (int)left : 0;
}

int top(struct host *host) {
    struct agent agent;
    struct timespec start;
    if (agent_open(&agent, host, 0))
        return -1;
    agent_meet(&agent);
    if (host_start(host))
        return -1;
    clock_gettime(CLOCK_MONOTONIC, &start);
    for (unsigned seconds = 1; !agent_rest(&agent, until(&start, seconds)); seconds++)
        write_table(&agent, seconds);
    agent_close(&agent);
    return 0;
}
