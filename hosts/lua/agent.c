/* agent.c: how the tools meet threads, and what they say of them. */
#include "agent.h"

#include <poll.h>
#include <stdio.h>
#include <stdlib.h>
#include <string.h>

static const int64_t PATIENCE_NS = 500000000;  /* how long a look waits for a thread that does not poll */

int agent_open(struct agent *agent, struct host *host, uint32_t capabilities) {
    *agent = (struct agent){ .host = host };
    agent->threads = calloc(host->count, sizeof *agent->threads);
    agent->there = calloc(host->count, sizeof *agent->there);
    if (!agent->threads || !agent->there) {
        perror("cqlua");
        return -1;
    }
    uint32_t code = cq_wait_attach_environment(&host->service, &host->signal, &agent->env);
    if (code == CQ_OK)
        code = cq_add_capabilities(&agent->env, capabilities);
    if (code != CQ_OK) {
        fprintf(stderr, "cqlua: the agent is refused with code %u: %s\n", code, cq_code_text(code));
        return -1;
    }
    return 0;
}

static void let_go(struct agent *agent) {
    size_t kept = 0;
    for (size_t i = 0; i < agent->count; i++) {
        bool gone = false;
        cq_wait_let_go(&agent->env, &agent->host->signal, agent->threads[i], &gone);
        if (!gone)
            agent->threads[kept++] = agent->threads[i];
    }
    agent->count = kept;
}

static bool knows(const struct agent *agent, uint32_t thread) {
    for (size_t i = 0; i < agent->count; i++)
        if (agent->threads[i] == thread)
            return true;
    return false;
}

void agent_meet(struct agent *agent) {
    cq_signal *signal = &agent->host->signal;
    uint32_t *there = agent->there;
    uint64_t count = 0;
    let_go(agent);
    if (cq_wait_meet(&agent->env, signal) != CQ_OK)
        return;
    if (cq_wait_get_all_threads(&agent->env, signal, there, agent->host->count, &count) != CQ_OK)
        return;
    for (uint64_t i = 0; i < count && i < agent->host->count; i++)
        if (!knows(agent, there[i]))
            agent->threads[agent->count++] = there[i];
}

void state_text(uint32_t bits, char *text, size_t size) {
    const char *java = "NEW";
    if (bits & CQ_STATE_TERMINATED)
        java = "TERMINATED";
    else if (bits & CQ_STATE_BLOCKED_ON_MONITOR_ENTER)
        java = "BLOCKED";
    else if (bits & CQ_STATE_WAITING_INDEFINITELY)
        java = "WAITING";
    else if (bits & CQ_STATE_WAITING_WITH_TIMEOUT)
        java = "TIMED_WAITING";
    else if (bits & CQ_STATE_RUNNABLE)
        java = "RUNNABLE";
    snprintf(text, size, "%s%s%s", java, bits & CQ_STATE_IN_NATIVE ? ", in native" : "",
             bits & CQ_STATE_SUSPENDED ? ", suspended" : "");
}

void agent_name(struct agent *agent, uint32_t thread, char *name) {
    cq_thread_info info;
    size_t room = NAME - 1, length = 0;
    if (cq_wait_get_thread_info(&agent->env, &agent->host->signal, thread, &info, (uint8_t *)name, room) == CQ_OK)
        length = info.name_length < room ? info.name_length : room;
    name[length] = 0;
}

bool agent_look(struct agent *agent, uint32_t thread, struct look *look) {
    cq_signal *signal = &agent->host->signal;
    if (cq_wait_get_thread_state(&agent->env, signal, thread, PATIENCE_NS, &look->bits) != CQ_OK)
        return false;
    if (look->bits & CQ_STATE_TERMINATED)
        return false;
    agent_name(agent, thread, look->name);
    state_text(look->bits, look->state, sizeof look->state);
    look->answered = cq_wait_get_stack_trace(&agent->env, signal, thread, 0, FRAMES, PATIENCE_NS, &look->newest, 1,
                                             &look->depth) == CQ_OK;
    return true;
}

void agent_close(struct agent *agent) {
    (void)!cq_wait_dispose_environment_within(&agent->env, &agent->host->signal, PATIENCE_NS);
    free(agent->threads);
    free(agent->there);
}

bool agent_rest(struct agent *agent, int milliseconds) {
    struct pollfd ended = { .fd = agent->host->ended, .events = POLLIN };
    return poll(&ended, 1, milliseconds) > 0;
}

void frame_text(const cq_frame *frame, char *text, size_t size) {
    const struct method *m = methods_get(frame->method);
    if (frame->method <= METHOD_OWN)
        snprintf(text, size, "%s", m->name);
    else if (frame->location < 0)
        snprintf(text, size, "[C] %s", m->name);
    else
        snprintf(text, size, "%s %s:%lld", m->name, m->source, (long long)frame->location);
}
