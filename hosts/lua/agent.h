/* agent.h: what the tools have in common. Each is an agent with an environment, and runs on the main thread. */
#ifndef AGENT_H
#define AGENT_H

#include <stdbool.h>
#include <stddef.h>
#include <stdint.h>

#include "host.h"

enum { NAME = 64, LINE = 256 };

/* An agent, and the threads that it has met and not let go of, by rising numbers. */
struct agent {
    struct host *host;
    cq_env env;
    uint32_t *threads;
    size_t count;
    uint32_t *there;  /* room for a list of all threads */
};

/* What an agent sees of a thread at one moment. */
struct look {
    char name[NAME];
    char state[LINE];
    uint32_t bits;      /* of GetThreadState */
    bool answered;      /* the two below are there */
    uint32_t depth;
    cq_frame newest;    /* if the depth is not 0 */
};

/* Attaches an agent's environment. Returns 0, or -1 with a message. */
int agent_open(struct agent *agent, struct host *host, uint32_t capabilities);

/* Meets the threads that have come, and lets go of those that have gone. */
void agent_meet(struct agent *agent);

/* Looks at a thread. False if it has gone, or has ended. */
bool agent_look(struct agent *agent, uint32_t thread, struct look *look);

/* Writes a thread's name, which is empty if the thread has gone. There is room for NAME bytes. */
void agent_name(struct agent *agent, uint32_t thread, char *name);

/* Detaches the environment. */
void agent_close(struct agent *agent);

/* Sleeps so long, or until the last script has ended. Returns whether it has. */
bool agent_rest(struct agent *agent, int milliseconds);

/* Writes the state in Java's words, as GetThreadState's bits give it. */
void state_text(uint32_t bits, char *text, size_t size);

/* Writes a frame as "function file:line", or "[C] function". */
void frame_text(const cq_frame *frame, char *text, size_t size);

/* The tools. Each returns 0, or -1 with a message. */
struct prof_options {
    double seconds;    /* 0 for as long as the scripts run */
    double rate;       /* samples a second */
    bool svg;
    const char *file;  /* NULL for the standard output */
};

int prof(struct host *host, const struct prof_options *options);
int top(struct host *host);
int debug(struct host *host);

#endif
