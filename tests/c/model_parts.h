/* model_parts.h: what the files of the model share. */
#ifndef MODEL_PARTS_H
#define MODEL_PARTS_H

#include "model.h"

enum { ENVS = 32 };
enum { EMPTY = 0, A_SERVICE = 1, A_THREAD = 2, AN_ENV = 3 };
enum { NOBODY = ENVS };
enum { NEW, RUNNING, SAFE, ENDED };
enum { NO_TRACE, STOPPING, SEEING, READING, LETTING_GO, GIVING_UP };
enum { STATE, COUNT, LOCATION, TRACE, SUSPEND, RESUME, POP, GET_WORD, SET_WORD };

/* A call at a thread, with its answer once it has taken place. */
typedef struct posted {
    struct posted *next;
    uint32_t place;       /* whose it is */
    cq_ticket ticket;
    uint32_t kind;
    int32_t start;        /* of a trace, or the depth of a location */
    int32_t max_count;
    uint64_t word;
    uint64_t given_up;    /* 0 if it was not, and otherwise how many were given up at the thread up to it */
    bool former;          /* the environment that asked it was disposed of */
    bool done;
    uint32_t code;
    uint64_t number;
    cq_frame frame;
    cq_frame *frames;
} posted;

typedef struct m_service m_service;

typedef struct {
    m_service *service;
    uint32_t number;
    bool there;           /* it was not given back */
    uint8_t *name;
    size_t length;
    int32_t priority;
    uint32_t mode;
    uint32_t bits;        /* its state while it is safe */
    bool suspended;
    uint32_t stopped_by;  /* the place of the environment whose trace has stopped it, or NOBODY */
    cq_frame *frames;     /* the oldest first */
    size_t count;
    uint64_t popped;      /* frames that were popped and not told */
    uint64_t popped_away; /* the same since it handed over */
    posted *calls;        /* those that are out, in the order of posting */
    uint64_t given_up;
    uint64_t posts[ENVS];
    uint64_t words[ENVS];
    bool met[ENVS];
} m_thread;

/* What a trace of several threads tells of one. */
typedef struct { cq_stack_info info; cq_frame *frames; } m_told;

/* A trace of several threads: one that is gathered, or the last one. */
typedef struct {
    uint32_t phase;
    m_thread **stops;     /* the threads to stop, each once, in the order of their numbers */
    size_t stop_count;
    m_thread **reads;     /* the threads to read */
    size_t read_count;
    int32_t max_count;
    bool alive_only;
    size_t done;          /* how many threads of this phase are done */
    size_t stopped;       /* how many were stopped when it was given up */
    bool is_there;        /* it came to its end, and was not given up */
    m_told *told;
    size_t told_count;
} m_trace;

typedef struct {
    m_service *service;
    m_trace trace;
    uint32_t place;
    uint32_t capabilities;
    uint32_t had;         /* the capabilities that it has or once had */
    uint64_t word;
    uint32_t known;       /* it has met the threads below this number */
    bool is_told[CQ_THREAD_DETACHED + 1];       /* by the kind of event */
    uint64_t told_since[CQ_THREAD_DETACHED + 1]; /* the index of the first event of the kind */
    uint64_t next_event;                        /* it was told all before, or never is */
    uint64_t asked;       /* what had happened when it last asked the service anything */
    uint64_t looked;      /* the same when it last met the threads */
} m_env;

struct m_service {
    uint32_t handles;
    uint32_t depth, envs, window, potential;
    m_thread **threads;
    uint32_t count;
    bool taken[ENVS];
    bool littered[ENVS];  /* a call of the last environment of this number was out when that was disposed of */
    cq_event *events;
    uint64_t event_count;
    uint64_t happened;    /* threads and environments that came or went, and meetings of threads that came */
};

m_service *service_of(const cq_service *handle);
m_thread *thread_of(const cq_thread *handle);
/* The environment, if it gathers no trace, and if it gathers one. */
m_env *env_of(const cq_env *handle);
m_env *gathering_of(const cq_env *handle);
void let_go_of_service(m_service *service);

/* The waiting calls take place. */
void hand_over(m_thread *thread);
bool is_called_for(const m_thread *thread);
uint32_t outs(const m_thread *thread, uint32_t place);
bool throw_first(m_thread *thread, uint32_t place);
void leave_all(m_thread *thread, uint32_t place);
void give_up_all(m_thread *thread, uint32_t place);
void free_call(posted *call);
bool is_alive(const m_thread *thread);
uint32_t state_bits(const m_thread *thread);
cq_frame from_newest(const m_thread *thread, size_t depth);

/* The thread that the environment has met under this number, or NULL. */
m_thread *met(const m_env *env, uint32_t thread);
void free_trace(m_trace *trace);

#endif
