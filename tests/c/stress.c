/* stress.c: eight threads of a runtime that come, run and go, and four agents that ask them. Each answer is looked at.
 *
 *     stress [CALLS]
 *
 * CALLS is how many calls the agents make together. */
#include "stress.h"

cq_signal signal_of_all;

typedef struct {
    cq_service service;
    cq_thread thread;
    dice dice;
    uint32_t number;
    uint64_t steps;
} worker;

static atomic_bool is_over;
static atomic_uint_fast64_t threads_that_came;

static cq_frame any_frame(worker *w) {
    uint32_t method = roll(&w->dice, METHODS);
    int64_t location = method < FIRST_NATIVE ? (int64_t)roll(&w->dice, LOCATIONS) : -1;
    return (cq_frame){ w->number * METHODS + method, location };
}

static void set_frames(worker *w) {
    cq_frame frames[DEPTH];
    uint64_t popped;
    uint32_t count = roll(&w->dice, DEPTH + 1);
    for (uint32_t i = 0; i < count; i++) {
        frames[i] = any_frame(w);
    }
    OK(cq_take_pops(&w->thread, &popped));
    OK(cq_set_frames(&w->thread, frames, count));
}

static void be_native(worker *w) {
    uint32_t code = cq_wait_native(&w->thread, &signal_of_all);
    if (code == CQ_NO_NATIVE_FRAME) {
        return;
    }
    SAME(code, CQ_OK);
    OK(cq_wait_back(&w->thread, &signal_of_all, -1));
}

static void be_blocked(worker *w) {
    OK(cq_wait_block(&w->thread, &signal_of_all, roll(&w->dice, CQ_TIMED_PARK + 1)));
    OK(cq_wait_back(&w->thread, &signal_of_all, -1));
}

static void enter(worker *w) {
    cq_frame frame = any_frame(w);
    uint32_t code = frame.location < 0 ? cq_enter_native(&w->thread, frame.method) : cq_enter(&w->thread, frame.method);
    CHECK(code == CQ_OK || code == CQ_OVERFLOW);
}

static void move(worker *w) {
    uint32_t code = cq_at(&w->thread, roll(&w->dice, LOCATIONS));
    CHECK(code == CQ_OK || code == CQ_NO_FRAME || code == CQ_NOT_JAVA_FRAME);
}

static void leave(worker *w) {
    uint32_t code = cq_leave(&w->thread);
    CHECK(code == CQ_OK || code == CQ_NO_FRAME);
}

static void step(worker *w) {
    switch (roll(&w->dice, 40)) {
    case 0: be_native(w); break;
    case 1: be_blocked(w); break;
    case 2: set_frames(w); break;
    default: break;
    }
    switch (roll(&w->dice, 3)) {
    case 0: enter(w); break;
    case 1: move(w); break;
    default: leave(w); break;
    }
    OK(cq_wait_poll(&w->thread, &signal_of_all));
    w->steps++;
}

/* One life of a thread. Some never start. */
static void live(worker *w) {
    OK(cq_wait_attach_thread(&w->service, &signal_of_all, (const uint8_t *)"worker", 6, 5, &w->thread));
    OK(cq_thread_number(&w->thread, &w->number));
    atomic_fetch_add(&threads_that_came, 1);
    if (roll(&w->dice, 16) != 0) {
        OK(cq_wait_start(&w->thread, &signal_of_all, -1));
        uint32_t steps = 1 + roll(&w->dice, 20000);
        for (uint32_t i = 0; i < steps && !atomic_load_explicit(&is_over, memory_order_relaxed); i++) {
            step(w);
        }
        OK(cq_wait_end(&w->thread, &signal_of_all));
    }
    OK(cq_wait_detach_thread(&w->thread, &signal_of_all));
}

static void *worker_main(void *given) {
    worker *w = given;
    while (!atomic_load(&is_over)) {
        live(w);
    }
    OK(cq_free(&w->service));
    return NULL;
}

static worker workers[WORKERS];
static agent agents[AGENTS];
static pthread_t worker_ids[WORKERS], agent_ids[AGENTS];

static void start_all(cq_service *service, uint64_t calls) {
    for (uint32_t i = 0; i < WORKERS; i++) {
        workers[i].dice.state = 1000 + i;
        OK(cq_share(service, &workers[i].service));
        SAME(pthread_create(&worker_ids[i], NULL, worker_main, &workers[i]), 0);
    }
    for (uint32_t i = 0; i < AGENTS; i++) {
        agents[i].dice.state = 2000 + i;
        agents[i].number = i;
        agents[i].calls = calls / AGENTS;
        OK(cq_share(service, &agents[i].service));
        SAME(pthread_create(&agent_ids[i], NULL, agent_main, &agents[i]), 0);
    }
}

static uint64_t join_all(void) {
    uint64_t steps = 0;
    for (uint32_t i = 0; i < AGENTS; i++) {
        SAME(pthread_join(agent_ids[i], NULL), 0);
    }
    atomic_store(&is_over, true);
    for (uint32_t i = 0; i < WORKERS; i++) {
        SAME(pthread_join(worker_ids[i], NULL), 0);
        steps += workers[i].steps;
    }
    return steps;
}

int main(int count, char **words) {
    uint64_t calls = count > 1 ? strtoull(words[1], NULL, 0) : 1000000;
    cq_service service = { 0, NULL };
    OK(cq_make(DEPTH, AGENTS, WINDOW, CQ_CAN_SUSPEND | CQ_CAN_POP_FRAME, &service));
    start_all(&service, calls);
    uint64_t steps = join_all();
    OK(cq_free(&service));
    SAME(heap_blocks(), 0);
    SAME(signal_of_all.threads.sleepers, 0);
    SAME(signal_of_all.agents.sleepers, 0);
    uint64_t came = atomic_load(&threads_that_came);
    printf("%" PRIu64 " calls, %" PRIu64 " threads, %" PRIu64 " steps\n", calls, came, steps);
    return 0;
}
