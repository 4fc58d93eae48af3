/* fuzz.c: random calls on random handles, of the library and of the model. They have to give the same.
 *
 *     fuzz [SEED [SEQUENCES [loud]]]
 *
 * Each sequence has its own seed, SEED and the ones after it. In the end of each everything is given back, and the
 * library has no block of memory any more. */
#include "counted_heap.h"
#include "fuzz.h"

enum { CALLS = 50, MAKES = 8 };

slot slots[SLOTS];
bool is_loud;
static uint64_t seed, chance;
static uint64_t calls_made;

/* xorshift64* */
static uint32_t next_chance(void) {
    chance ^= chance >> 12;
    chance ^= chance << 25;
    chance ^= chance >> 27;
    return (uint32_t)((chance * 0x2545F4914F6CDD1DULL) >> 32);
}

uint32_t below(uint32_t bound) { return (uint32_t)(((uint64_t)next_chance() * bound) >> 32); }

slot *pick(uint32_t kind) {
    uint32_t first = below(SLOTS), tries = below(16) == 0 ? 0 : SLOTS;
    for (uint32_t i = 0; i < tries; i++) {
        slot *s = &slots[(first + i) % SLOTS];
        if (s->model.service.kind == kind) return s;
    }
    return &slots[first];
}

int32_t pick_small(void) {
    static const int32_t edges[] = { INT32_MIN, INT32_MIN + 1, INT32_MAX - 1, INT32_MAX };
    return below(16) == 0 ? edges[below(4)] : (int32_t)below(10) - 3;
}

uint32_t pick_number(void) {
    static const uint32_t edges[] = { UINT32_MAX, UINT32_MAX - 1, 0x80000000, 65536 };
    return below(24) == 0 ? edges[below(4)] : below(below(4) == 0 ? 5 : 2);
}

void agree(const char *what, uint64_t real, uint64_t model) {
    if (is_loud) {
        printf("%s %" PRIu64 "\n", what, real);
    }
    if (real == model) {
        return;
    }
    fprintf(stderr, "%s: the library gives %" PRIu64 ", the model %" PRIu64 ". Run: fuzz %" PRIu64 " 1 loud\n", what,
            real, model, seed);
    fflush(NULL);
    _Exit(1);
}

/* A handle of each service that was made, so that its threads can be resumed in the end. */
static slot keepers[MAKES];
static uint32_t kept;

static m_service *service_in(const slot *s) { return service_of(&s->model.service); }

static bool is_kept(const m_service *service) {
    for (uint32_t i = 0; i < kept; i++) {
        if (service_in(&keepers[i]) == service) return true;
    }
    return false;
}

static void keep_services(void) {
    for (uint32_t i = 0; i < SLOTS; i++) {
        if (service_in(&slots[i]) == NULL || is_kept(service_in(&slots[i]))) continue;
        OK(cq_share(&slots[i].real.service, &keepers[kept].real.service));
        OK(model_share(&slots[i].model.service, &keepers[kept].model.service));
        kept++;
    }
}

/* The end of a sequence. */

/* Gives up each trace that is gathered, and goes on with it to its end. */
static void end_traces(void) {
    for (uint32_t i = 0; i < SLOTS; i++) {
        bool over = false;
        uint32_t code = model_gather_give_up(&slots[i].model.env);
        agree("cq_gather_give_up in the end", cq_gather_give_up(&slots[i].real.env), code);
        while (code == CQ_OK && !over) {
            code = step_both(&slots[i], &over);
        }
        CHECK(code == CQ_OK || code == CQ_MISUSED);
    }
}

static void dispose(cq_env *real, cq_env *model) {
    OK(cq_dispose_environment(real));
    OK(model_dispose_environment(model));
}

/* The calls that are out take place. */
static void poll_all(void) {
    for (uint32_t i = 0; i < SLOTS; i++) {
        agree("cq_poll in the end", cq_poll(&slots[i].real.thread), model_poll(&slots[i].model.thread));
    }
}

static void dispose_all(void) {
    end_traces();
    poll_all();
    for (uint32_t i = 0; i < SLOTS; i++) {
        if (env_of(&slots[i].model.env) == NULL) continue;
        dispose(&slots[i].real.env, &slots[i].model.env);
    }
}

static void resume(const m_thread *thread) {
    uint32_t i = 0;
    while (service_in(&keepers[i]) != thread->service) i++;
    slot agent = { 0 };
    cq_answer answer;
    OK(cq_attach_environment(&keepers[i].real.service, &agent.real.env));
    OK(cq_add_capabilities(&agent.real.env, CQ_CAN_SUSPEND));
    OK(cq_meet(&agent.real.env));
    OK(cq_resume_thread(&agent.real.env, thread->number, &answer));
    OK(model_attach_environment(&keepers[i].model.service, &agent.model.env));
    OK(model_add_capabilities(&agent.model.env, CQ_CAN_SUSPEND));
    OK(model_meet(&agent.model.env));
    OK(model_resume_thread(&agent.model.env, thread->number, &answer));
    dispose(&agent.real.env, &agent.model.env);
}

static void end_thread(slot *s) {
    m_thread *thread = thread_of(&s->model.thread);
    if (thread == NULL) {
        return;
    }
    if (thread->mode == SAFE) {
        if (thread->suspended) resume(thread);
        OK(cq_back(&s->real.thread));
        OK(model_back(&s->model.thread));
    }
    if (thread->mode == RUNNING) {
        OK(cq_end(&s->real.thread));
        OK(model_end(&s->model.thread));
    }
    OK(cq_detach_thread(&s->real.thread));
    OK(model_detach_thread(&s->model.thread));
}

static void free_service(slot *s) {
    if (service_in(s) == NULL) {
        return;
    }
    OK(cq_free(&s->real.service));
    OK(model_free(&s->model.service));
}

static void give_all_back(void) {
    dispose_all();
    for (uint32_t i = 0; i < SLOTS; i++) {
        end_thread(&slots[i]);
    }
    for (uint32_t i = 0; i < SLOTS; i++) {
        free_service(&slots[i]);
    }
    while (kept > 0) {
        free_service(&keepers[--kept]);
    }
    for (uint32_t i = 0; i < SLOTS; i++) {
        agree("the kind of a handle in the end", slots[i].real.service.kind, EMPTY);
    }
    agree("the library's blocks in the end", (uint64_t)heap_blocks(), 0);
}

static void sequence(void) {
    chance = (seed + 1) * 0x9E3779B97F4A7C15ULL;
    memset(slots, 0, sizeof slots);
    memset(keepers, 0, sizeof keepers);
    forget_tickets();
    if (below(8) != 0) {
        furnish();
        keep_services();
    }
    for (uint32_t i = 0; i < CALLS && kept < MAKES; i++) {
        any_call();
        keep_services();
        calls_made++;
    }
    give_all_back();
}

int main(int count, char **words) {
    uint64_t first = count > 1 ? strtoull(words[1], NULL, 0) : 1;
    uint64_t sequences = count > 2 ? strtoull(words[2], NULL, 0) : 100000;
    is_loud = count > 3;
    for (seed = first; seed < first + sequences; seed++) {
        sequence();
    }
    printf("%" PRIu64 " sequences, %" PRIu64 " calls\n", sequences, calls_made);
    return 0;
}
