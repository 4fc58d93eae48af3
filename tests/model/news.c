/* news.c: events, and environments that wait for news of the list. */
#include "calls.h"
#include "scenarios.h"

/* All events of threads, until one is given back. */
static void make_events(void) {
    make(2, 1, 2);
    for (uint32_t kind = CQ_THREAD_START; kind <= CQ_THREAD_DETACHED; kind++) {
        if (kind != CQ_CLASS_PREPARE) OK(cq_set_event_notification_mode(&a, true, kind));
    }
}

static void take_events_until(uint32_t kind) {
    cq_event event = { 0 };
    do {
        OK(cq_wait_next_event(&a, &the_signal, FOREVER_NS, &event));
    } while (event.kind != kind);
}

static void take_events_a(void) { take_events_until(CQ_THREAD_DETACHED); }

static void take_event_in_time_a(void) {
    cq_event event;
    int64_t began = time_ns;
    uint32_t code = cq_wait_next_event(&a, &the_signal, 60000, &event);
    was_over("cq_wait_next_event", code, began, 60000, CQ_OK);
    take_events_a();
}

static void come_and_go_1(void) {
    OK(cq_wait_attach_thread(&service, &the_signal, (const uint8_t *)"t", 1, 0, &t1));
    OK(cq_wait_start(&t1, &the_signal, FOREVER_NS));
    OK(cq_wait_end(&t1, &the_signal));
    OK(cq_wait_detach_thread(&t1, &the_signal));
}

/* A class that is defined. */
static void make_for_classes(void) {
    make(2, 1, 1);
    OK(cq_set_event_notification_mode(&a, true, CQ_CLASS_PREPARE));
}

static void take_class_a(void) { take_events_until(CQ_CLASS_PREPARE); }

static void define_class(void) {
    uint32_t number, first, code;
    while ((code = cq_define_class_strings(&service, "La;", NULL, NULL, 0, &number, &first)) == CQ_BUSY) nap();
    OK(code);
    cq_wake(&the_signal);
}

/* An answer or news, whichever comes first. */
static uint32_t any_within(const cq_ticket *tickets, size_t count, int64_t time) {
    size_t which;
    cq_answer answer;
    cq_frame frame;
    return cq_wait_any(&a, &the_signal, tickets, count, time, &which, &answer, &frame, 0);
}

static uint32_t any_of(const cq_ticket *tickets, size_t count) { return any_within(tickets, count, FOREVER_NS); }

static void make_one_agent(void) {
    make(2, 1, 1);
    let_run(&t0);
}

static void answer_or_news_a(void) {
    cq_answer answer;
    uint32_t code = cq_get_frame_count(&a, 0, &answer);
    if (code != CQ_WAITING) return;
    cq_ticket ticket = answer.ticket;
    while ((code = any_of(&ticket, 1)) == CQ_NONE) OK(cq_wait_meet(&a, &the_signal));
    OK_OR(CQ_THREAD_NOT_ALIVE, code);
}

static void answer_in_time_a(void) {
    cq_answer answer;
    if (cq_get_frame_count(&a, 0, &answer) != CQ_WAITING) return;
    cq_ticket ticket = answer.ticket;
    int64_t began = time_ns;
    uint32_t code = any_within(&ticket, 1, 60000);
    if (code == CQ_NONE || was_over("cq_wait_any", code, began, 60000, CQ_THREAD_NOT_ALIVE)) {
        while ((code = any_of(&ticket, 1)) == CQ_NONE) OK(cq_wait_meet(&a, &the_signal));
        OK_OR(CQ_THREAD_NOT_ALIVE, code);
    }
}

static void come_and_go_b(void) {
    OK(cq_wait_attach_environment(&service, &the_signal, &b));
    OK(cq_wait_dispose_environment(&b, &the_signal));
}

/* News alone. */
static void news_a(void) {
    uint32_t code = any_of(NULL, 0);
    if (code != CQ_NONE) fail_with("cq_wait_any", code);
}

static void make_nothing(void) { make(2, 0, 1); }

static void make_fresh(void) { make(2, 1, 1); }

static void give_back_0(void) { OK(cq_wait_detach_thread(&t0, &the_signal)); }

static void make_unmet(void) {
    make(2, 0, 2);
    OK(cq_attach_thread(&service, (const uint8_t *)"t", 1, 0, &t0));
    OK(cq_meet(&a));
}

static void meet_b(void) { OK(cq_wait_meet(&b, &the_signal)); }

static void meet_by_tries_b(void) {
    uint32_t code;
    while ((code = cq_meet(&b)) == CQ_BUSY) nap();
    OK(code);
    cq_wake(&the_signal);
}

/* News while a call is out at a thread that does nothing further. */
static void make_looked(void) {
    make_one_agent();
    OK(cq_meet(&a));
}

static void news_beside_a_call_a(void) {
    cq_answer answer;
    uint32_t code;
    while ((code = cq_get_frame_count(&a, 0, &answer)) == CQ_BUSY) nap();
    cq_ticket ticket = answer.ticket;
    if (code != CQ_WAITING || (code = any_of(&ticket, 1)) != CQ_NONE) fail_with("cq_wait_any", code);
}

/* A list that is read, and threads that are let go of. */
static void read_list_a(void) {
    uint32_t numbers[2];
    uint64_t count;
    bool gone;
    OK(cq_wait_get_all_threads(&a, &the_signal, numbers, 2, &count));
    OK(cq_wait_set_event_notification_mode(&a, &the_signal, true, CQ_THREAD_DETACHED));
    OK(cq_wait_let_go(&a, &the_signal, 0, &gone));
    OK(cq_wait_let_go_of_all(&a, &the_signal));
    OK(cq_wait_meet(&a, &the_signal));
}

static const scenario all[] = {
    { "events", make_events, { take_events_a, start_end_and_go_0, come_and_go_1 }, { "agent a", "thread 0", "thread 1" } },
    { "events_in_time", make_events, { take_event_in_time_a, start_end_and_go_0 }, { "agent a", "thread 0" } },
    { "classes", make_for_classes, { take_class_a, define_class, start_end_and_go_0 }, { "agent a", "definer", "thread 0" } },
    { "any", make_one_agent, { answer_or_news_a, poll_and_end_0, come_and_go_b }, { "agent a", "thread 0", "agent b" } },
    { "any_in_time", make_one_agent, { answer_in_time_a, poll_and_end_0, come_and_go_b }, { "agent a", "thread 0", "agent b" } },
    { "news", make_nothing, { news_a, come_and_go_b }, { "agent a", "agent b" } },
    { "given_back", make_fresh, { news_a, give_back_0 }, { "agent a", "thread 0" } },
    { "met", make_unmet, { news_a, meet_b }, { "agent a", "agent b" } },
    { "met_by_tries", make_unmet, { news_a, meet_by_tries_b }, { "agent a", "agent b" } },
    { "news_beside_a_call", make_looked, { news_beside_a_call_a, come_and_go_b }, { "agent a", "agent b" } },
    { "list", make_fresh, { read_list_a, start_end_and_go_0, come_and_go_b }, { "agent a", "thread 0", "agent b" } },
};
const chapter news = { all, sizeof all / sizeof *all, false };
