/* debugger_random.c: random streams of packets, cut at random, while threads run, come and go. Whatever comes, each whole request
 * has one reply, in order, and nothing but events stands between replies. A debugger that goes leaves no thread suspended. The
 * runtime may end in mid-stream: then nothing is written behind VM_DEATH. */
#include "debugger.h"
#include "debugger_streams.h"

enum { WRITTEN = 1 << 22, STREAMS_AT_A_DOOR = 500, LONGEST_REST = 2000, CLASSES = 40 };

uint64_t chance;
static cq_env watcher;
static uint8_t written[WRITTEN];
static size_t written_count;
static uint32_t class_count;

/* ------------------------------------------------------------------------------------------------------------------
 * Threads. The lazy one polls only when a stream is over, and the fleeting one comes and goes.
 */

typedef struct { cq_thread *at; bool stays; } runner;

static cq_thread lazy, fleeting;
static runner worker_runs = { &worker, false }, lazy_runs = { &lazy, false }, fleeting_runs = { &fleeting, false };
static uint32_t thread_count;

static void attach_thread(cq_thread *thread, const char *name) {
    OK(cq_attach_thread(&service, (const uint8_t *)name, strlen(name), 5, thread));
    OK(cq_start(thread));
    OK(cq_thread_number(thread, &thread_count));
    thread_count++;
}

/* A thread polls, or goes on if it may. */
static void turn(runner *of) {
    if (of->stays) {
        of->stays = !goes_on(of->at);
    } else {
        uint32_t code = cq_poll(of->at);
        CHECK(code == CQ_OK || code == CQ_HELD);
        of->stays = code == CQ_HELD;
    }
}

/* The sleeper sleeps on, after a moment in which it runs. */
static void turn_sleeper(void) {
    if (goes_on(&sleeper)) {
        OK(cq_block(&sleeper, CQ_SLEEP));
    }
}

static void turn_fleeting(void) {
    if (fleeting.kind == 0) {
        attach_thread(&fleeting, "fleeting");
    } else if (fleeting_runs.stays || below(2) == 0) {
        turn(&fleeting_runs);
    } else {
        OK(cq_end(&fleeting));
        OK(cq_detach_thread(&fleeting));
    }
}

static void define_late(void) {
    static const cq_method_strings methods[] = { { .name = "late", .lines_kind = CQ_LINES_LOCATIONS, .first_line = 1 } };
    uint32_t first = 0;
    if (class_count < CLASSES) {
        OK(cq_define_class_strings(&service, "Lscripts/late;", "late.x", methods, 1, &class_count, &first));
        class_count++;
    }
}

static void turn_one(void) {
    switch (below(10)) {
    case 0: turn_sleeper(); break;
    case 1: define_late(); break;
    case 2: case 3: case 4: turn_fleeting(); break;
    case 5: case 6: case 7: turn(&worker_runs); break;
    }
}

static void check_not_suspended(uint32_t thread) {
    cq_answer answer = { 0 };
    OK(cq_get_thread_state(&watcher, thread, &answer));
    SAME(answer.number & CQ_STATE_SUSPENDED, 0);
}

/* All go on: each has polled, and the door has ticked since. */
static void check_all_go_on(void) {
    static runner *const all[] = { &worker_runs, &lazy_runs, &fleeting_runs };
    for (int round = 0; round < 2; round++) {
        for (size_t i = 0; i < 3; i++) {
            if (all[i]->at->kind != 0 && all[i]->stays == (round == 1)) {
                turn(all[i]);
            }
        }
        tick_after(MILLISECOND);
    }
    OK(cq_meet(&watcher));
    for (size_t i = 0; i < 3; i++) {
        CHECK(!all[i]->stays);
    }
    for (uint32_t thread = 0; thread < 3; thread++) {
        check_not_suspended(thread);
    }
    CHECK(goes_on(&sleeper));
    OK(cq_block(&sleeper, CQ_SLEEP));
}

/* ------------------------------------------------------------------------------------------------------------------
 * A stream.
 */

/* Takes some of what is to be written. */
static void take_some(void) {
    uint64_t count = 0, room = below(4) == 0 ? 1 + below(50) : LONGEST_PACKET;
    CHECK(written_count + room <= WRITTEN);
    OK(cq_door_output(&door, 0, written + written_count, room, &count));
    CHECK(count > 0 && count <= room);
    OK(cq_door_written(&door, 0, count, now));
    written_count += count;
}

static void answer(void) {
    OK(below(3) == 0 ? cq_door_tell_none(&door, below(200)) : cq_door_answer(&door, &variables));
}

static size_t fed(size_t at) {
    size_t left = stream_length - at, count = 1 + below(below(4) == 0 ? 20 : LONGEST_PACKET);
    uint64_t taken = 0;
    count = count < left ? count : left;
    OK(cq_door_feed(&door, 0, stream + at, count, now, &taken));
    CHECK(taken <= count);
    return taken;
}

static void wait_a_while(void) {
    turn_one();
    tick_after(below(300) * MILLISECOND);
}

/* The runtime ends, and the door closes without a question. */
static void end_runtime_in_stream(void) {
    OK(cq_door_runtime_ends(&door));
    for (int rests = 0; rests < LONGEST_REST;) {
        uint32_t action = action_now();
        if (action == CQ_DOOR_CLOSE) {
            return;
        }
        if (action == CQ_DOOR_WRITE) {
            take_some();
            continue;
        }
        SAME(action, CQ_DOOR_WAIT);
        wait_a_while();
        rests++;
    }
    CHECK(!"the door closes once the runtime has ended");
}

/* Feeds the stream, and takes what the door writes, until it closes. It may give up before, or the runtime may end: then it is false. */
static bool run_stream(void) {
    size_t at = 0, patience = below(6) == 0 ? below(30) : SIZE_MAX;
    bool ended = false;
    for (int rests = 0; rests < LONGEST_REST; patience--) {
        if (below(4) == 0) {
            wait_a_while();
        }
        uint32_t action = action_now();
        if (action == CQ_DOOR_CLOSE) {
            return true;
        }
        if (patience == 0) {
            if (below(2) == 0) {
                end_runtime_in_stream();
            }
            return false;
        }
        size_t taken = 0;
        if (action == CQ_DOOR_WRITE) {
            take_some();
            continue;
        }
        if (action == CQ_DOOR_ASK) {
            answer();
            continue;
        }
        if (at < stream_length) {
            taken = fed(at);
            at += taken;
        } else if (!ended) {
            OK(cq_door_end(&door, 0, now));
            ended = true;
        }
        if (taken == 0) {
            wait_a_while();
            rests++;
        }
    }
    CHECK(!"the door closes behind a peer that has ended");
    return false;
}

/* What was written begins with whole packets: the replies that are expected, with events between them, and nothing behind the end of the
 * runtime. Returns how many replies there are. The last packet may be cut. */
static size_t check_written(bool is_whole) {
    size_t at = 14, replies = 0;
    bool has_ended = false;
    CHECK(!memcmp(written, HANDSHAKE, written_count < 14 ? written_count : 14));
    while (written_count >= at + HEAD) {
        const uint8_t *head = written + at;
        uint32_t length = number_at(head, 4);
        CHECK(length >= HEAD && !has_ended);
        if (length > written_count - at) {
            break;
        }
        if (head[8] == 0x80) {
            CHECK(replies < expected_count);
            SAME(number_at(head + 4, 4), expected[replies]);
            replies++;
        } else {
            CHECK(head[8] == 0 && head[9] == 64 && head[10] == 100);
            has_ended = head[HEAD + 5] == 99;
        }
        at += length;
    }
    CHECK(!is_whole || at == written_count || written_count == 0);
    return replies;
}

static void run_one(void) {
    uint64_t before = resumptions();
    connect_debugger();
    make_stream(thread_count + 1);
    read_stream();
    written_count = 0;
    bool is_whole = run_stream();
    size_t replies = check_written(is_whole);
    CHECK(!is_whole || replies == expected_count);
    detach();
    check_all_go_on();
    CHECK(resumptions() >= before);
}

/* ------------------------------------------------------------------------------------------------------------------
 * All streams. A door is closed after some, and another opened.
 */

static void begin(void) {
    class_count = 0;
    begin_runtime();
    attach_thread(&lazy, "lazy");
    OK(cq_attach_environment(&service, &watcher));
    open_debugger();
    OK(cq_door_tells_variables(&door, true));
    OK(cq_door_pops_frames(&door, true));
}

static void finish(void) {
    close_debugger();
    OK(cq_dispose_environment(&watcher));
    if (fleeting.kind != 0) {
        OK(cq_end(&fleeting));
        OK(cq_detach_thread(&fleeting));
    }
    OK(cq_end(&lazy));
    OK(cq_detach_thread(&lazy));
    end_runtime();
}

void debugs_at_random(uint64_t streams, uint64_t seed) {
    seed_chance(seed);
    for (uint64_t i = 0; i < streams; i++) {
        if (i % STREAMS_AT_A_DOOR == 0) {
            begin();
        }
        run_one();
        if (i % STREAMS_AT_A_DOOR == STREAMS_AT_A_DOOR - 1 || i == streams - 1) {
            finish();
        }
    }
}
