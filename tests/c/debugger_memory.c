/* debugger_memory.c: a conversation in which memory is refused after no block, one block, two blocks and so on, until it has enough.
 *
 * A call with CQ_OUT_OF_MEMORY changes nothing, and succeeds once there is memory. Each request has its reply, some of them with the
 * error 110. In the end no thread is suspended, and the library has no block. */
#include "counted_heap.h"
#include "debugger.h"

enum { MOST_BLOCKS = 1000, MOST_TICKS = 30 };

static uint32_t request_id;
static packet made;

/* What a call gives, once there is memory. */
#define IN_THE_END(call) do { \
        uint32_t code_ = (call); \
        if (code_ == CQ_OUT_OF_MEMORY) { \
            heap_refuse_after(-1); \
            code_ = (call); \
        } \
        SAME(code_, CQ_OK); \
    } while (0)

static void open_in_the_end(void) {
    IN_THE_END(cq_open_debugger(&service, (const uint8_t *)"tests", 5, (const uint8_t *)"/src", 4, now, &door));
    OK(cq_door_tells_variables(&door, true));
    tick_after(0);
}

static void feed_in_the_end(const void *bytes, size_t count) {
    uint64_t taken = 77;
    IN_THE_END((CHECK(taken == 77), cq_door_feed(&door, 0, bytes, count, now, &taken)));
    SAME(taken, count);
}

/* What is to be done, once a question is answered. Without memory it is answered too. */
static uint32_t action_in_the_end(void) {
    uint32_t action = CQ_DOOR_WAIT;
    uint64_t unused = 0;
    IN_THE_END(cq_door_next(&door, 0, now, 0, &action, &unused));
    if (action == CQ_DOOR_ASK) {
        OK(cq_door_answer(&door, &variables));
        IN_THE_END(cq_door_next(&door, 0, now, 0, &action, &unused));
    }
    return action;
}

/* Ticks until there is something to write, and takes all of it. It gives the first bytes. */
static uint64_t taken_in_the_end(uint8_t *bytes, size_t room) {
    uint32_t action = CQ_DOOR_WAIT;
    uint64_t count = 0;
    for (int i = 0; i < MOST_TICKS && action == CQ_DOOR_WAIT; i++) {
        action = action_in_the_end();
        tick_after(action == CQ_DOOR_WAIT ? 100 * MILLISECOND : 0);
    }
    SAME(action, CQ_DOOR_WRITE);
    OK(cq_door_output(&door, 0, bytes, room, &count));
    OK(cq_door_written(&door, 0, count, now));
    return count;
}

/* Asks. The reply is this request's, and it is right, or says that there is no memory, or that no thread was met or no value told for
 * want of it. */
static void asks_in_the_end(uint8_t set, uint8_t command, const char *data) {
    uint8_t reply[4096];
    make_request(&made, ++request_id, set, command, data);
    feed_in_the_end(made.bytes, made.length);
    uint64_t count = taken_in_the_end(reply, sizeof reply);
    CHECK(count >= HEAD && number_at(reply, 4) == count);
    SAME(number_at(reply + 4, 4), request_id);
    SAME(reply[8], 0x80);
    uint32_t error = number_at(reply + 9, 2);
    bool is_lack = error == 110 || error == 10 || error == 13 || error == 20;
    SAME(is_lack ? 0 : error, 0);
    SAME(is_lack ? count : HEAD, HEAD);
}

static void talk(void) {
    uint8_t greeting[32];
    connect_debugger();
    feed_in_the_end(HANDSHAKE, 14);
    SAME(taken_in_the_end(greeting, sizeof greeting), 14);
    CHECK(!memcmp(greeting, HANDSHAKE, 14));
    asks_in_the_end(1, 7, "");
    asks_in_the_end(15, 1, "08 02 00000001 05 s:java.* ");
    asks_in_the_end(1, 1, "");
    asks_in_the_end(1, 20, "");
    asks_in_the_end(1, 13, "");
    asks_in_the_end(1, 4, "");
    asks_in_the_end(11, 1, WORKER);
    asks_in_the_end(11, 2, SLEEPER);
    asks_in_the_end(11, 6, SLEEPER "00000000 ffffffff");
    asks_in_the_end(6, 5, WORK "0000000600000001");
    asks_in_the_end(16, 1, SLEEPER "0000000100000000 00000002 00000000 73 00000005 5b");
    asks_in_the_end(10, 1, "0000000a00000000");
    asks_in_the_end(13, 2, "0000000c00000001 00000000 00000002");
    asks_in_the_end(1, 8, "");
    asks_in_the_end(2, 15, WORK);
    asks_in_the_end(11, 3, SLEEPER);
}

/* With memory all is as it should be, whatever was refused before. */
static void talks_well(void) {
    heap_refuse_after(-1);
    tick_after(200 * MILLISECOND);
    asks(1, 4, "", 0, "00000002" WORKER SLEEPER);
    asks(11, 1, SLEEPER, 0, "s:sleeper");
    asks(2, 13, WORK, 0, "s:Lscripts/work; 00000000");
}

/* The worker goes on, if it was asked to stay. */
static void let_go(void) {
    uint32_t code = cq_poll(&worker);
    tick_after(MILLISECOND);
    CHECK(code == CQ_OK || (code == CQ_HELD && goes_on(&worker)));
}

/* One conversation. It gives whether memory was refused. */
static bool talks_with(long blocks) {
    long refused = heap_refusals();
    begin_runtime();
    heap_refuse_after(blocks);
    open_in_the_end();
    talk();
    talks_well();
    detach();
    let_go();
    close_debugger();
    end_runtime();
    SAME(heap_blocks(), 0);
    return heap_refusals() > refused;
}

void lacks_memory(void) {
    long blocks = 0;
    while (talks_with(blocks)) {
        blocks++;
        CHECK(blocks < MOST_BLOCKS);
    }
    CHECK(blocks > 0);
}
