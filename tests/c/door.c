/* door.c: a door without sockets, whose time is the test's. Random streams of bytes are cut at random and fed to it.
 *
 *     door [STREAMS [SEED]] */
#include "counted_heap.h"
#include "door.h"

static cq_service service;
static cq_thread thread;
cq_door door;
uint64_t now = 1000 * SECOND;

/* ------------------------------------------------------------------------------------------------------------------
 * Steps.
 */

uint32_t connected(void) {
    uint32_t connection = 77;
    OK(cq_door_connect(&door, now, &connection));
    CHECK(connection < CQ_DOOR_CONNECTIONS);
    return connection;
}

uint32_t action_of(uint32_t connection) {
    uint32_t action = 77;
    uint64_t room = 1 << 20;
    OK(cq_door_next(&door, connection, now, 0, &action, &room));
    CHECK(action <= CQ_DOOR_CLOSE && room <= 8192);
    return action;
}

void feed(uint32_t connection, const char *text) {
    uint64_t taken = 0;
    OK(cq_door_feed(&door, connection, (const uint8_t *)text, strlen(text), now, &taken));
    SAME(taken, strlen(text));
}

void tick_after(uint64_t time) {
    uint64_t deadline = 0;
    now += time;
    OK(cq_door_tick(&door, now, &deadline));
    CHECK(deadline > now);
}

/* Takes what is to be written, and returns the status of the answer. */
int taken_status(uint32_t connection) {
    char head[64] = { 0 };
    uint8_t bytes[4096];
    uint64_t count = 0;
    int status = 0;
    SAME(action_of(connection), CQ_DOOR_WRITE);
    OK(cq_door_output(&door, connection, (uint8_t *)head, sizeof head - 1, &count));
    SAME(sscanf(head, "HTTP/1.1 %d ", &status), 1);
    while (action_of(connection) == CQ_DOOR_WRITE) {
        OK(cq_door_output(&door, connection, bytes, sizeof bytes, &count));
        CHECK(count > 0);
        OK(cq_door_written(&door, connection, count, now));
    }
    return status;
}

/* ------------------------------------------------------------------------------------------------------------------
 * Times.
 */

static void gives_a_head_five_seconds(void) {
    uint32_t at = connected();
    SAME(action_of(at), CQ_DOOR_WAIT);
    feed(at, "GET / HT");
    tick_after(5 * SECOND - 1000000);
    SAME(action_of(at), CQ_DOOR_WAIT);
    tick_after(1000000);
    SAME(taken_status(at), 408);
    SAME(action_of(at), CQ_DOOR_CLOSE);
    OK(cq_door_disconnect(&door, at));
}

static void closes_who_is_idle(void) {
    uint32_t at = connected();
    tick_after(30 * SECOND - 1000000);
    SAME(action_of(at), CQ_DOOR_WAIT);
    tick_after(1000000);
    SAME(action_of(at), CQ_DOOR_CLOSE);
    OK(cq_door_disconnect(&door, at));
}

static void closes_who_does_not_read(void) {
    uint32_t at = connected();
    feed(at, "GET / HTTP/1.1\r\nHost: localhost\r\n\r\n");
    SAME(action_of(at), CQ_DOOR_WRITE);
    tick_after(10 * SECOND - 1000000);
    SAME(action_of(at), CQ_DOOR_WRITE);
    tick_after(1000000);
    SAME(action_of(at), CQ_DOOR_CLOSE);
    OK(cq_door_disconnect(&door, at));
}

/* A thread that does not poll is shown without a stack after 50 ms. */
static void waits_for_a_stack(void) {
    uint32_t at = connected();
    feed(at, "GET /threads HTTP/1.1\r\nHost: localhost\r\n\r\n");
    SAME(action_of(at), CQ_DOOR_WAIT);
    tick_after(1000000);
    SAME(action_of(at), CQ_DOOR_WAIT);
    tick_after(49 * 1000000);
    tick_after(2 * 1000000);
    SAME(taken_status(at), 200);
    OK(cq_door_disconnect(&door, at));
}

/* ------------------------------------------------------------------------------------------------------------------
 * Codes.
 */

static void tells_misuse(void) {
    uint32_t number = 7, action = 0;
    uint64_t count = 5, deadline = 9;
    uint8_t byte = 0;
    cq_door none = { 0 }, other = { 0 };
    SAME(cq_door_connect(&none, now, &number), CQ_MISUSED);
    SAME(cq_door_next(&none, 0, now, 0, &action, &count), CQ_MISUSED);
    SAME(cq_door_tick(&none, now, &deadline), CQ_MISUSED);
    SAME(cq_close_door(&none), CQ_MISUSED);
    SAME(cq_open_door(&service, (const uint8_t *)"x", 1, 6060, now, &door), CQ_MISUSED);
    SAME(cq_open_door(&service, (const uint8_t *)"\xff", 1, 6060, now, &other), CQ_ILLEGAL_ARGUMENT);
    for (uint32_t at = 0; at < 40; at++) {
        SAME(cq_door_next(&door, at, now, 0, &action, &count), CQ_NONE);
        SAME(cq_door_feed(&door, at, &byte, 1, now, &count), CQ_NONE);
        SAME(cq_door_output(&door, at, &byte, 1, &count), CQ_NONE);
        SAME(cq_door_end(&door, at, now), CQ_NONE);
        SAME(cq_door_written(&door, at, 1, now), CQ_NONE);
        SAME(cq_door_disconnect(&door, at), CQ_NONE);
    }
    SAME(cq_door_next(&door, UINT32_MAX, now, 0, &action, &count), CQ_NONE);
    SAME(number, 7);
    SAME(count, 5);
    SAME(deadline, 9);
}

/* Without memory for a first connection, none is taken in, though there is room for 16. */
static void lacks_memory(void) {
    uint32_t number = 77;
    heap_refuse_after(0);
    SAME(cq_door_connect(&door, now, &number), CQ_OUT_OF_MEMORY);
    SAME(number, 77);
    heap_refuse_after(-1);
    OK(cq_door_connect(&door, now, &number));
    SAME(number, 0);
    OK(cq_door_disconnect(&door, number));
}

static void fills(void) {
    uint32_t at[CQ_DOOR_CONNECTIONS], number = 77;
    for (size_t i = 0; i < CQ_DOOR_CONNECTIONS; i++) {
        at[i] = connected();
        now += 1000000;
    }
    SAME(cq_door_connect(&door, now, &number), CQ_FULL);
    SAME(action_of(at[0]), CQ_DOOR_CLOSE);
    for (size_t i = 1; i < CQ_DOOR_CONNECTIONS; i++) {
        SAME(action_of(at[i]), CQ_DOOR_WAIT);
    }
    OK(cq_door_disconnect(&door, at[0]));
    OK(cq_door_connect(&door, now, &number));
    SAME(number, at[0]);
    for (size_t i = 0; i < CQ_DOOR_CONNECTIONS; i++) {
        OK(cq_door_disconnect(&door, at[i]));
    }
}

int main(int argc, char **argv) {
    uint64_t streams = argc > 1 ? strtoull(argv[1], NULL, 10) : 100000, seed = argc > 2 ? strtoull(argv[2], NULL, 10) : 1;
    OK(cq_make(4, 1, 4, CQ_CAN_SUSPEND | CQ_CAN_POP_FRAME, &service));
    OK(cq_attach_thread(&service, (const uint8_t *)"still", 5, 5, &thread));
    OK(cq_start(&thread));
    OK(cq_open_door(&service, (const uint8_t *)"test", 4, 6060, now, &door));
    tells_misuse();
    lacks_memory();
    tick_after(1);
    gives_a_head_five_seconds();
    closes_who_is_idle();
    closes_who_does_not_read();
    waits_for_a_stack();
    fills();
    feeds_at_random(streams, seed);
    OK(cq_close_door(&door));
    SAME(cq_close_door(&door), CQ_MISUSED);
    OK(cq_end(&thread));
    OK(cq_detach_thread(&thread));
    OK(cq_free(&service));
    SAME(heap_blocks(), 0);
    return 0;
}
