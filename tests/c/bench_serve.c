/* bench_serve.c: what a door costs, on the clock. The door's own time is made up, so nothing sleeps.
 *
 *     bench_serve [THREADS [STACKS]]
 *
 * It prints how long these take: counting a stack of 30 frames, encoding a profile of 20,000 different stacks, and /metrics and
 * /threads.json with 10,000 threads. */
#define _GNU_SOURCE
#include "../../c/cebdyraq_serve.h"
#include "check.h"

#include <time.h>

enum { FRAMES = 30, WRITTEN = 1 << 24 };

static cq_service service;
static cq_door door;
static uint64_t now = 1000000000;
static uint8_t written[WRITTEN];
static size_t written_count;

static double seconds(void) {
    struct timespec time;
    clock_gettime(CLOCK_MONOTONIC, &time);
    return (double)time.tv_sec + (double)time.tv_nsec / 1e9;
}

static void tick_after(uint64_t time) {
    uint64_t deadline = 0;
    now += time;
    OK(cq_door_tick(&door, now, &deadline));
}

/* Asks on a connection of its own, and gives its number. */
static uint32_t ask(const char *target) {
    char text[256];
    uint32_t connection = 0, action = 0;
    uint64_t taken = 0, room = 0;
    snprintf(text, sizeof text, "GET %s HTTP/1.1\r\nHost: localhost\r\n\r\n", target);
    OK(cq_door_connect(&door, now, &connection));
    OK(cq_door_feed(&door, connection, (const uint8_t *)text, strlen(text), now, &taken));
    OK(cq_door_next(&door, connection, now, 0, &action, &room));
    return connection;
}

/* Reads the answer whole, and closes the connection. */
static void read_answer(uint32_t connection) {
    uint32_t action = CQ_DOOR_WAIT;
    uint64_t room = 0, count = 0;
    written_count = 0;
    for (;;) {
        OK(cq_door_next(&door, connection, now, 0, &action, &room));
        if (action != CQ_DOOR_WRITE) {
            break;
        }
        CHECK(written_count < WRITTEN);
        OK(cq_door_output(&door, connection, written + written_count, WRITTEN - written_count, &count));
        OK(cq_door_written(&door, connection, count, now));
        written_count += count;
    }
    CHECK(written_count > 0 && !memcmp(written, "HTTP/1.1 200 ", 13));
    OK(cq_door_disconnect(&door, connection));
}

static void open_door(void) {
    OK(cq_make(64, 1, 4, CQ_CAN_SUSPEND | CQ_CAN_POP_FRAME, &service));
    OK(cq_open_door(&service, (const uint8_t *)"bench", 5, 65536, now, &door));
}

static void close_door(void) {
    OK(cq_close_door(&door));
    OK(cq_free(&service));
}

/* One thread, which has another stack at each tick. */
static void time_profile(uint32_t stacks) {
    cq_thread thread = { 0 };
    cq_frame frames[FRAMES];
    open_door();
    OK(cq_attach_thread(&service, (const uint8_t *)"one", 3, 5, &thread));
    OK(cq_start(&thread));
    tick_after(1);
    uint32_t connection = ask("/debug/pprof/profile?seconds=300&rate=1000");
    double counting = 0, began;
    for (uint32_t i = 0; i < stacks; i++) {
        for (uint32_t at = 0; at < FRAMES; at++) {
            frames[at] = (cq_frame){ at == 0 ? 100 + i % 200 : at == 1 ? 300 + i / 200 : at, (int64_t)at };
        }
        began = seconds();
        tick_after(1000000);
        counting += seconds() - began;
        OK(cq_set_frames(&thread, frames, FRAMES));
        OK(cq_poll(&thread));
    }
    began = seconds();
    OK(cq_door_end(&door, connection, now));
    read_answer(connection);
    printf("a tick of one thread with a stack of %d frames   %8.2f us\n", FRAMES, counting * 1e6 / stacks);
    printf("a profile of %u different stacks             %8.2f ms, %zu bytes\n", stacks, (seconds() - began) * 1e3, written_count);
    OK(cq_end(&thread));
    OK(cq_detach_thread(&thread));
    close_door();
}

static void time_threads(uint32_t count) {
    cq_thread *threads = calloc(count, sizeof *threads);
    open_door();
    for (uint32_t i = 0; i < count; i++) {
        OK(cq_attach_thread(&service, (const uint8_t *)"worker", 6, 5, &threads[i]));
        OK(cq_start(&threads[i]));
        OK(cq_enter(&threads[i], 7));
        OK(cq_block(&threads[i], CQ_PARK));
    }
    double began = seconds();
    tick_after(1);
    printf("meeting %u threads                           %8.2f ms\n", count, (seconds() - began) * 1e3);
    began = seconds();
    tick_after(100000000);
    printf("a probe of %u threads                        %8.2f ms\n", count, (seconds() - began) * 1e3);
    began = seconds();
    read_answer(ask("/metrics"));
    printf("/metrics with %u threads                     %8.2f ms, %zu bytes\n", count, (seconds() - began) * 1e3, written_count);
    began = seconds();
    uint32_t connection = ask("/threads.json");
    tick_after(1);
    tick_after(1000000);
    read_answer(connection);
    printf("/threads.json with %u threads                %8.2f ms, %zu bytes\n", count, (seconds() - began) * 1e3, written_count);
    for (uint32_t i = 0; i < count; i++) {
        OK(cq_back(&threads[i]));
        OK(cq_end(&threads[i]));
        OK(cq_detach_thread(&threads[i]));
    }
    close_door();
    free(threads);
}

int main(int argc, char **argv) {
    time_profile(argc > 2 ? (uint32_t)strtoul(argv[2], NULL, 10) : 20000);
    time_threads(argc > 1 ? (uint32_t)strtoul(argv[1], NULL, 10) : 10000);
    return 0;
}
