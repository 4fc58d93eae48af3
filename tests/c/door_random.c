/* door_random.c: random streams of bytes, cut at random. Whatever comes, what the door writes are whole answers with statuses that
 * it knows, no more than there were ends of lines, and nothing after a close. */
#include "chance.h"
#include "door.h"

#include <ctype.h>

enum { LONGEST = 3000, WRITTEN = 1 << 17 };

uint64_t chance;
static char stream[LONGEST + 512];
static size_t length;
static char written[WRITTEN + 1];
static size_t written_count;

/* Parts of requests, by where they stand in one. Those at the front of each list are right. */
static const char *const METHODS[] = { "GET ", "GET ", "HEAD ", "POST ", "BREW ", "get " };
static const char *const TARGETS[] = {
    "/", "/metrics", "/threads", "/threads.json", "/debug/pprof/threads?debug=2", "/debug/pprof/profile?seconds=1&rate=1000",
    "/debug/pprof/profile?seconds=0", "/threads?x", "/nothing", "http://localhost/", "/%2e", "*",
};
static const char *const VERSIONS[] = { " HTTP/1.1\r\n", " HTTP/1.1\r\n", " HTTP/1.0\r\n", " HTTP/2.0\r\n", "\r\n", " HTTP/1.1\n" };
static const char *const HOSTS[] = { "Host: localhost\r\n", "Host: [::1]:6060\r\n", "Host: example.org\r\n", "", "Host: localhost\r\nHost: localhost\r\n" };
static const char *const FIELDS[] = {
    "", "", "A: b\r\n", "Connection: close\r\n", "Connection: keep-alive\r\n", "Content-Length: 0\r\n", "Content-Length: 7\r\n",
    "Transfer-Encoding: chunked\r\n", "Sec-Fetch-Site: cross-site\r\n", ": c\r\n", "Content-Length: x\r\n",
};
static const char *const ENDS[] = { "\r\n", "\r\n", "\r\n", "\n", "" };

static void add(const char *text) {
    size_t count = strlen(text);
    memcpy(stream + length, text, count);
    length += count;
}

/* Adds one of a list, most often one of the first two. */
static void add_one(const char *const *list, uint32_t count) {
    add(list[below(5) == 0 ? below(count) : below(2)]);
}

#define ADD_ONE(list) add_one(list, sizeof list / sizeof *list)

static void add_request(void) {
    ADD_ONE(METHODS);
    add(TARGETS[below(sizeof TARGETS / sizeof *TARGETS)]);
    ADD_ONE(VERSIONS);
    ADD_ONE(HOSTS);
    for (uint32_t count = below(3); count > 0; count--) {
        ADD_ONE(FIELDS);
    }
    ADD_ONE(ENDS);
}

static void add_bytes(uint32_t count, uint32_t least, uint32_t kinds) {
    for (; count > 0; count--) {
        stream[length++] = (char)(least + below(kinds));
    }
}

/* Some requests. In one of four streams bytes are changed or put in. */
static void make_stream(void) {
    uint32_t requests = 1 + below(6);
    length = 0;
    for (uint32_t i = 0; i < requests && length < LONGEST - 1000; i++) {
        add_request();
    }
    switch (below(12)) {
    case 0:
        stream[below((uint32_t)length)] = (char)below(256);
        break;
    case 1:
        add_bytes(below(300), 0, 256);
        break;
    case 2:
        add_bytes(below(300), 'a', 26);
        break;
    }
}

/* Takes some of what is to be written. */
static void take_some(uint32_t connection) {
    uint64_t count = 0, room = 1 + below(5000);
    CHECK(written_count + room <= WRITTEN);
    OK(cq_door_output(&door, connection, (uint8_t *)written + written_count, room, &count));
    CHECK(count > 0 && count <= room);
    OK(cq_door_written(&door, connection, count, now));
    written_count += count;
}

static size_t fed(uint32_t connection, size_t at) {
    size_t count = 1 + below(below(4) == 0 ? 600 : 60);
    uint64_t taken = 0;
    count = count < length - at ? count : length - at;
    OK(cq_door_feed(&door, connection, (const uint8_t *)stream + at, count, now, &taken));
    CHECK(taken <= count);
    return taken;
}

/* Feeds the stream, and lets the door write, until it closes or has answered all that it will. */
static void run_stream(uint32_t connection) {
    size_t at = 0;
    bool ended = false;
    for (int idle = 0; idle < 150;) {
        uint32_t action = action_of(connection);
        if (action == CQ_DOOR_CLOSE) {
            return;
        }
        if (action == CQ_DOOR_WRITE) {
            take_some(connection);
        } else if (at < length) {
            size_t taken = fed(connection, at);
            at += taken;
            if (taken == 0) {
                tick_after(60000000);
            }
        } else if (!ended) {
            OK(cq_door_end(&door, connection, now));
            ended = true;
        } else {
            tick_after(60000000);
            idle++;
        }
    }
    CHECK(!"the door closes behind a peer that has ended");
}

static bool is_known(int status) {
    static const int known[] = { 200, 400, 403, 404, 405, 413, 414, 421, 431, 501, 503, 505 };
    for (size_t i = 0; i < sizeof known / sizeof *known; i++) {
        if (status == known[i]) {
            return true;
        }
    }
    return false;
}

/* How many requests can have come: each but the last has an empty line behind it. */
static size_t most_requests(void) {
    size_t count = 1;
    for (size_t i = 0; i + 3 < length; i++) {
        count += !memcmp(stream + i, "\r\n\r\n", 4);
    }
    return count;
}

/* What was written is whole answers. The body of an answer to HEAD is not there, so none has to be. */
static void check_written(void) {
    size_t at = 0, answers = 0;
    written[written_count] = 0;
    while (at < written_count) {
        int status = 0;
        char *end = strstr(written + at, "\r\n\r\n"), *field = strstr(written + at, "\r\nContent-Length: ");
        SAME(sscanf(written + at, "HTTP/1.1 %d ", &status), 1);
        CHECK(is_known(status) && end != NULL && field != NULL && field < end);
        size_t body = strtoull(field + 18, NULL, 10), next = (size_t)(end - written) + 4;
        bool is_whole = next + body == written_count || (next + body < written_count && !memcmp(written + next + body, "HTTP/1.1 ", 9));
        at = is_whole ? next + body : next;
        CHECK(is_whole || at == written_count || !memcmp(written + at, "HTTP/1.1 ", 9));
        answers++;
    }
    CHECK(answers <= most_requests());
}

void feeds_at_random(uint64_t streams, uint64_t seed) {
    seed_chance(seed);
    for (uint64_t i = 0; i < streams; i++) {
        uint32_t connection = connected();
        make_stream();
        written_count = 0;
        run_stream(connection);
        check_written();
        OK(cq_door_disconnect(&door, connection));
        if (below(8) == 0) {
            tick_after(1000000);
        }
    }
}
