/* debugger_streams.c: see debugger_streams.h. */
#include "debugger_streams.h"

uint8_t stream[STREAM];
size_t stream_length;
uint32_t expected[PACKETS + STREAM / HEAD];
size_t expected_count;
static packet made;
static uint32_t thread_count;

/* ------------------------------------------------------------------------------------------------------------------
 * Data. A letter stands for each part of it: a (t)hread, a (f)rame, a (c)lass, a (m)ethod, a thread (g)roup, a (T)ext or a t(a)ble that
 * was told, a (n)umber, a te(x)t, a (k)ind of event, a (p)olicy, (M)odifiers, (s)lots.
 */

typedef struct { uint8_t set, command; const char *parts; } shape;

static const shape SHAPES[] = {
    { 1, 1, "" }, { 1, 2, "x" }, { 1, 4, "" }, { 1, 5, "" }, { 1, 7, "" }, { 1, 8, "" }, { 1, 8, "" }, { 1, 9, "" }, { 1, 9, "" },
    { 1, 10, "n" }, { 1, 12, "" }, { 1, 13, "" }, { 1, 14, "n" }, { 1, 15, "" }, { 1, 16, "" }, { 1, 17, "" }, { 1, 20, "" },
    { 2, 1, "c" }, { 2, 2, "c" }, { 2, 3, "c" }, { 2, 7, "c" }, { 2, 9, "c" }, { 2, 10, "c" }, { 2, 13, "c" }, { 2, 14, "c" },
    { 2, 15, "c" }, { 3, 1, "c" }, { 6, 1, "cm" }, { 9, 1, "t" }, { 9, 9, "t" }, { 11, 1, "t" }, { 11, 2, "t" }, { 11, 2, "t" },
    { 11, 3, "t" }, { 11, 3, "t" }, { 11, 4, "t" }, { 11, 5, "t" }, { 11, 6, "tnn" }, { 11, 6, "tnn" }, { 11, 7, "t" },
    { 11, 12, "t" }, { 12, 1, "g" }, { 12, 2, "g" }, { 12, 3, "g" }, { 15, 1, "kpM" }, { 15, 1, "kpM" }, { 15, 2, "kn" },
    { 15, 3, "" }, { 6, 2, "cm" }, { 6, 5, "cm" }, { 16, 1, "tfs" }, { 16, 1, "tfs" }, { 16, 1, "tfn" }, { 16, 3, "tf" }, { 16, 4, "tf" },
    { 10, 1, "T" }, { 13, 1, "a" }, { 13, 2, "ann" }, { 9, 1, "T" }, { 9, 1, "a" }, { 0, 0, "" }, { 255, 255, "n" },
};

/* One of a list. */
#define ONE_OF(list) ((list)[below(sizeof(list) / sizeof *(list))])

static uint64_t any_number(void) {
    static const uint64_t edges[] = { 0, 1, UINT64_MAX, 1ULL << 32, 1ULL << 33, 3ULL << 33, 4ULL << 33, 5ULL << 33, 6ULL << 33,
                                       7ULL << 33, 8ULL << 33, 9ULL << 33, 0x7fffffff, 0x80000000, 0xffffffff };
    return ONE_OF(edges);
}

static void add_id(uint64_t base, uint32_t count) {
    add_number(&made, below(12) == 0 ? any_number() : base + below(count), 8);
}

static void add_small(void) {
    static const uint32_t numbers[] = { 0, 0, 1, 2, UINT32_MAX, UINT32_MAX, 3, 1000, 1 << 30, INT32_MAX };
    add_number(&made, ONE_OF(numbers), 4);
}

static void add_one_text(void) {
    static const char *const texts[] = { "s:Lhost; ", "s:Lscripts/work; ", "s:*work ", "s:scripts.* ", "00000000", "7fffffff", "ffffffff41" };
    add_data(&made, ONE_OF(texts));
}

static void add_modifier(void) {
    static const char *const modifiers[] = {
        "01 00000001", "01 00000000", "02 00000001", "03 0000000000000001", "04 0000000400000000", "05 s:scripts.* ", "06 s:java.* ",
        "07 01 0000000400000000 0000000600000000 0000000000000005", "08 0000000000000000 01 01", "09 0000000400000000 0000000000000001",
        "0a 0000000000000001 00000001 00000000", "0b 0000000000000000", "0c s:work.x ", "0d", "0e", "ff", "05 7fffffff",
    };
    add_data(&made, ONE_OF(modifiers));
}

static void add_modifiers(void) {
    static const uint32_t counts[] = { 0, 0, 0, 0, 0, 0, 0, 0, 1, 1, 2, 3, 64, 65, UINT32_MAX, 1 << 30 };
    uint32_t count = ONE_OF(counts);
    add_number(&made, count, 4);
    for (uint32_t i = 0; i < count && i < 65; i++) {
        add_modifier();
    }
}

/* Slots that the runtime tells, and others. */
static void add_slots(void) {
    static const uint32_t counts[] = { 0, 1, 1, 2, 2, 6, 6, 20, 4096 };
    uint32_t count = ONE_OF(counts);
    add_number(&made, count, 4);
    for (uint32_t i = 0; i < count; i++) {
        add_number(&made, below(10) == 0 ? below(10) : below(6), 4);
        add_number(&made, 'L', 1);
    }
}

static void add_part(char part) {
    static const uint8_t kinds[] = { 6, 6, 6, 6, 7, 7, 7, 7, 8, 8, 8, 8, 9, 90, 99, 1, 2, 40, 0, 200 };
    switch (part) {
    case 't': add_id(1, thread_count); break;
    case 'f': add_id((uint64_t)below(thread_count) << 32, 3); break;
    case 'T': add_id(5ULL << 33, 6); break;
    case 'a': add_id(6ULL << 33, 3); break;
    case 's': add_slots(); break;
    case 'c': add_id(2ULL << 33, 3); break;
    case 'm': add_id(3ULL << 33, 4); break;
    case 'g': add_id(1ULL << 33, 1); break;
    case 'n': add_small(); break;
    case 'x': add_one_text(); break;
    case 'k': add_number(&made, ONE_OF(kinds), 1); break;
    case 'p': add_number(&made, below(below(8) == 0 ? 256 : 3), 1); break;
    case 'M': add_modifiers(); break;
    default: CHECK(!"there is such a part");
    }
}

/* ------------------------------------------------------------------------------------------------------------------
 * Packets.
 */

/* Adds random bytes, as far as there is room. */
static void add_random(uint32_t count) {
    for (; count > 0 && made.length < LONGEST_PACKET; count--) {
        add_number(&made, below(256), 1);
    }
}

static void set_number(size_t at, uint32_t number, size_t size) {
    size_t length = made.length;
    made.length = at;
    add_number(&made, number, size);
    made.length = length;
}

static void set_length(void) {
    set_number(0, (uint32_t)made.length, 4);
}

static uint32_t wrong_length(void) {
    static const uint32_t lengths[] = { 0, 4, 10, 65537, 1 << 30, 0x7fffffff, 0x80000000, UINT32_MAX, 11, 12, 65536 };
    return ONE_OF(lengths);
}

/* Does something to a packet that may make it wrong. */
static void change(void) {
    switch (below(10)) {
    case 0:
        made.length = HEAD + below((uint32_t)(made.length - HEAD) + 1);
        set_length();
        break;
    case 1:
    case 2:
        add_random(1 + below(20));
        set_length();
        break;
    case 3:
        made.length = HEAD;
        add_random(below(below(30) == 0 ? 3000 : 40));
        set_length();
        break;
    case 4:
        set_number(8, 0x80 + below(128), 1);
        break;
    case 5:
        set_number(8, below(128), 1);
        break;
    case 6:
        set_number(9, below(20), 1);
        set_number(10, below(24), 1);
        break;
    case 7:
        made.bytes[HEAD + below((uint32_t)(made.length - HEAD) + 1) - 1] = (uint8_t)below(256);
        break;
    case 8:
        set_number(0, wrong_length(), 4);
        break;
    case 9:
        add_random(below(below(10) == 0 ? 60000 : 100));
        set_length();
        break;
    }
}

static void make_packet(void) {
    const shape *of = &ONE_OF(SHAPES);
    bool is_last = below(60) == 0;
    make_request(&made, below(below(2) == 0 ? 1000 : UINT32_MAX), is_last ? 1 : of->set, is_last ? 6 : of->command, "");
    for (const char *part = is_last ? "" : of->parts; *part; part++) {
        add_part(*part);
    }
    set_length();
    if (below(5) == 0) {
        change();
    }
}

static void put(const void *bytes, size_t count) {
    if (stream_length + count <= STREAM) {
        memcpy(stream + stream_length, bytes, count);
        stream_length += count;
    }
}

static void put_handshake(void) {
    put(HANDSHAKE, 14);
    if (below(50) == 0) {
        stream[below(14)] = (uint8_t)below(256);
    }
}

/* Asks to be told of threads that start and end, and of classes. */
static void put_event_requests(void) {
    static const uint8_t kinds[] = { 6, 7, 8 };
    for (size_t i = 0; i < sizeof kinds; i++) {
        make_request(&made, below(1000), 15, 1, "");
        add_number(&made, kinds[i], 1);
        add_number(&made, below(3), 1);
        add_number(&made, 0, 4);
        set_length();
        put(made.bytes, made.length);
    }
}

void make_stream(uint32_t threads) {
    uint32_t packets = below(below(8) == 0 ? PACKETS : 10);
    thread_count = threads;
    stream_length = 0;
    put_handshake();
    if (below(3) == 0) {
        put_event_requests();
    }
    for (uint32_t i = 0; i < packets; i++) {
        make_packet();
        put(made.bytes, made.length);
    }
    if (below(10) == 0) {
        stream_length = below((uint32_t)stream_length + 1);
    }
    if (below(20) == 0) {
        made.length = 0;
        add_random(below(200));
        put(made.bytes, made.length);
    }
}

/* ------------------------------------------------------------------------------------------------------------------
 * What has to be replied to: each whole request behind the handshake, up to one that ends the session.
 */

static bool is_dispose(const uint8_t *head, uint32_t length) {
    return length == HEAD && head[9] == 1 && head[10] == 6;
}

void read_stream(void) {
    size_t at = 14;
    expected_count = 0;
    if (stream_length < 14 || memcmp(stream, HANDSHAKE, 14) != 0) {
        return;
    }
    while (stream_length - at >= HEAD) {
        const uint8_t *head = stream + at;
        uint32_t length = number_at(head, 4);
        if (length < HEAD || length > LONGEST_PACKET || length > stream_length - at) {
            return;
        }
        at += length;
        if (head[8] >= 0x80) {
            continue;
        }
        expected[expected_count++] = number_at(head + 4, 4);
        if (is_dispose(head, length)) {
            return;
        }
    }
}
