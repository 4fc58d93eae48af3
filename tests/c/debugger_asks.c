/* debugger_asks.c: what a debugger asks of threads and classes, and its replies. They are worked out from what debugger.c defines. */
#include "debugger.h"

#define TEXT_OF(number) #number
#define TEXT(number) TEXT_OF(number)
#define VERSION TEXT(CQ_VERSION_MAJOR) "." TEXT(CQ_VERSION_MINOR) "." TEXT(CQ_VERSION_PATCH)

#define HOST "0000000400000001"
#define LATE_CLASS "0000000400000002"
#define NO_CLASS "0000000400000009"
#define OUTER "0000000600000000"
#define INNER "0000000600000001"
#define SLEEP "0000000600000002"
#define GROUP "0000000200000000"

/* ------------------------------------------------------------------------------------------------------------------
 * Replies.
 */

/* The requests of jdb's attach, in their order. */
static void tells_who_attaches(void) {
    asks(1, 7, "", 0, "00000008 00000008 00000008 00000008 00000008");
    asks(15, 1, "08 00 00000000", 0, "00000001");
    asks(15, 1, "09 00 00000000", 0, "00000002");
    asks(15, 1, "08 02 00000002 05 s:java.lang.Throwable 01 00000001", 0, "00000003");
    asks(1, 1, "", 0, "s:tests 00000001 00000005 s:" VERSION " s:tests");
    asks(1, 20, "", 0, "00000002 01" WORK "s:Lscripts/work; 00000000 00000007 01" HOST "s:Lhost; 00000000 00000007");
    asks(15, 1, "06 02 00000000", 0, "00000004");
    asks(15, 1, "07 02 00000000", 0, "00000005");
    asks(1, 13, "", 0, "s:/src 00000001 s:/src 00000000");
    asks(1, 17, "", 0, "0000000000000000 0000000000010000 0000000000000000 0000000000000000");
    asks(1, 12, "", 0, "00000000000000");
}

static void tells_of_threads(void) {
    asks(1, 4, "", 0, "00000002" WORKER SLEEPER);
    asks(1, 5, "", 0, "00000001" GROUP);
    asks(12, 3, GROUP, 0, "00000002" WORKER SLEEPER "00000000");
    asks(11, 1, WORKER, 0, "s:worker");
    asks(11, 1, SLEEPER, 0, "s:sleeper");
    asks(11, 5, WORKER, 0, GROUP);
    asks(11, 4, WORKER, 0, "00000001 00000000");
    asks(11, 4, SLEEPER, 0, "00000002 00000000");
    asks(11, 12, WORKER, 0, "00000000");
    asks(9, 1, WORKER, 0, "01 0000000800000000");
}

static void tells_of_classes(void) {
    asks(1, 2, "s:Lhost;", 0, "00000001 01" HOST "00000007");
    asks(1, 2, "s:Lhosu;", 0, "00000000");
    asks(2, 1, WORK, 0, "s:Lscripts/work;");
    asks(2, 13, HOST, 0, "s:Lhost; 00000000");
    asks(2, 7, WORK, 0, "s:work.x");
    asks(2, 15, WORK, 0, "00000002" OUTER "s:outer s:()V 00000000 00000009" INNER "s:inner s:()V 00000000 00000009");
    asks(2, 15, HOST, 0, "00000001" SLEEP "s:sleep s:()V 00000000 00000109");
    asks(3, 1, WORK, 0, "0000000000000000");
    asks(2, 10, WORK, 0, "00000000");
    asks(2, 14, WORK, 0, "00000000");
}

static void refuses_what_is_not_there(void) {
    asks(11, 1, NOBODY, 10, "");
    asks(11, 4, NOBODY, 10, "");
    asks(11, 2, NOBODY, 10, "");
    asks(11, 1, WORK, 10, "");
    asks(9, 1, WORK, 20, "");
    asks(2, 1, NO_CLASS, 21, "");
    asks(2, 15, NO_CLASS, 21, "");
    asks(2, 7, HOST, 101, "");
    asks(6, 1, WORK SLEEP, 23, "");
    asks(6, 1, HOST SLEEP, 511, "");
    asks(11, 6, WORKER "00000000 ffffffff", 13, "");
    asks(11, 7, WORKER, 13, "");
    asks(1, 10, "00000000", 99, "");
    asks(16, 2, "", 99, "");
    asks(15, 1, "04 02 00000000", 99, "");
    asks(15, 1, "01 02 00000000", 103, "");
    asks(15, 1, "02 02 00000000", 103, "");
    asks(15, 1, "02 02 00000001 03 0000000000000001", 103, "");
    asks(15, 1, "02 01 00000001 07 01 0000000400000000 0000000600000002 0000000000000005", 23, "");
    asks(15, 1, "02 01 00000001 07 01 0000000400000001 0000000600000002 0000000000000005", 24, "");
    asks(15, 1, "63 03 00000000", 103, "");
    asks(15, 1, "0b 00 00000000", 102, "");
}

/* Lengths and counts that do not fit what is there. */
static void refuses_what_is_malformed(void) {
    asks(1, 7, "00", 103, "");
    asks(11, 1, "00000000000001", 103, "");
    asks(11, 1, WORKER "00", 103, "");
    asks(1, 2, "00000007 4c686f73743b", 103, "");
    asks(1, 2, "ffffffff", 103, "");
    asks(1, 2, "7fffffff", 103, "");
    asks(1, 14, "00000001", 103, "");
    asks(6, 5, WORK, 103, "");
    asks(16, 1, WORKER OUTER "00000001", 103, "");
    asks(16, 1, WORKER OUTER "00001001", 103, "");
    asks(16, 1, WORKER OUTER "ffffffff", 103, "");
    asks(15, 1, "06 00 ffffffff", 103, "");
    asks(15, 1, "06 00 40000000", 103, "");
    asks(15, 1, "06 00 00000001 01 00000000", 103, "");
    asks(15, 1, "06 00 00000001 0e", 103, "");
    asks(11, 4, WORKER, 0, "00000001 00000000");
}

/* ------------------------------------------------------------------------------------------------------------------
 * Events.
 */

/* What is written is one event packet, with this data. It is taken. */
static void told(const char *data) {
    static packet wanted;
    static uint8_t bytes[LONGEST_PACKET];
    uint64_t count = 0;
    SAME(action_now(), CQ_DOOR_WRITE);
    OK(cq_door_output(&door, 0, bytes, sizeof bytes, &count));
    CHECK(count >= HEAD);
    make_request(&wanted, number_at(bytes + 4, 4), 64, 100, data);
    check_bytes(bytes, count, &wanted);
    OK(cq_door_written(&door, 0, count, now));
}

/* A thread that comes and goes is told, with the requests 4 and 5 of the attach. It keeps its name. */
static void tells_of_lives(void) {
    cq_thread late = { 0 };
    OK(cq_attach_thread(&service, (const uint8_t *)"late", 4, 5, &late));
    OK(cq_start(&late));
    tick_after(MILLISECOND);
    told("00 00000001 06 00000004 0000000000000003");
    asks(1, 4, "", 0, "00000003" WORKER SLEEPER "0000000000000003");
    OK(cq_end(&late));
    OK(cq_detach_thread(&late));
    tick_after(MILLISECOND);
    told("00 00000001 07 00000005 0000000000000003");
    asks(1, 4, "", 0, "00000002" WORKER SLEEPER);
    asks(11, 1, "0000000000000003", 0, "s:late");
    asks(11, 4, "0000000000000003", 0, "00000000 00000000");
    asks(15, 2, "06 00000004", 0, "");
    asks(15, 2, "07 00000005", 0, "");
}

/* A class that is defined meanwhile is told, with the request 1 of the attach and a thread that is there. Its source file is told
 * without folders: they are those of the class. */
static void tells_of_late_classes(void) {
    static const cq_method_strings methods[] = { { .name = "late", .lines_kind = CQ_LINES_LOCATIONS, .first_line = 1 } };
    uint32_t class_no = 0, first = 0;
    OK(cq_define_class_strings(&service, "Lscripts/late;", "scripts/late.x", methods, 1, &class_no, &first));
    tick_after(MILLISECOND);
    told("00 00000001 08 00000001" WORKER "01" LATE_CLASS "s:Lscripts/late; 00000007");
    asks(2, 7, LATE_CLASS, 0, "s:late.x");
    asks(1, 2, "s:Lscripts/late;", 0, "00000001 01" LATE_CLASS "00000007");
}

/* ------------------------------------------------------------------------------------------------------------------
 * Connections.
 */

/* A debugger that disposes of its session has a reply, and then the door closes. */
static void says_goodbye(void) {
    attach();
    ask(1, 6, "");
    replied(0, "");
    SAME(action_now(), CQ_DOOR_CLOSE);
    detach();
}

static void closes_on(const void *bytes, size_t count) {
    feed_bytes(bytes, count);
    SAME(action_now(), CQ_DOOR_CLOSE);
    detach();
}

static void closes_what_is_no_debugger(void) {
    static const uint8_t shorter[HEAD] = { 0, 0, 0, 10 }, longer[HEAD] = { 0, 1, 0, 1 }, huge[HEAD] = { 0xff, 0xff, 0xff, 0xff };
    connect_debugger();
    closes_on("GET / HTTP/1.1\r\n\r\n", 18);
    connect_debugger();
    closes_on("JDWP-Handshakf", 14);
    attach();
    closes_on(shorter, HEAD);
    attach();
    closes_on(longer, HEAD);
    attach();
    closes_on(huge, HEAD);
}

/* A debugger that sends no more is answered what came whole. */
static void answers_who_has_ended(void) {
    attach();
    ask(11, 1, WORKER);
    feed_bytes("\0\0\0", 3);
    OK(cq_door_end(&door, 0, now));
    replied(0, "s:worker");
    SAME(action_now(), CQ_DOOR_CLOSE);
    detach();
}

/* The longest packet is taken in pieces, and nothing beyond it. */
static void takes_long_packets(void) {
    static uint8_t bytes[LONGEST_PACKET + 100];
    static packet head;
    uint64_t taken = 0;
    make_request(&head, 7, 1, 7, "");
    memcpy(bytes, head.bytes, HEAD);
    memcpy(bytes, "\0\1\0\0", 4);
    attach();
    feed_bytes(bytes, 1);
    feed_bytes(bytes + 1, 9);
    SAME(action_now(), CQ_DOOR_WAIT);
    OK(cq_door_feed(&door, 0, bytes + 10, sizeof bytes - 10, now, &taken));
    SAME(taken, LONGEST_PACKET - 10);
    OK(cq_door_feed(&door, 0, bytes, 1, now, &taken));
    SAME(taken, 0);
    SAME(action_now(), CQ_DOOR_WRITE);
    detach();
}

void tells_what_there_is(void) {
    begin_runtime();
    open_debugger();
    attach();
    tells_who_attaches();
    tells_of_threads();
    tells_of_classes();
    refuses_what_is_not_there();
    refuses_what_is_malformed();
    tells_of_lives();
    tells_of_late_classes();
    detach();
    says_goodbye();
    closes_what_is_no_debugger();
    answers_who_has_ended();
    takes_long_packets();
    SAME(resumptions(), 0);
    close_debugger();
    end_runtime();
}
