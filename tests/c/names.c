/* names.c: each code has its name and a text, and no other number has one. The names and numbers here are written by hand. */
#include "check.h"

typedef struct {
    uint32_t code;
    const char *name;
} named;

static const named NAMES[] = {
    { 0, "CQ_OK" },
    { 10, "CQ_INVALID_THREAD" },
    { 13, "CQ_THREAD_NOT_SUSPENDED" },
    { 14, "CQ_THREAD_SUSPENDED" },
    { 15, "CQ_THREAD_NOT_ALIVE" },
    { 21, "CQ_INVALID_CLASS" },
    { 23, "CQ_INVALID_METHODID" },
    { 24, "CQ_INVALID_LOCATION" },
    { 31, "CQ_NO_MORE_FRAMES" },
    { 32, "CQ_OPAQUE_FRAME" },
    { 40, "CQ_DUPLICATE" },
    { 41, "CQ_NOT_FOUND" },
    { 98, "CQ_NOT_AVAILABLE" },
    { 99, "CQ_MUST_POSSESS_CAPABILITY" },
    { 101, "CQ_ABSENT_INFORMATION" },
    { 103, "CQ_ILLEGAL_ARGUMENT" },
    { 104, "CQ_NATIVE_METHOD" },
    { 110, "CQ_OUT_OF_MEMORY" },
    { 201, "CQ_OVERFLOW" },
    { 202, "CQ_NO_FRAME" },
    { 203, "CQ_NOT_JAVA_FRAME" },
    { 204, "CQ_NOT_RUNNING" },
    { 205, "CQ_NOT_SAFE" },
    { 206, "CQ_BARRED" },
    { 207, "CQ_NO_NATIVE_FRAME" },
    { 208, "CQ_OWN_SPENT" },
    { 209, "CQ_CALLS_SPENT" },
    { 210, "CQ_NOT_NEW" },
    { 211, "CQ_ALREADY_STOPPED" },
    { 213, "CQ_STILL_RUNNING" },
    { 214, "CQ_TIMED_OUT" },
    { 215, "CQ_BUSY" },
    { 216, "CQ_FULL" },
    { 301, "CQ_HELD" },
    { 302, "CQ_WAITING" },
    { 303, "CQ_NONE" },
    { 304, "CQ_MISUSED" },
    { 305, "CQ_POPPED" },
    { 306, "CQ_SYSTEM" },
};
enum { COUNT = sizeof NAMES / sizeof *NAMES, BEYOND = 100000 };
static const char NO_NAME[] = "unknown", NO_TEXT[] = "there is no such code";

static void same_text(const char *found, const char *wanted) {
    if (strcmp(found, wanted) != 0) {
        fprintf(stderr, "it is \"%s\", and not \"%s\"\n", found, wanted);
        exit(1);
    }
}

/* A text that a program can put into a line of its own. */
static bool is_plain(const char *text) {
    for (const char *at = text; *at; at++) {
        if (*at < ' ' || *at > '~' || *at == '`') {
            return false;
        }
    }
    return strlen(text) >= 10;
}

static void each_code_is_named(void) {
    uint32_t at = 0;
    for (uint32_t code = 0; code < BEYOND; code++) {
        bool named = at < COUNT && NAMES[at].code == code;
        same_text(cq_code_name(code), named ? NAMES[at].name : NO_NAME);
        CHECK(named == (strcmp(cq_code_text(code), NO_TEXT) != 0));
        CHECK(is_plain(cq_code_text(code)));
        at += named;
    }
    SAME(at, COUNT);
}

static void no_two_texts_are_the_same(void) {
    for (uint32_t one = 0; one < COUNT; one++) {
        for (uint32_t two = 0; two < one; two++) {
            CHECK(strcmp(cq_code_text(NAMES[one].code), cq_code_text(NAMES[two].code)) != 0);
        }
    }
}

static void texts_are_those_of_the_header(void) {
    same_text(cq_code_text(CQ_OK), "it is done, or the answer is there");
    same_text(cq_code_text(CQ_THREAD_NOT_ALIVE), "the thread has not started, or has ended");
    same_text(cq_code_text(CQ_OUT_OF_MEMORY), "there is no memory for it");
    same_text(cq_code_text(CQ_TIMED_OUT), "the time is over");
    same_text(cq_code_text(CQ_FULL), "a bound other than memory leaves no room for it: the window, envs, the 65,536 threads that an "
                                     "environment may have met, or a count that no process reaches");
    same_text(cq_code_text(CQ_SYSTEM), "the operating system refused; errno says why");
}

static void other_numbers_have_none(void) {
    const uint32_t numbers[] = { 0x7FFFFFFF, 0x80000000, UINT32_MAX };
    for (size_t i = 0; i < sizeof numbers / sizeof *numbers; i++) {
        same_text(cq_code_name(numbers[i]), NO_NAME);
        same_text(cq_code_text(numbers[i]), NO_TEXT);
    }
}

int main(void) {
    each_code_is_named();
    no_two_texts_are_the_same();
    texts_are_those_of_the_header();
    other_numbers_have_none();
    return 0;
}
