/* debuggers.c: see debuggers.h. */
#include "debuggers.h"

#include <stdio.h>

enum { HEAD = 11, THREAD = HEAD + 10 };
static const char HANDSHAKE[] = "JDWP-Handshake";

static uint32_t number_at(const uint8_t *bytes, size_t size) {
    uint32_t number = 0;
    for (size_t i = 0; i < size; i++) number = number << 8 | bytes[i];
    return number;
}

/* A request is its length, its number, 0, the set, the command, and data. */
void ask(debugger *from, uint8_t set, uint8_t command, const char *data) {
    uint8_t bytes[100] = { [7] = (uint8_t)++from->asked, [9] = set, [10] = command };
    unsigned byte;
    size_t length = HEAD;
    for (int read; sscanf(data, "%2x%n", &byte, &read) == 1; data += read) bytes[length++] = (uint8_t)byte;
    bytes[3] = (uint8_t)length;
    say(from->at, bytes, length);
}

/* Hears a packet. Returns whether it is a reply, which has no error. */
static bool hears_reply(debugger *from) {
    uint8_t bytes[1000];
    hear(from->at, bytes, HEAD);
    uint32_t length = number_at(bytes, 4), error = number_at(bytes + 9, 2);
    bool is_reply = bytes[8] == 0x80;
    if (length > sizeof bytes) fail("a packet is too long");
    hear(from->at, bytes + HEAD, length - HEAD);
    if (!is_reply) from->thread = number_at(bytes + THREAD, 8);
    if (is_reply && (number_at(bytes + 4, 4) != from->asked || error != 0)) fail_with("a reply", error);
    return is_reply;
}

void await_reply(debugger *from) {
    while (!hears_reply(from)) from->events++;
}

void await_event(debugger *from) {
    if (from->events > 0) {
        from->events--;
    } else if (hears_reply(from)) {
        fail("a reply comes in place of an event");
    }
}

void attach(debugger *made, int server, size_t room) {
    char greeting[sizeof HANDSHAKE - 1];
    *made = (debugger){ .at = dial(server, room) };
    say(made->at, HANDSHAKE, sizeof greeting);
    hear(made->at, greeting, sizeof greeting);
}

void ask_for(debugger *from, const char *events) {
    ask(from, 15, 1, events);
    await_reply(from);
}

void resume_thread(debugger *from) {
    ask(from, 11, 3, from->thread == 1 ? "0000000000000001" : "0000000000000002");
    await_reply(from);
}

void resume_all(debugger *from) {
    ask(from, 1, 9, "");
    await_reply(from);
}
