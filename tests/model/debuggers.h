/* debuggers.h: debuggers, which speak the debug wire protocol to servers. An actor has them, and waits for their replies. */
#ifndef DEBUGGERS_H
#define DEBUGGERS_H

#include "sockets.h"

typedef struct {
    peer *at;
    uint32_t asked;   /* how many requests it has made */
    uint32_t events;  /* how many events have come that were not taken */
    uint32_t thread;  /* that of the last of them, 1 or 2 */
} debugger;

/* Connects to the server with this number, and exchanges the handshake. Its end takes so many bytes before they are read. */
void attach(debugger *made, int server, size_t room);

/* A request, whose data is in hexadecimal digits, and the reply to the last one. */
void ask(debugger *from, uint8_t set, uint8_t command, const char *data);
void await_reply(debugger *from);

/* The first event that was not taken. */
void await_event(debugger *from);

/* Asks for events: at lines of the method below, where the event's thread is suspended, and of classes, where all are. */
#define LINE "02 01 00000001 07 01 0000000400000000 0000000600000000 0000000000000001"
#define OTHER_LINE "02 01 00000001 07 01 0000000400000000 0000000600000000 0000000000000002"
#define CLASSES "08 02 00000000"
void ask_for(debugger *from, const char *events);

/* Resumes the thread of the last event. */
void resume_thread(debugger *from);
void resume_all(debugger *from);

#endif
