/* cebdyraq_serve.h: a service at a socket, for profilers, monitors and debuggers.
 *
 *     static cq_server server, debugger;
 *     if (cq_serve(&server, &service, &signal, "127.0.0.1:6060", "my program") != CQ_OK) perror("cq_serve");
 *     if (cq_debug_listen(&debugger, &service, &signal, "127.0.0.1:5005", "my program", "/my/sources") != CQ_OK)
 *         perror("cq_debug_listen");
 *     ...
 *     cq_serve_end(&debugger);
 *     cq_serve_end(&server);
 *
 * Then `go tool pprof http://127.0.0.1:6060/debug/pprof/profile?seconds=5` profiles the threads of the service, Prometheus scrapes
 * /metrics, and a person reads / and /threads. `jdb -attach 127.0.0.1:5005` lists the threads, suspends and resumes them, and shows
 * their stacks. Names and lines are those that the runtime has given by cq_define_class.
 *
 * WHAT IS SERVED OVER HTTP
 *
 *   /                        what there is, as text
 *   /threads, /threads.json  each thread with its state and its stack, the newest frame first
 *   /metrics                 counters, in Prometheus' text format 0.0.4
 *   /debug/pprof/profile     the stacks of all threads over `seconds`, 1 to 300 (30), at `rate` a second, 1 to 1,000 (100), for
 *                            pprof. labels=none, thread, state or thread,state says which labels samples have (both)
 *   /debug/pprof/threads     the stacks of all threads now, for pprof; debug=1 and debug=2 as text
 *
 * A thread that does not poll has 50 ms to answer, and is shown without a stack then.
 *
 * WHO IS SERVED OVER HTTP
 *
 * Whoever reaches the address: the users of this machine at a port, and this user alone at a Unix socket, whose file has the mode
 * 0600. There is no password and no TLS; a proxy adds them. Only GET and HEAD are answered, and nothing of it changes a thread. A
 * Host of another name is refused with 421, and a page of another site with 403. There are 16 connections and two profiles at
 * once at the most. An answer is to be taken by 64 KB in each 10 s, or its connection is closed. A newcomer that finds no place takes
 * that of a connection that is idle, or of the one whose peer has been slow longest, and for a second.
 *
 * WHAT A DEBUGGER MAY DO
 *
 * It speaks the Java Debug Wire Protocol of Java 8, as jdb and the Java debuggers of editors do. It reads threads, stacks, classes,
 * methods and lines, is told of threads that start and end, of classes that come and of the end, and suspends and resumes threads. It
 * sets breakpoints and steps, where the runtime says what its threads reach (cq_reached). It reads variables of suspended threads,
 * where the runtime tells them (cq_server_variables), and pops frames of them, where the runtime's threads go on without
 * (cq_server_pops_frames). Its suspensions of a thread nest. When it goes, the threads that it has suspended or stopped go on, and
 * those that another environment has suspended stay so.
 *
 * WHO MAY DEBUG
 *
 * One debugger at a time, if its process belongs to root or to this process's effective user. Any other connection is closed at
 * once, and the debugger that is there goes on. One that has not greeted within two seconds is closed too. At a port,
 * /proc/net/tcp and /proc/net/tcp6 tell the user; a connection that they do not have is closed. There is no password and no TLS;
 * ssh forwards a port from elsewhere.
 *
 * In a user namespace the system shows all users that are not mapped there as one, the overflow user (65534, see
 * /proc/sys/kernel/overflowuid). That user is refused, also where this process runs as it. So root is refused in a namespace that
 * does not map root, and a process whose own user is not mapped can be debugged by root alone, if root is mapped.
 *
 * It is for Linux. The doors below, which read requests and answer them, are proved; the loop over sockets is not.
 */
#ifndef CEBDYRAQ_SERVE_H
#define CEBDYRAQ_SERVE_H

#include "cebdyraq_wait.h"

#ifdef __cplusplus
extern "C" {
#endif

/* ------------------------------------------------------------------------------------------------------------------
 * The door: requests in, answers out. It has no socket, no clock and no thread, so a program may have its own loop around it. There
 * are doors for HTTP (cq_open_door) and doors for debuggers (cq_open_debugger). The latter have one connection, whose number is 0.
 *
 * Times are nanoseconds of a clock that never goes back, such as CLOCK_MONOTONIC. A handle is zeros at first, and is used by one
 * thread at a time. No function waits. Each gives CQ_MISUSED 304, and changes nothing, if the handle is empty.
 */

/* A handle of a door. Zeros at first. */
typedef struct { uint32_t kind; void *at; } cq_door;

/* How many connections a door for HTTP has at most. */
enum { CQ_DOOR_CONNECTIONS = 16 };

/* What is to be done with a connection's socket. */
enum cq_door_action {
    CQ_DOOR_WAIT = 0,   /* nothing, until the socket gives more, or the next tick */
    CQ_DOOR_WRITE = 1,  /* write what cq_door_output gives, and tell how much it took by cq_door_written */
    CQ_DOOR_CLOSE = 2,  /* close it, and tell that by cq_door_disconnect */
    CQ_DOOR_ASK = 3     /* answer the question that cq_door_question gives */
};

/* Opens a door for HTTP: attaches an environment of its own to the service. `program` is what a profile calls the program, in
 * UTF-8. `port` is that at which hosts are served: only `localhost`, `127.0.0.1` and `[::1]`, alone or with this port, are hosts
 * then. Above 65,535 every host is served, as at a Unix socket, which no page of the web reaches.
 *
 *   CQ_MISUSED 304           `service` is empty, or `door` is full
 *   CQ_ILLEGAL_ARGUMENT 103  `program` is not UTF-8
 *   CQ_OUT_OF_MEMORY 110     there is no memory
 *   CQ_FULL 216              there are as many environments as the limits allow
 *   CQ_BUSY 215              the list of threads is in use */
uint32_t cq_open_door(cq_service *service, const uint8_t *program, size_t length, uint32_t port, uint64_t now,
                      cq_door *door) CQ_MUST_USE;

/* Opens a door for debuggers: attaches an environment of its own, with CQ_CAN_SUSPEND, to the service. `program` is the name that a
 * debugger is told, and `path` the directory in which it looks for source files, both in UTF-8. The codes are those of
 * cq_open_door; CQ_ILLEGAL_ARGUMENT 103 is also for a `path` that is not UTF-8. */
uint32_t cq_open_debugger(cq_service *service, const uint8_t *program, size_t program_length, const uint8_t *path,
                          size_t path_length, uint64_t now, cq_door *door) CQ_MUST_USE;

/* Takes a new connection in. Writes its number to `connection`, below CQ_DOOR_CONNECTIONS. With CQ_FULL 216 all are in use. Then,
 * at a door for HTTP, the one that has been idle longest, if one is idle, is to be closed (cq_door_next); at one for debuggers
 * nothing changes. CQ_OUT_OF_MEMORY 110: there are fewer, and no memory for one more. Nothing changes. */
uint32_t cq_door_connect(cq_door *door, uint64_t now, uint32_t *connection) CQ_MUST_USE;

/* What is to be done with a connection. Writes one of CQ_DOOR_.. to `action`, and to `room` how many bytes cq_door_feed takes, at
 * most 8,192, or 65,536 from a debugger. A debugger's requests are answered here. `unix_time` is in nanoseconds since 1970, or 0;
 * only HTTP uses it. CQ_NONE 303: there is no such connection. CQ_OUT_OF_MEMORY 110: call again. */
uint32_t cq_door_next(cq_door *door, uint32_t connection, uint64_t now, uint64_t unix_time, uint32_t *action,
                      uint64_t *room) CQ_MUST_USE;

/* Takes bytes that a socket gave, as many as there is room for, and writes their number to `taken`. CQ_NONE 303,
 * CQ_OUT_OF_MEMORY 110: none was taken. */
uint32_t cq_door_feed(cq_door *door, uint32_t connection, const uint8_t *bytes, size_t count, uint64_t now,
                      uint64_t *taken) CQ_MUST_USE;

/* The peer sends no more. What came whole is answered, and a profile that it waits for ends now. CQ_NONE 303. */
uint32_t cq_door_end(cq_door *door, uint32_t connection, uint64_t now);

/* Writes the first bytes of what is to be written, as far as there is `room`, and their number to `count`. CQ_NONE 303. */
uint32_t cq_door_output(cq_door *door, uint32_t connection, uint8_t *bytes, size_t room, uint64_t *count) CQ_MUST_USE;

/* The socket took so many of these bytes. CQ_NONE 303. */
uint32_t cq_door_written(cq_door *door, uint32_t connection, uint64_t count, uint64_t now);

/* The socket is gone. What the connection waits for is given up, and its number is free. What a debugger has suspended is resumed,
 * and what stops for it goes on, now or by cq_door_tick. CQ_NONE 303. */
uint32_t cq_door_disconnect(cq_door *door, uint32_t connection);

/* Says that the runtime ends. A debugger is told by VM_DEATH, behind what it is told already: call cq_door_tick and cq_door_next
 * before, so that it is told of threads that have ended. Nothing is read or answered after it, and a question that is open is dropped.
 * Then cq_door_next resumes what the debugger has suspended, and gives CQ_DOOR_CLOSE once all is written. Nothing happens at a door for
 * HTTP. Since 2.5. */
uint32_t cq_door_runtime_ends(cq_door *door);

/* Does what is due: meets threads, reads stacks, counts, and answers; tells a debugger of events and stops, and undoes suspensions
 * and breakpoints that are not wanted any more. Writes to `deadline` when it is to be called next. Call cq_door_next after it. */
uint32_t cq_door_tick(cq_door *door, uint64_t now, uint64_t *deadline) CQ_MUST_USE;

/* What a debugger asks. The library knows no variables: at a door for debuggers the runtime tells them, if it has said so by
 * cq_door_tells_variables. When a debugger wants some, cq_door_next writes CQ_DOOR_ASK, and cq_door_question says which. The runtime
 * answers by one of cq_door_tell_variables, cq_door_tell_values and cq_door_tell_none, and calls cq_door_next again. cq_door_answer does
 * that by functions. Until then the debugger's other requests wait. At most one question is open. It closes with its answer, and when
 * the connection ends.
 *
 * The thread that is asked about was suspended, and had the frame, when the question was opened. The debugger resumes it only after the
 * answer, but another environment may resume it before. So the runtime sees to it that the frames stay as they are while it reads them
 * (cq_variables), or answers by 13. */
enum cq_question_kind {
    CQ_QUESTION_NONE = 0,      /* nothing */
    CQ_QUESTION_VARIABLES = 1, /* the names and the scopes of all variables of `method` */
    CQ_QUESTION_VALUES = 2     /* the values of all variables of the frame at `depth` of `thread`; 0 is the newest frame */
};

/* A question. What it does not ask about is 0. */
typedef struct {
    uint32_t kind;
    uint32_t method;
    uint32_t thread;
    uint32_t depth;
} cq_question;

/* A variable of a method. It is visible at the locations from `first` to `first` + `count` - 1. */
typedef struct {
    uint32_t slot;
    uint32_t first;
    uint32_t count;
    uint32_t name_length;  /* of its name, in bytes */
} cq_variable;

/* What a value is, and what its bits are. */
enum cq_value_kind {
    CQ_VALUE_NIL = 0,      /* 0 */
    CQ_VALUE_BOOLEAN = 1,  /* 0 or 1 */
    CQ_VALUE_INTEGER = 2,  /* 64 bits, in two's complement */
    CQ_VALUE_NUMBER = 3,   /* 64 bits of an IEEE 754 double */
    CQ_VALUE_TEXT = 4,     /* the length of the text in bytes */
    CQ_VALUE_TABLE = 5,    /* how many entries come right behind it */
    CQ_VALUE_ENTRY = 6     /* the length of the entry in bytes, such as that of "key = value" */
};

/* A value, or an entry of the table before it. The slot of an entry is not read. */
typedef struct {
    uint32_t slot;
    uint32_t kind;
    uint64_t bits;
} cq_value;

/* Says whether the runtime waits for its first debugger: at first it does not. At a door for debuggers the next one that connects while a
 * thread is there is told by VM_START that the runtime begins, and finds all threads suspended, as by a request of its own. Those
 * that come after it are not. Nothing happens at a door for HTTP. */
uint32_t cq_door_starts_suspended(cq_door *door, bool suspended);

/* Says whether the runtime tells variables: at first it does not. It counts for the requests that come from then on; a question
 * that is open stays open. Nothing happens at a door for HTTP. */
uint32_t cq_door_tells_variables(cq_door *door, bool tells);

/* Says whether the runtime's threads go on without the frames that were popped (cq_take_pops): at first they do not. A debugger is told
 * that it may pop frames only if they do, and pops some of a thread that it suspends. It counts for the requests that come from then
 * on. The door's environment has CQ_CAN_POP_FRAME from then on, or gives it up. Nothing happens at a door for HTTP.
 *
 *   CQ_NOT_AVAILABLE 98  frames are to be popped, and the service's environments cannot have CQ_CAN_POP_FRAME (cq_make) */
uint32_t cq_door_pops_frames(cq_door *door, bool pops);

/* Writes the open question to `question`, one of kind CQ_QUESTION_NONE if there is none, as always at a door for HTTP. */
uint32_t cq_door_question(cq_door *door, cq_question *question) CQ_MUST_USE;

/* Answers a question of kind CQ_QUESTION_VARIABLES. The names stand one behind the other in `names`, in UTF-8.
 *
 *   CQ_NONE 303              no such question is open; nothing changes
 *   CQ_ILLEGAL_ARGUMENT 103  the lengths do not add up to `length`, or a name is not UTF-8; the question stays open
 *   CQ_OUT_OF_MEMORY 110     there is no memory; the question stays open */
uint32_t cq_door_tell_variables(cq_door *door, const cq_variable *variables, size_t count, const uint8_t *names,
                                size_t length) CQ_MUST_USE;

/* Answers a question of kind CQ_QUESTION_VALUES. Texts and entries stand one behind the other in `texts`, in UTF-8 or not: a debugger
 * shows bytes that are not as it likes. A debugger may ask about texts and tables again until it resumes the thread or disposes of
 * them, so they are kept until then: at most 65,536 at a time, of 16 MiB. If two values have one slot, the first counts.
 *
 *   CQ_NONE 303              no such question is open; nothing changes
 *   CQ_ILLEGAL_ARGUMENT 103  there is no such kind; a boolean's bits are neither 0 nor 1; an entry does not stand behind its table, or
 *                            a table has fewer entries; or the lengths do not add up to `length`. The question stays open
 *   CQ_OUT_OF_MEMORY 110     there is no memory, or no room for what is kept; the question stays open */
uint32_t cq_door_tell_values(cq_door *door, const cq_value *values, size_t count, const uint8_t *texts,
                             size_t length) CQ_MUST_USE;

/* Answers a question by an error. The debugger is told 13 (the thread is not suspended) and 110 (there is no memory) as they are, and
 * 101 (there is no such information) for each other `code`. CQ_NONE 303: no question is open, and nothing changes. */
uint32_t cq_door_tell_none(cq_door *door, uint32_t code) CQ_MUST_USE;

/* An answer that is put together. It is there for one call of a function of cq_variables. */
typedef struct cq_teller cq_teller;

/* Two functions of the runtime by which cq_door_answer answers a question. Both get `context`. They tell by cq_tell_.. below, and run on
 * the thread that answers.
 *
 * `of_method` tells the variables of a method. `of_frame` tells the values of those that have one in the frame at `depth` of a thread,
 * by their slots. 0 is the newest of the frames that the thread has given.
 *
 * While `of_frame` reads a frame it has to stay as it is, and another environment may resume the thread at any time. So each thread
 * holds a lock of its own while it runs. It gives the lock up around cq_wait_poll and cq_wait_stop, and after cq_wait_block until
 * cq_wait_back has returned, if it leaves its frames alone there. `of_frame` tries to take the lock, and returns 13 if it cannot. It
 * does not wait for the thread.
 *
 * What they return:
 *
 *   CQ_OK 0                     what was told is the answer
 *   CQ_THREAD_NOT_SUSPENDED 13  the thread does not stand still
 *   CQ_OUT_OF_MEMORY 110        there is no memory
 *   another code                the runtime knows of no variables there. The debugger is told 101 */
typedef struct {
    void *context;
    uint32_t (*of_method)(void *context, uint32_t method, cq_teller *teller);
    uint32_t (*of_frame)(void *context, uint32_t thread, uint32_t depth, cq_teller *teller);
} cq_variables;

/* Answers the open question by the runtime's functions, or by 110 if there is no memory. CQ_NONE 303: no question is open, and no
 * function is called. */
uint32_t cq_door_answer(cq_door *door, const cq_variables *variables) CQ_MUST_USE;

/* Tells a variable of a method, which is visible at the locations from `first` to `first` + `count` - 1. A count above 2^31 - 1 is told
 * as that: debuggers take it for a signed number. If a name is not UTF-8, the debugger is told 101.
 *
 * An answer has at most 4,096 variables, or values and entries, and 1 MiB of names or texts. A name or a text that has not enough room
 * left is cut. It ends with "..." then, as far as there is room for that.
 *
 *   CQ_FULL 216     there are 4,096 already: this one is left out
 *   CQ_MISUSED 304  it is values that are asked for; nothing changes */
uint32_t cq_tell_variable(cq_teller *teller, const uint8_t *name, size_t length, uint32_t slot, uint32_t first, uint32_t count);

/* These tell the value of a variable. CQ_FULL 216: likewise. CQ_MISUSED 304: it is variables that are asked for; nothing changes. */
uint32_t cq_tell_nil(cq_teller *teller, uint32_t slot);
uint32_t cq_tell_boolean(cq_teller *teller, uint32_t slot, bool value);
uint32_t cq_tell_integer(cq_teller *teller, uint32_t slot, int64_t value);
uint32_t cq_tell_number(cq_teller *teller, uint32_t slot, double value);
uint32_t cq_tell_text(cq_teller *teller, uint32_t slot, const uint8_t *text, size_t length);

/* Tells a table that has no entries yet. The codes are those of cq_tell_nil. */
uint32_t cq_tell_table(cq_teller *teller, uint32_t slot);

/* Tells an entry of the table, such as "key = value". CQ_FULL 216: likewise. CQ_MISUSED 304: what was told last is neither a table nor an
 * entry; nothing changes. */
uint32_t cq_tell_entry(cq_teller *teller, const uint8_t *text, size_t length);

/* Writes to `count` how many times the door has resumed a thread or let one go on that had stopped, 0 at a door for HTTP. A program
 * whose threads sleep by cebdyraq_wait.h calls cq_wake when it has grown, after cq_door_next, cq_door_disconnect and cq_door_tick. */
uint32_t cq_door_resumptions(cq_door *door, uint64_t *count) CQ_MUST_USE;

/* Closes the door, and disposes of its environment. The codes are those of cq_dispose_environment. With another than CQ_OK call
 * again. CQ_BUSY 215 comes also while a debugger is connected, or a thread that it has suspended is not resumed: then nothing
 * changes. Call cq_door_disconnect, and cq_door_tick until it is. A suspension that a thread has not answered is undone when the
 * thread polls, so a thread that never polls keeps the door open. */
uint32_t cq_close_door(cq_door *door) CQ_MUST_USE;

/* ------------------------------------------------------------------------------------------------------------------
 * A server: a door, its sockets, and one thread, which sleeps in poll.
 *
 * In the child of a fork no server runs: its handle is zeros there, what the server had open is closed, and a debugger or client of the
 * parent's notices nothing.
 *
 * While a call has no answer, the thread looks for it 50 us later, and then each time after twice as long, up to 0.8 ms. While a
 * debugger has a breakpoint or a step, it also looks as soon as a thread stops by cq_wait_stop, or cq_wake is called.
 */

/* Zeros at first, and then for these functions alone. It stays where it is until cq_serve_end. */
typedef struct { uint64_t opaque[96]; } cq_server;

/* Serves HTTP at an address: "127.0.0.1:PORT", "[::1]:PORT" or "localhost:PORT", where port 0 is any free one, or "unix:PATH".
 * `signal` is that of the service's other threads, or NULL if none uses cebdyraq_wait.h. `program` is what a profile calls the
 * program. The service's handle is used in this call alone.
 *
 *   CQ_MISUSED 304           `service` is empty, or `server` serves
 *   CQ_ILLEGAL_ARGUMENT 103  there is no such address, or it is not one of this machine's own; `program` is not UTF-8
 *   CQ_OUT_OF_MEMORY 110     there is no memory
 *   CQ_FULL 216              there are as many environments as the limits allow
 *   CQ_SYSTEM 306            the operating system refused a socket, the address or the thread: errno says why. It is EMFILE if the
 *                            process may not have four more files open: for the server itself, a connection, and a file of /proc
 *
 * If no file may be opened for a further connection, that one waits until another has gone. */
uint32_t cq_serve(cq_server *server, cq_service *service, cq_signal *signal, const char *address,
                  const char *program) CQ_MUST_USE;

/* Listens for debuggers at an address, with `service`, `signal` and `address` as for cq_serve. `program` and `path` are those of
 * cq_open_debugger; debuggers run elsewhere, so `path` begins at the root. The codes are those of cq_serve; CQ_ILLEGAL_ARGUMENT 103
 * is also for a `path` that is not UTF-8. */
uint32_t cq_debug_listen(cq_server *server, cq_service *service, cq_signal *signal, const char *address, const char *program,
                         const char *path) CQ_MUST_USE;

/* Gives a server that does not serve yet the runtime's functions that tell variables. They are called on the server's thread, between
 * cq_debug_listen and cq_serve_end, whenever it listens from then on. Without them a debugger that asks for variables is told 101.
 * CQ_MISUSED 304: it serves; nothing changes. */
uint32_t cq_server_variables(cq_server *server, const cq_variables *variables) CQ_MUST_USE;

/* Says of a server that does not serve yet whether the runtime's threads go on without the frames that were popped, as
 * cq_door_pops_frames does, whenever it listens for debuggers from then on. At a service whose environments cannot have
 * CQ_CAN_POP_FRAME (cq_make) it changes nothing. CQ_MISUSED 304: it serves; nothing changes. */
uint32_t cq_server_pops_frames(cq_server *server, bool pops) CQ_MUST_USE;

/* Says of a server that does not serve yet whether the runtime waits for its first debugger, as cq_door_starts_suspended does, whenever
 * it listens for debuggers from then on. Whoever connects and does not greet is no debugger: the runtime waits on. The runtime starts
 * its threads before it listens. Each of them blocks before its first step (cq_wait_block), and comes back after
 * cq_server_await_resumption. CQ_MISUSED 304: it serves; nothing changes. */
uint32_t cq_server_starts_suspended(cq_server *server, bool suspended) CQ_MUST_USE;

/* Sleeps until a debugger has resumed a thread, or the server has ended. A debugger that goes has resumed what it suspended. CQ_MISUSED
 * 304: it has never listened for debuggers. */
uint32_t cq_server_await_resumption(cq_server *server) CQ_MUST_USE;

/* Tells the debugger of the classes that were defined before the call, and sleeps until that is done. A debugger that wants a breakpoint
 * in a class which is not there yet sets it when it is told of the class, and has all threads suspended meanwhile. So a thread that has
 * defined a class blocks (cq_wait_block, with CQ_PARK), calls this, and comes back (cq_wait_back) before it runs a method of the class.
 * When this returns, the suspension has been asked for, and the thread comes back once the debugger has resumed it.
 *
 * It waits for the server's thread, and never for the debugger. If none is connected, or the server ends, it returns at once: that costs
 * one lock of a mutex. Do not call it in the functions of cq_variables, nor with a lock that they take.
 *
 * The server's thread ticks until the door has nothing to do soon, at least twice. While there is a breakpoint or a step the door always
 * has: then it ticks 8 times, some 50 us apart, and tells up to 32,768 classes. Classes beyond these are told later, and so are those
 * behind one that another thread is just defining. An event that comes while all threads are suspended for an earlier one is sent after
 * they were resumed: until they are suspended for it, its thread may run on. The event's thread is the first that is there, so with the
 * policy EVENT_THREAD that one alone is suspended.
 *
 * CQ_MISUSED 304: it has never listened for debuggers. */
uint32_t cq_server_tell_classes(cq_server *server) CQ_MUST_USE;

/* Writes the port at which it listens to `port`, also where port 0 was asked for. 0 at a Unix socket. CQ_MISUSED 304: it does not
 * serve. */
uint32_t cq_server_port(const cq_server *server, uint16_t *port) CQ_MUST_USE;

/* Ends the thread, closes all sockets, and disposes of the environment. Threads of the service go on meanwhile. A debugger is
 * told of what took place before, such as ends of threads, and by VM_DEATH that the runtime ends. It has 0.2 s to read that, and
 * 0.05 s to close its end. All that it has suspended is resumed. If it has asked a thread to be suspended, and the thread has not
 * answered, this waits until the thread polls, so that thread does not call it. It is CQ_OK for a server that does not serve.
 * CQ_OUT_OF_MEMORY 110, CQ_FULL 216: the environment is not disposed of. Call again. */
uint32_t cq_serve_end(cq_server *server);

#ifdef __cplusplus
}
#endif

#endif
