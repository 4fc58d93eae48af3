/* host.h: Lua scripts, each with a state and a thread of its own, and the service that agents inspect them by. */
#ifndef HOST_H
#define HOST_H

#include <lua.h>
#include <pthread.h>
#include <semaphore.h>
#include <stdatomic.h>
#include <stdbool.h>
#include <stddef.h>
#include <stdint.h>

#include "cebdyraq.h"
#include "cebdyraq_serve.h"
#include "cebdyraq_wait.h"
#include "links.h"
#include "methods.h"

enum {
    INSTRUCTIONS = 1009,  /* of Lua's machine between two polls; a prime, so that polls keep step with no loop */
    SHOWN = 512,          /* so many frames of a stack are shown. A deeper one shows these: */
    OLDEST = 31,          /* so many of the oldest, one that stands for the frames between, */
    NEWEST = SHOWN - 1 - OLDEST,  /* and so many of the newest */
    FRAMES = SHOWN + 1,   /* with one besides, which says that the stack came late */
    KNOWN = 1024,         /* functions that a script knows without asking the table of methods; a power of two */
    CALM = 64,            /* methods in which a script that looks at each line need not look; a power of two */
    CHAIN = 256           /* coroutines that resumed one another; Lua itself allows about 200 */
};

/* A function that was seen in a stack, and its method. */
struct known {
    uintptr_t function;
    const struct method *method;
};

/* Methods with consecutive numbers. */
struct methods {
    uint32_t first, count;
};

/* A method in which the script did not have to stop, and the version of the stops by which that is so. */
struct calm {
    uint32_t method;
    uint64_t version;
};

struct script {
    struct host *host;
    const char *path;
    pthread_t pthread;
    cq_thread thread;
    bool inspected;           /* it is attached and started */
    bool away;                /* it is in native code or blocked */
    pthread_mutex_t lock;     /* its thread has it, but where it stands; whoever has it may read its states */
    bool stands;              /* its thread waits, and leaves its states alone */
    bool stops;               /* its hook is called at each line */
    uint64_t version;         /* of the stops, by which that is so; 0 if it has to be asked again */
    struct methods *met;      /* in which an agent may want it to stop: of its chunks, and of functions that were seen in its stacks */
    size_t met_count, met_room;
    bool met_any;             /* each method may be one of them */
    struct calm calm[CALM];
    bool complained;          /* a refusal was told */
    _Atomic(lua_State *) running;  /* the state or coroutine that a nudge reaches, or NULL */
    volatile bool nudged;     /* a nudge came, and no poll since */
    volatile int64_t nudged_at;
    volatile bool deep;       /* the stack had more frames than are shown when it was read last */
    atomic_llong nudge_price; /* what it took of the thread's time to set the hook, in a deep stack */
    bool failed;
    lua_State *chain[CHAIN];  /* the main state, the coroutine that it resumed, and so on */
    size_t links;
    struct known known[KNOWN];
    cq_frame frames[FRAMES];
    const cq_frame *given;    /* those of them that were given: all, if the first says that the stack came late, or all but the first */
    size_t given_count;       /* 0 if no stack can be read */
    int given_level;          /* of the newest of them in its state, but for the late one */
};

/* What others ask the scripts by, at an address. */
enum door {
    DOOR_HTTP,      /* profiles, stacks and counters */
    DOOR_DEBUGGER,  /* the Java Debug Wire Protocol, for one debugger at a time */
    DOORS
};

struct host {
    cq_service service;
    cq_signal signal;
    cq_server servers[DOORS];   /* zeros where none listens */
    bool inspected;             /* there is a service */
    const char *suspended_at;   /* the scripts begin once a debugger that attached at this address has resumed them; or NULL */
    sem_t listening;            /* above 0 once that door is open, or could not be opened */
    atomic_bool listens;        /* the door for debuggers is open */
    const char **statements;    /* what each script runs first */
    size_t statement_count;
    struct script *scripts;
    size_t count;
    size_t started;
    sem_t alive;                /* counts the scripts that are alive in the service */
    atomic_size_t living;       /* scripts that have not ended */
    int ended;                  /* an eventfd that can be read once the last script has ended */
};

/* Makes the scripts, and attaches them to a new service, if there is to be one. Returns 0, or -1 with a message. */
int host_make(struct host *host, char **paths, size_t count, bool inspected);

/* Opens a door at an address, until host_free. Returns 0, or -1 with a message. */
int host_open(struct host *host, enum door door, const char *address);

/* Starts all scripts, and waits until they are alive. If they begin suspended, the door for debuggers opens then. Returns 0, or -1 with a
 * message if some could not be started, or the door could not be opened. */
int host_start(struct host *host);

/* Waits for the scripts that were started. Returns whether one failed. */
bool host_join(struct host *host);

/* Frees what host_make made. */
void host_free(struct host *host);

/* The script of a state or a coroutine. */
struct script *script_of(lua_State *L);

/* The hook of all states. */
void script_hook(lua_State *L, lua_Debug *ar);

/* Gives the stack, with the running C function as the newest frame, and goes into native code, or blocks for a reason.
 * Returns whether it did. If not, there is no service, or the script is there already. */
bool script_native(struct script *script, lua_State *L);
bool script_block(struct script *script, lua_State *L, uint32_t reason);

/* Returns from there. It sleeps while the script is suspended. */
void script_back(struct script *script);

/* On the script's thread: tells a debugger, if there is one, of the classes that were defined. It returns once the debugger has resumed
 * the script, if it has suspended it for that, and notices breakpoints from the next line on. */
void script_tell_classes(struct script *script, lua_State *L);

/* From here on others may read the script's states, until it goes on. The latter waits for whoever reads. */
void script_stand(struct script *script);
void script_go_on(struct script *script);

/* give.c: gives the stack from this level on to the service. `hooked` says that a nudge's hook is called. If the
 * service does not take it, the newest frames are given, with one that says that the stack was cut. Returns whether
 * the script is still inspected: it is not if no stack can be given any more. */
bool give_stack(struct script *script, lua_State *L, int level, bool hooked);

/* give.c: tells the first code of a script that is not CQ_OK. Returns whether this one is not. */
bool complain(struct script *script, const char *what, uint32_t code);

/* stack.c: writes the stack from this level on, newest frame first, and returns how many there are, at most SHOWN. */
size_t stack_read(struct script *script, lua_State *L, int level, cq_frame *frames);

/* stack.c: goes to a frame that was given, by its depth, which is below `given_count`. False if it stands for no frame. */
bool stack_find(struct script *script, uint32_t depth, struct walk *walk);

/* stack.c: the method of the function on the top of the stack, of which `ar` has what "S" gives. */
uint32_t stack_method(struct script *script, lua_State *L, lua_Debug *ar);

/* stack.c: the name of the source of a function: that of the file, or the short form of a text, or "[C]". */
const char *source_of(const lua_Debug *ar);

/* stack.c: cuts the chain of coroutines after this one, which runs. */
void stack_cut(struct script *script, lua_State *L);

/* coroutines.c, blocking.c: put functions that the host sees in place of Lua's own. */
void open_coroutines(lua_State *L);
void open_blocking(lua_State *L);

#endif
