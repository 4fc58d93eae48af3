/* cebdyraq_serve.c: see cebdyraq_serve.h. Sockets and a clock around a door. */
#define _GNU_SOURCE
#include "cebdyraq_serve.h"
#include "cebdyraq_listen.h"
#include "cebdyraq_peer.h"
#include "cebdyraq_servers.h"

#include <errno.h>
#include <fcntl.h>
#include <netinet/in.h>
#include <netinet/tcp.h>
#include <poll.h>
#include <pthread.h>
#include <signal.h>
#include <string.h>
#include <sys/eventfd.h>
#include <sys/prctl.h>
#include <sys/socket.h>
#include <time.h>

enum { CHUNK = 16384, NO_PORT = 65536 };
static const uint64_t LINGER_NS = 1000000000;  /* how long a peer may send after its answer */
static const uint64_t GREETING_NS = 2000000000;  /* how long a debugger may take to greet */
static const uint64_t NEVER = UINT64_MAX;
static const uint64_t NAP_NS = 50000;          /* between two tries of what another uses */
static const uint64_t SOON_NS = 1000000;       /* after a tick the door is due within it if there may be more to do */
static const uint64_t FIRST_LOOK_NS = 50000, LAST_LOOK_NS = 800000;  /* between the looks at what is awaited */
static const unsigned long SLACK_NS = 1000;    /* by which the system may end a sleep of the server's late */
static const uint64_t REFUSED_NS = 100000000;  /* before connections are taken in again after the system refused one */
static const uint64_t PERIOD_NS = 10000000000;  /* within which a peer takes LEAST_TAKEN bytes, or all that there is */
static const uint64_t LEAST_TAKEN = 65536;
static const uint64_t PATIENCE_NS = 1000000000;  /* how long a peer may keep the server from writing before it gives way */
static const uint64_t FAREWELL_NS = 200000000;  /* how long a debugger may take to read what it is told at the end */
static const uint64_t PARTING_NS = 50000000;    /* and then to close its end */

/* How a peer takes what is written to it. */
typedef struct {
    uint64_t kept_since;  /* since when there was always something to be written, or NEVER */
    uint64_t period;      /* when the period began */
    uint64_t taken;       /* how many bytes it has taken within the period */
} pace;

/* What lies in a cq_server. */
typedef struct __attribute__((may_alias)) server {
    cq_door door;
    cq_signal *signal;
    pthread_t thread;
    listener listener;
    int waker;                                   /* an eventfd, by which the thread is woken */
    int sockets[CQ_DOOR_CONNECTIONS];            /* by connection, or -1; the thread alone changes them, with the lock */
    int leaving[CQ_DOOR_CONNECTIONS];            /* sockets of connections that ended, whose peers may still send */
    int newcomer;                                /* that of a peer that has no connection yet, or -1 */
    uint64_t leaving_since[CQ_DOOR_CONNECTIONS];
    uint8_t actions[CQ_DOOR_CONNECTIONS];        /* what is to be done with each */
    uint64_t rooms[CQ_DOOR_CONNECTIONS];
    pace *paces;                                 /* of each, while the thread runs */
    uint64_t resumptions;                        /* by the door, for which threads were woken */
    pthread_mutex_t lock;                        /* of what others than the thread use: the sockets, and down to is_ending */
    pthread_cond_t news;                         /* one of these has changed */
    uint64_t asked;                              /* how many calls have asked that classes be told */
    uint64_t told;                               /* for how many of them it was done */
    uint32_t waiting;                            /* threads that wait for news, but for the server's */
    bool is_resumed;                             /* a debugger has resumed a thread */
    bool is_ending;                              /* the server ends */
    uint64_t greets_by;                          /* when a debugger has to have greeted, or NEVER */
    cq_variables variables;                      /* by which a debugger's questions are answered, or zeros */
    bool pops_frames;                            /* a debugger may pop frames */
    bool starts_suspended;                       /* the first debugger finds all threads suspended */
    bool awaits_first;                           /* no debugger has greeted yet, and the first one finds that */
    bool is_for_debuggers;                       /* it listens for them, or did so last */
    bool runs;
    bool looks;                                  /* for stops. It is under the lock of all servers, as is what follows */
    struct server *next;                         /* the next one that runs */
} server;
_Static_assert(sizeof(server) <= sizeof(cq_server), "it fits");

/* Which door is opened. */
typedef struct {
    bool is_for_debuggers;
    const char *program;
    const char *path;  /* in which debuggers look for source files */
} opening;

static uint64_t clock_ns(clockid_t clock) {
    struct timespec now;
    clock_gettime(clock, &now);
    return (uint64_t)now.tv_sec * 1000000000 + (uint64_t)now.tv_nsec;
}

static uint64_t now_ns(void) {
    return clock_ns(CLOCK_MONOTONIC);
}

static void nap(void) {
    struct timespec time = { 0, (long)NAP_NS };
    nanosleep(&time, NULL);
}

static void wake_thread(const server *s) {
    while (eventfd_write(s->waker, 1) && errno == EINTR) {
    }
}

/* ------------------------------------------------------------------------------------------------------------------
 * The servers that run: a thread that stops wakes those that look for stops, and the child of a fork forgets all.
 */

static pthread_mutex_t of_servers = PTHREAD_MUTEX_INITIALIZER;
static server *first_server;
static uint32_t looking;  /* how many of them look for stops; it is changed with the lock */

static void set_looks(server *s, bool looks) {
    __atomic_fetch_add(&looking, (uint32_t)looks - (uint32_t)s->looks, __ATOMIC_SEQ_CST);
    s->looks = looks;
}

/* From now on the server is woken by the first stop, or no longer by any. */
static void look_for_stops(server *s, bool looks) {
    pthread_mutex_lock(&of_servers);
    set_looks(s, looks);
    pthread_mutex_unlock(&of_servers);
}

static void add_server(server *s) {
    pthread_mutex_lock(&of_servers);
    s->next = first_server;
    first_server = s;
    pthread_mutex_unlock(&of_servers);
}

/* With the lock. Nobody writes to its waker any more. */
static void take_out(server *s) {
    server **at = &first_server;
    while (*at != s) {
        at = &(*at)->next;
    }
    *at = s->next;
    set_looks(s, false);
}

void cebdyraq_wake_servers(const cq_signal *signal) {
    if (__atomic_load_n(&looking, __ATOMIC_SEQ_CST) == 0) {
        return;
    }
    pthread_mutex_lock(&of_servers);
    for (server *s = first_server; s; s = s->next) {
        if (s->looks && s->signal == signal && !pthread_equal(s->thread, pthread_self())) {
            set_looks(s, false);
            wake_thread(s);
        }
    }
    pthread_mutex_unlock(&of_servers);
}

/* What servers have open changes with this lock, so that a child finds all of it. */
static void lock_files(void) {
    pthread_mutex_lock(&of_servers);
}

static void unlock_files(void) {
    pthread_mutex_unlock(&of_servers);
}

static void before_fork(void) {
    pthread_mutex_lock(&of_servers);
}

static void in_parent(void) {
    pthread_mutex_unlock(&of_servers);
}

/* Closes what a server of the parent has open, in this process alone. It is as one that never began. */
static void forget(server *s) {
    close_socket(&s->listener.socket);
    close_socket(&s->waker);
    for (size_t i = 0; i < CQ_DOOR_CONNECTIONS; i++) {
        close_socket(&s->sockets[i]);
        close_socket(&s->leaving[i]);
    }
    close_socket(&s->newcomer);
    memset(s, 0, sizeof *s);
}

static void in_child(void) {
    for (server *s = first_server, *next; s; s = next) {
        next = s->next;
        forget(s);
    }
    first_server = NULL;
    looking = 0;
    pthread_mutex_unlock(&of_servers);
}

static void prepare_for_forks(void) {
    pthread_atfork(before_fork, in_parent, in_child);
}

/* ------------------------------------------------------------------------------------------------------------------
 * Connections.
 */

/* Lets a peer that may still send leave: with unread bytes a close would cut off the answer that is on its way. */
static void let_leave(server *s, int socket, uint64_t now) {
    size_t at = 0;
    shutdown(socket, SHUT_WR);
    for (size_t i = 0; i < CQ_DOOR_CONNECTIONS; i++) {
        if (s->leaving[i] < 0) {
            at = i;
            break;
        }
        if (s->leaving_since[i] < s->leaving_since[at]) {
            at = i;
        }
    }
    close_socket(&s->leaving[at]);
    s->leaving[at] = socket;
    s->leaving_since[at] = now;
}

/* Reads away what a leaving peer sends, until it has ended or its time is over. */
static void see_off(int *socket, uint64_t since, uint64_t now) {
    uint8_t bytes[CHUNK];
    ssize_t count = recv(*socket, bytes, sizeof bytes, MSG_DONTWAIT);
    bool is_there = count > 0 || (count < 0 && (errno == EAGAIN || errno == EINTR));
    if (!is_there || now - since >= LINGER_NS) {
        lock_files();
        close_socket(socket);
        unlock_files();
    }
}

/* Sets a connection's socket, or -1, and gives the one before. Whoever waits for a debugger that goes is woken. */
static int set_socket(server *s, uint32_t connection, int socket) {
    pthread_mutex_lock(&s->lock);
    int before = s->sockets[connection];
    s->sockets[connection] = socket;
    pthread_cond_broadcast(&s->news);
    pthread_mutex_unlock(&s->lock);
    return before;
}

/* Ends a connection at the door. One that has not greeted was no debugger: the next one may be the first. */
static void disconnect(server *s, uint32_t connection) {
    cq_door_disconnect(&s->door, connection);
    if (s->awaits_first) {
        cq_door_starts_suspended(&s->door, true);
    }
}

static void drop(server *s, uint32_t connection) {
    disconnect(s, connection);
    lock_files();
    int socket = set_socket(s, connection, -1);
    close_socket(&socket);
    unlock_files();
}

/* Ends a connection that the door has closed. */
static void leave(server *s, uint32_t connection, uint64_t now) {
    disconnect(s, connection);
    lock_files();
    let_leave(s, set_socket(s, connection, -1), now);
    unlock_files();
}

/* Writes what is to be written. Returns whether the socket took some. */
static bool write_some(server *s, uint32_t connection) {
    uint8_t bytes[CHUNK];
    uint64_t count = 0;
    if (cq_door_output(&s->door, connection, bytes, sizeof bytes, &count) != CQ_OK) {
        return false;
    }
    ssize_t taken = send(s->sockets[connection], bytes, (size_t)count, MSG_DONTWAIT | MSG_NOSIGNAL);
    if (taken < 0 && errno != EAGAIN && errno != EINTR) {
        drop(s, connection);
    }
    if (taken <= 0) {
        return false;
    }
    cq_door_written(&s->door, connection, (uint64_t)taken, now_ns());
    s->paces[connection].taken += (uint64_t)taken;
    s->greets_by = NEVER;
    s->awaits_first = false;
    return true;
}

/* Asks the door what is to be done with a connection. */
static uint32_t next_action(server *s, uint32_t connection) {
    uint32_t action = CQ_DOOR_WAIT;
    if (cq_door_next(&s->door, connection, now_ns(), clock_ns(CLOCK_REALTIME), &action, &s->rooms[connection]) != CQ_OK) {
        action = CQ_DOOR_WAIT;
    }
    s->actions[connection] = (uint8_t)action;
    return action;
}

/* Does what the door wants of a connection, as far as the socket lets it. Returns whether it has written, answered or left. */
static bool go_on(server *s, uint32_t connection) {
    bool moved = false;
    while (s->sockets[connection] >= 0) {
        uint32_t action = next_action(s, connection);
        if (action == CQ_DOOR_CLOSE) {
            leave(s, connection, now_ns());
            return true;
        }
        bool is_done = action == CQ_DOOR_ASK ? cq_door_answer(&s->door, &s->variables) == CQ_OK
                                             : action == CQ_DOOR_WRITE && write_some(s, connection);
        if (!is_done) {
            break;
        }
        moved = true;
    }
    return moved;
}

/* Reads what a socket has, as far as the door has room. */
static void read_some(server *s, uint32_t connection) {
    uint8_t bytes[CHUNK];
    size_t room = s->rooms[connection] < sizeof bytes ? (size_t)s->rooms[connection] : sizeof bytes;
    uint64_t taken = 0;
    ssize_t count = recv(s->sockets[connection], bytes, room, MSG_DONTWAIT);
    if (count == 0) {
        cq_door_end(&s->door, connection, now_ns());
    } else if (count < 0 && errno != EAGAIN && errno != EINTR) {
        drop(s, connection);
    } else if (count > 0 && (cq_door_feed(&s->door, connection, bytes, (size_t)count, now_ns(), &taken) != CQ_OK
                             || taken < (uint64_t)count)) {
        drop(s, connection);
    }
}

/* Goes on with each connection. Returns whether one has written, answered or left. */
static bool go_on_with_all(server *s) {
    bool moved = false;
    for (uint32_t i = 0; i < CQ_DOOR_CONNECTIONS; i++) {
        moved = go_on(s, i) || moved;
    }
    return moved;
}

/* Closes a connection whose peer takes too little of what is written to it. A debugger may rest. */
static void note_pace(server *s, uint32_t connection, uint64_t now) {
    pace *of = &s->paces[connection];
    if (s->is_for_debuggers || s->sockets[connection] < 0 || s->actions[connection] != CQ_DOOR_WRITE) {
        of->kept_since = NEVER;
    } else if (of->kept_since == NEVER) {
        *of = (pace){ now, now, 0 };
    } else if (now - of->period >= PERIOD_NS && of->taken < LEAST_TAKEN) {
        drop(s, connection);
        of->kept_since = NEVER;
    } else if (now - of->period >= PERIOD_NS) {
        of->period = now;
        of->taken = 0;
    }
}

/* Closes the connection whose peer has kept the server from writing longest, if one has for a while. Returns whether it did. */
static bool drop_slowest(server *s, uint64_t now) {
    uint32_t slowest = 0;
    for (uint32_t i = 1; i < CQ_DOOR_CONNECTIONS; i++) {
        slowest = s->paces[i].kept_since < s->paces[slowest].kept_since ? i : slowest;
    }
    bool gives_way = s->paces[slowest].kept_since != NEVER && now - s->paces[slowest].kept_since >= PATIENCE_NS;
    if (gives_way) {
        drop(s, slowest);
        s->paces[slowest].kept_since = NEVER;
    }
    return gives_way;
}

/* Drops a debugger that has closed its end, whatever it has sent before. Returns whether it did. */
static bool drop_one_that_has_gone(server *s) {
    struct pollfd at = { s->sockets[0], POLLRDHUP, 0 };
    bool has_gone = poll(&at, 1, 0) == 1 && at.revents;
    if (has_gone) {
        drop(s, 0);
    }
    return has_gone;
}

static bool connects(server *s, uint32_t *connection) {
    return cq_door_connect(&s->door, now_ns(), connection) == CQ_OK;
}

/* A place for a newcomer. Without one the door has a connection that is idle leave, or another gives way. */
static bool find_place(server *s, uint32_t *connection) {
    if (connects(s, connection)) {
        return true;
    }
    if (s->is_for_debuggers) {
        return drop_one_that_has_gone(s) && connects(s, connection);
    }
    go_on_with_all(s);
    return connects(s, connection) || (drop_slowest(s, now_ns()) && connects(s, connection));
}

/* Whether a peer may have what the door has. */
static bool is_welcome(const server *s, int socket) {
    return !s->is_for_debuggers || is_own_peer(socket);
}

/* Takes a peer in from the listener. Returns whether another may be taken in. */
static bool receive_newcomer(server *s) {
    lock_files();
    s->newcomer = accept4(s->listener.socket, NULL, NULL, SOCK_CLOEXEC | SOCK_NONBLOCK);
    int why = errno;
    unlock_files();
    return s->newcomer >= 0 || why == EAGAIN || why == EINTR || why == ECONNABORTED;
}

static void turn_away(server *s) {
    lock_files();
    close_socket(&s->newcomer);
    unlock_files();
}

static void settle_in(server *s, uint32_t connection) {
    int yes = 1;
    setsockopt(s->newcomer, IPPROTO_TCP, TCP_NODELAY, &yes, sizeof yes);
    lock_files();
    set_socket(s, connection, s->newcomer);
    s->newcomer = -1;
    unlock_files();
    s->greets_by = s->is_for_debuggers ? now_ns() + GREETING_NS : NEVER;
    go_on(s, connection);
}

/* Closes a debugger that has not greeted in time: nothing was written to it. It has the only place. */
static void drop_silent(server *s) {
    if (now_ns() >= s->greets_by) {
        s->greets_by = NEVER;
        drop(s, 0);
    }
}

/* Takes in a connection that waits. Returns whether another may be taken in. Without a place it goes on waiting for one; only a
 * further debugger is closed at once. */
static bool take_in(server *s) {
    uint32_t connection = 0;
    bool has_place = find_place(s, &connection);
    if (!has_place && !s->is_for_debuggers) {
        return false;
    }
    bool goes_on = receive_newcomer(s);
    if (s->newcomer >= 0 && has_place && is_welcome(s, s->newcomer)) {
        settle_in(s, connection);
        return true;
    }
    turn_away(s);
    if (has_place) {
        disconnect(s, connection);
    }
    return goes_on;
}

/* ------------------------------------------------------------------------------------------------------------------
 * The thread.
 */

enum { LISTENER = 0, WAKER = 1, FIRST = 2, LEAVING = FIRST + CQ_DOOR_CONNECTIONS, ALL = LEAVING + CQ_DOOR_CONNECTIONS };

static short wanted(const server *s, uint32_t connection) {
    return (short)((s->rooms[connection] > 0 ? POLLIN : 0) | (s->actions[connection] == CQ_DOOR_WRITE ? POLLOUT : 0));
}

static void list_sockets(const server *s, bool takes, struct pollfd *all) {
    all[LISTENER] = (struct pollfd){ takes ? s->listener.socket : -1, POLLIN, 0 };
    all[WAKER] = (struct pollfd){ s->waker, POLLIN, 0 };
    for (uint32_t i = 0; i < CQ_DOOR_CONNECTIONS; i++) {
        all[FIRST + i] = (struct pollfd){ s->sockets[i], s->sockets[i] >= 0 ? wanted(s, i) : 0, 0 };
        all[LEAVING + i] = (struct pollfd){ s->leaving[i], POLLIN, 0 };
    }
}

static uint64_t earlier(uint64_t one, uint64_t other) {
    return one < other ? one : other;
}

/* When the next leaving peer is sent away, or a debugger that does not greet, or a peer's period ends, if that is before `until`. */
static uint64_t before_leaving(const server *s, uint64_t until) {
    until = earlier(until, s->greets_by);
    for (size_t i = 0; i < CQ_DOOR_CONNECTIONS; i++) {
        until = s->leaving[i] >= 0 ? earlier(until, s->leaving_since[i] + LINGER_NS) : until;
        until = s->paces[i].kept_since != NEVER ? earlier(until, s->paces[i].period + PERIOD_NS) : until;
    }
    return until;
}

/* Lists those that are open. The system polls no more than the process may have open. */
static nfds_t list_open(const struct pollfd *all, struct pollfd *open) {
    nfds_t count = 0;
    for (size_t i = 0; i < ALL; i++) {
        if (all[i].fd >= 0) {
            open[count++] = all[i];
        }
    }
    return count;
}

/* When the thread looks again at what is awaited, such as an answer. The door would look each millisecond, and an answer counts as given
 * when it is found. So the first look comes sooner, and each further one after twice the time. */
typedef struct {
    uint64_t due;    /* when the door is due, as the tick before said */
    uint64_t after;  /* how long after the look before */
} looks;

/* Whether the door is due so soon after a tick that it awaits something. */
static bool awaits(uint64_t deadline, uint64_t now) {
    return deadline <= now + SOON_NS;
}

/* When the thread looks again if nothing comes. If something has come, or the door was due, something else may be awaited now. */
static uint64_t next_look(looks *l, bool has_come, uint64_t deadline) {
    uint64_t now = now_ns();
    l->after = has_come || now >= l->due ? FIRST_LOOK_NS : earlier(2 * l->after, LAST_LOOK_NS);
    l->due = deadline;
    return awaits(deadline, now) ? earlier(deadline, now + l->after) : deadline;
}

/* Sleeps until a socket has something, the thread is woken, or this time has come. If the system does not poll, each may have something
 * after a while. Returns whether something may have come. */
static bool rest(struct pollfd *all, uint64_t until) {
    struct pollfd open[ALL];
    nfds_t count = list_open(all, open), at = 0;
    uint64_t now = now_ns(), left = until > now ? until - now : 0;
    struct timespec time = { (time_t)(left / 1000000000), (long)(left % 1000000000) };
    int found = ppoll(open, count, &time, NULL);
    bool is_refused = found < 0 && errno != EINTR;
    if (is_refused) {
        time = (struct timespec){ 0, (long)SOON_NS };
        nanosleep(&time, NULL);
    }
    for (size_t i = 0; i < ALL; i++) {
        short come = all[i].fd < 0 ? 0 : open[at++].revents;
        all[i].revents = is_refused ? all[i].events : found > 0 ? come : 0;
    }
    return found != 0;
}

/* Reads from all sockets that have something, and goes on with each connection. Returns whether one has written or left. */
static bool serve_all(server *s, const struct pollfd *all) {
    bool moved = false;
    for (uint32_t i = 0; i < CQ_DOOR_CONNECTIONS; i++) {
        short come = s->sockets[i] >= 0 && all[FIRST + i].fd == s->sockets[i] ? all[FIRST + i].revents : 0;
        if (come & POLLIN) {
            read_some(s, i);
        } else if (come & (POLLERR | POLLHUP | POLLNVAL)) {
            drop(s, i);
        }
        moved = go_on(s, i) || moved;
        if (s->leaving[i] >= 0) {
            see_off(&s->leaving[i], s->leaving_since[i], now_ns());
        }
    }
    return moved;
}

/* Writes the answers that a tick has given, and looks how their peers take them. Returns whether there were some: a request behind one of
 * them may now have been taken up, and be due at once. */
static bool write_all(server *s) {
    bool moved = go_on_with_all(s);
    for (uint32_t i = 0; i < CQ_DOOR_CONNECTIONS; i++) {
        note_pace(s, i, now_ns());
    }
    return moved;
}

/* Does what is due at the door. Returns when it is to be done next. */
static uint64_t tick(server *s) {
    uint64_t deadline = 0;
    return cq_door_tick(&s->door, now_ns(), &deadline) == CQ_OK ? deadline : now_ns() + NAP_NS;
}

static void wake_all(const server *s) {
    if (s->signal) {
        cq_wake(s->signal);
    }
}

static void note_resumption(server *s) {
    pthread_mutex_lock(&s->lock);
    s->is_resumed = true;
    pthread_cond_broadcast(&s->news);
    pthread_mutex_unlock(&s->lock);
}

/* Wakes the threads that the door has resumed. */
static void wake_resumed(server *s) {
    uint64_t count = 0;
    if (cq_door_resumptions(&s->door, &count) == CQ_OK && count != s->resumptions) {
        s->resumptions = count;
        note_resumption(s);
        wake_all(s);
    }
}

/* When it has to go on, at the latest. */
static uint64_t next_time(const server *s, uint64_t deadline, bool takes, uint64_t refused) {
    uint64_t until = before_leaving(s, deadline), again = refused + REFUSED_NS;
    return takes || until < again ? until : again;
}

/* The classes that the thread was asked to tell, and the passes that it has made for them. A pass is a tick, and then all that the
 * connection has to do (cq_door_next), such as to suspend what an event suspends.
 *
 * A tick tells at most 4,096 classes, and a thread that is to be suspended may be in use. The door says that such things are left only by
 * a deadline that comes soon after a tick. So passes go on until two ticks in a row have no such deadline: with the first of them all
 * classes are told, and at the second no suspension is left. While there is a breakpoint or a step each deadline comes soon. So if one
 * came soon before, there are FEW_PASSES. Otherwise they go on for as long as the door waits for a suspension. */
typedef struct {
    uint64_t asked;   /* by the calls up to this one, or 0 for none */
    uint64_t until;   /* how long passes go on, at most, if there were FEW_PASSES */
    uint32_t passes;
    uint32_t quiet;   /* the last of them, whose deadlines did not come soon */
    bool awaits;      /* the last deadline came soon */
} telling;

enum { QUIET_PASSES = 2, FEW_PASSES = 8 };
static const uint64_t PASSES_NS = 1000000000;

/* Takes what others have asked of the thread, after it was woken or not. Returns whether it goes on. */
static bool take_orders(server *s, bool is_woken, telling *t) {
    eventfd_t count;
    while (is_woken && eventfd_read(s->waker, &count) && errno == EINTR) {
    }
    pthread_mutex_lock(&s->lock);
    bool goes_on = !s->is_ending;
    if (t->asked == 0 && s->asked != s->told) {
        t->asked = s->asked;
        t->until = t->awaits ? 0 : now_ns() + PASSES_NS;
    }
    pthread_mutex_unlock(&s->lock);
    return goes_on;
}

/* Wakes those whose classes were told. Returns whether others have asked meanwhile. */
static bool note_told(server *s, uint64_t asked) {
    pthread_mutex_lock(&s->lock);
    s->told = asked;
    bool is_asked = s->asked != asked;
    pthread_cond_broadcast(&s->news);
    pthread_mutex_unlock(&s->lock);
    return is_asked;
}

/* Counts a pass. Returns when the next one is to be, or NEVER if nobody asks for one. */
static uint64_t next_pass(server *s, telling *t, uint64_t deadline) {
    uint64_t now = now_ns(), asked = t->asked;
    t->awaits = awaits(deadline, now);
    if (asked == 0) {
        return NEVER;
    }
    t->passes++;
    t->quiet = t->awaits ? 0 : t->quiet + 1;
    if (t->quiet < QUIET_PASSES && (t->passes < FEW_PASSES || now < t->until)) {
        return t->quiet > 0 ? now : now + NAP_NS;
    }
    *t = (telling){ .awaits = t->awaits };
    return note_told(s, asked) ? now : NEVER;
}

/* Sleeps until a socket has something, or this time has come. */
static void await_socket(int socket, short events, uint64_t until) {
    struct pollfd at = { socket, events, 0 };
    uint64_t now = now_ns(), left = until > now ? until - now : 0;
    poll(&at, 1, (int)(left / 1000000) + 1);
}

/* Writes what the door has for the debugger, until there is nothing more, or this time has come. Returns whether it has written or
 * answered. */
static bool write_out(server *s, uint64_t until) {
    bool moved = go_on(s, 0);
    wake_resumed(s);
    while (s->sockets[0] >= 0 && s->actions[0] == CQ_DOOR_WRITE && now_ns() < until) {
        await_socket(s->sockets[0], POLLOUT, until);
        moved = go_on(s, 0) || moved;
        wake_resumed(s);
    }
    return moved;
}

/* Reads away what a debugger sends that has yet to close its end: a close before that could cut off what it has yet to read. */
static void see_off_all(server *s) {
    uint64_t until = now_ns() + PARTING_NS;
    for (size_t i = 0; i < CQ_DOOR_CONNECTIONS; i++) {
        while (s->leaving[i] >= 0 && now_ns() < until) {
            await_socket(s->leaving[i], POLLIN, until);
            see_off(&s->leaving[i], s->leaving_since[i], now_ns());
        }
    }
}

/* The runtime ends. A debugger is told of what took place before, and then of the end. Ticks go on until two in a row give it nothing to
 * read: one tells at most 4,096 ends of threads, and none while the list of threads is in use. */
static void take_leave(server *s) {
    uint64_t until = now_ns() + FAREWELL_NS;
    for (uint32_t quiet = 0; quiet < QUIET_PASSES && s->sockets[0] >= 0 && now_ns() < until;) {
        tick(s);
        quiet = write_out(s, until) ? 0 : quiet + 1;
    }
    if (s->sockets[0] >= 0) {
        cq_door_runtime_ends(&s->door);
        write_out(s, until);
    }
    see_off_all(s);
}

/* If a connection cannot be taken in, all are served once more, since one of them may have to leave. Then it takes until one has,
 * or for a while. */
static void *run(void *arg) {
    server *s = arg;
    struct pollfd all[ALL];
    pace paces[CQ_DOOR_CONNECTIONS];
    telling classes = { 0 };
    looks at = { 0 };
    uint64_t refused = 0;
    bool takes = true, has_come = true;
    for (size_t i = 0; i < CQ_DOOR_CONNECTIONS; i++) {
        paces[i] = (pace){ NEVER, 0, 0 };
    }
    prctl(PR_SET_TIMERSLACK, SLACK_NS);
    s->paces = paces;
    list_sockets(s, takes, all);
    while (take_orders(s, all[WAKER].revents & POLLIN, &classes)) {
        bool moved = serve_all(s, all), is_refused = takes && all[LISTENER].revents && !take_in(s);
        drop_silent(s);
        look_for_stops(s, s->is_for_debuggers && awaits(at.due, now_ns()));
        uint64_t deadline = tick(s);
        bool wrote = write_all(s);
        wake_resumed(s);
        refused = is_refused ? now_ns() : refused;
        takes = (takes && !is_refused) || moved || wrote || now_ns() - refused >= REFUSED_NS;
        list_sockets(s, takes, all);
        uint64_t pass = next_pass(s, &classes, deadline), until = next_time(s, next_look(&at, has_come, deadline), takes, refused);
        has_come = rest(all, wrote || is_refused ? 0 : earlier(pass, until));
    }
    if (s->is_for_debuggers) {
        take_leave(s);
    }
    return NULL;
}

/* ------------------------------------------------------------------------------------------------------------------
 * Begin and end.
 */

static void close_all(server *s) {
    int kept = errno;
    for (uint32_t i = 0; i < CQ_DOOR_CONNECTIONS; i++) {
        if (s->sockets[i] >= 0) {
            drop(s, i);
        }
    }
    lock_files();
    take_out(s);
    close_listener(&s->listener);
    close_socket(&s->waker);
    for (uint32_t i = 0; i < CQ_DOOR_CONNECTIONS; i++) {
        close_socket(&s->leaving[i]);
    }
    unlock_files();
    errno = kept;
}

/* Tries once to open the door. */
static uint32_t try_to_open(server *s, cq_service *service, const opening *of) {
    const uint8_t *program = (const uint8_t *)of->program, *path = (const uint8_t *)of->path;
    uint32_t port = s->listener.path[0] ? NO_PORT : s->listener.port;
    if (of->is_for_debuggers) {
        return cq_open_debugger(service, program, strlen(of->program), path, strlen(of->path), now_ns(), &s->door);
    }
    return cq_open_door(service, program, strlen(of->program), port, now_ns(), &s->door);
}

static uint32_t open_door(server *s, cq_service *service, const opening *of) {
    uint32_t code = CQ_BUSY;
    while ((code = try_to_open(s, service, of)) == CQ_BUSY) {
        nap();
    }
    wake_all(s);
    cq_door_tells_variables(&s->door, s->variables.of_method != NULL);
    cq_door_pops_frames(&s->door, s->pops_frames);
    cq_door_starts_suspended(&s->door, s->starts_suspended);
    s->awaits_first = s->starts_suspended;
    return code;
}

/* Undoes what a debugger has suspended, as far as its threads have polled. */
static void undo(server *s) {
    if (s->is_for_debuggers) {
        tick(s);
        wake_resumed(s);
    }
}

/* Closes the door, once nothing is suspended by it. */
static uint32_t close_door(server *s) {
    uint32_t code = CQ_BUSY;
    while ((code = cq_close_door(&s->door)) == CQ_BUSY) {
        nap();
        undo(s);
    }
    wake_all(s);
    return code;
}

/* Whether a connection and a file may be opened beside what is open. If not, errno says why. */
static bool has_room_for_one(const server *s) {
    int connection = fcntl(s->waker, F_DUPFD_CLOEXEC, 0), file = fcntl(s->waker, F_DUPFD_CLOEXEC, 0), why = errno;
    bool has_room = connection >= 0 && file >= 0;
    close_socket(&file);
    close_socket(&connection);
    errno = why;
    return has_room;
}

/* Starts the thread, to which no signal of the program's comes. */
static bool start(server *s) {
    sigset_t all, kept;
    lock_files();
    s->waker = eventfd(0, EFD_CLOEXEC | EFD_NONBLOCK);
    bool has_room = s->waker >= 0 && has_room_for_one(s);
    unlock_files();
    if (!has_room) {
        return false;
    }
    sigfillset(&all);
    pthread_sigmask(SIG_SETMASK, &all, &kept);
    int failed = pthread_create(&s->thread, NULL, run, s);
    pthread_sigmask(SIG_SETMASK, &kept, NULL);
    errno = failed ? failed : errno;
    s->runs = !failed;
    return s->runs;
}

/* Listens, opens the door and starts the thread. */
static uint32_t start_at(server *s, cq_service *service, const char *address, const opening *of) {
    lock_files();
    uint32_t code = open_listener(&s->listener, address);
    unlock_files();
    if (code == CQ_OK) {
        code = open_door(s, service, of);
    }
    if (code == CQ_OK && !start(s)) {
        close_door(s);
        code = CQ_SYSTEM;
    }
    return code;
}

static bool serves(const server *s) {
    return s->runs || s->door.kind != 0;
}

static uint32_t begin(cq_server *in, cq_service *service, cq_signal *signal, const char *address, const opening *of) {
    static pthread_once_t prepared = PTHREAD_ONCE_INIT;
    server *s = (server *)in;
    if (serves(s)) {
        return CQ_MISUSED;
    }
    *s = (server){ .signal = signal, .waker = -1, .lock = PTHREAD_MUTEX_INITIALIZER, .news = PTHREAD_COND_INITIALIZER,
                   .greets_by = NEVER, .variables = s->variables, .pops_frames = s->pops_frames,
                   .starts_suspended = s->starts_suspended, .is_for_debuggers = of->is_for_debuggers };
    for (size_t i = 0; i < CQ_DOOR_CONNECTIONS; i++) {
        s->sockets[i] = s->leaving[i] = -1;
    }
    s->newcomer = s->listener.socket = -1;
    pthread_once(&prepared, prepare_for_forks);
    add_server(s);
    uint32_t code = start_at(s, service, address, of);
    if (code != CQ_OK) {
        s->is_for_debuggers = false;
        close_all(s);
    }
    return code;
}

uint32_t cq_serve(cq_server *in, cq_service *service, cq_signal *signal, const char *address, const char *program) {
    opening of = { .program = program };
    return begin(in, service, signal, address, &of);
}

uint32_t cq_debug_listen(cq_server *in, cq_service *service, cq_signal *signal, const char *address, const char *program,
                         const char *path) {
    opening of = { .is_for_debuggers = true, .program = program, .path = path };
    return begin(in, service, signal, address, &of);
}

uint32_t cq_server_variables(cq_server *in, const cq_variables *variables) {
    server *s = (server *)in;
    if (serves(s)) {
        return CQ_MISUSED;
    }
    s->variables = *variables;
    return CQ_OK;
}

uint32_t cq_server_pops_frames(cq_server *in, bool pops) {
    server *s = (server *)in;
    if (serves(s)) {
        return CQ_MISUSED;
    }
    s->pops_frames = pops;
    return CQ_OK;
}

uint32_t cq_server_starts_suspended(cq_server *in, bool suspended) {
    server *s = (server *)in;
    if (serves(s)) {
        return CQ_MISUSED;
    }
    s->starts_suspended = suspended;
    return CQ_OK;
}

/* Waits with the lock. The last one that has waited wakes the caller that ends the server. */
static void await_news(server *s) {
    s->waiting++;
    pthread_cond_wait(&s->news, &s->lock);
    s->waiting--;
    if (s->waiting == 0) {
        pthread_cond_broadcast(&s->news);
    }
}

uint32_t cq_server_await_resumption(cq_server *in) {
    server *s = (server *)in;
    if (!s->is_for_debuggers) {
        return CQ_MISUSED;
    }
    pthread_mutex_lock(&s->lock);
    while (!s->is_resumed && !s->is_ending) {
        await_news(s);
    }
    pthread_mutex_unlock(&s->lock);
    return CQ_OK;
}

static bool has_debugger(const server *s) {
    return !s->is_ending && s->sockets[0] >= 0;
}

uint32_t cq_server_tell_classes(cq_server *in) {
    server *s = (server *)in;
    if (!s->is_for_debuggers) {
        return CQ_MISUSED;
    }
    pthread_mutex_lock(&s->lock);
    if (has_debugger(s)) {
        uint64_t call = ++s->asked;
        wake_thread(s);
        while (s->told < call && has_debugger(s)) {
            await_news(s);
        }
    }
    pthread_mutex_unlock(&s->lock);
    return CQ_OK;
}

uint32_t cq_server_port(const cq_server *in, uint16_t *port) {
    const server *s = (const server *)in;
    if (!s->runs) {
        return CQ_MISUSED;
    }
    *port = s->listener.port;
    return CQ_OK;
}

/* Ends the thread. Whoever waits for news goes on, and has left before this returns. */
static void end_thread(server *s) {
    pthread_mutex_lock(&s->lock);
    s->is_ending = true;
    wake_thread(s);
    pthread_cond_broadcast(&s->news);
    while (s->waiting > 0) {
        pthread_cond_wait(&s->news, &s->lock);
    }
    pthread_mutex_unlock(&s->lock);
    pthread_join(s->thread, NULL);
}

uint32_t cq_serve_end(cq_server *in) {
    server *s = (server *)in;
    if (s->runs) {
        end_thread(s);
        s->runs = false;
        close_all(s);
    }
    return s->door.kind != 0 ? close_door(s) : CQ_OK;
}
