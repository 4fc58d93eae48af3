/* sockets.c: see sockets.h. */
#include "sockets.h"

#include "../../c/cebdyraq_listen.h"
#include "../../c/cebdyraq_peer.h"

#include <errno.h>
#include <string.h>

enum { DESCRIPTORS = 32, PEERS = 4, THREADS = 2, BYTES = 4096 };

/* A server's sleep that is longer than this does not end by its time if nobody else can go on. */
static const int64_t LONG_NS = 300000;

/* Bytes on their way. */
typedef struct { size_t count; uint8_t bytes[BYTES]; } stream;

struct peer {
    stream to_server, from_server;
    size_t room;             /* of what it has not read */
    bool is_stranger;
    bool is_taken_in;
    bool has_hung_up;
    bool is_hung_up_on;
    uint32_t word;           /* at which it sleeps */
};

typedef struct {
    enum { NONE, LISTENER, EVENT, SOCKET } is;
    uint64_t count;          /* of an event; of those that a listener's peers are */
    peer *at;                /* of a socket */
    int number;              /* of a listener */
} descriptor;

/* One that polls. */
typedef struct {
    struct pollfd *all;      /* or NULL */
    nfds_t count;
    bool is_long;
    uint32_t word;
} poller;

/* A thread that is made. */
typedef struct {
    void *(*run)(void *);
    void *of;
    int actor;
    bool is_there, is_over;
    uint32_t word;
} thread;

static descriptor descriptors[DESCRIPTORS];
static peer peers[PEERS];
static int dialled[PEERS], listeners, peer_count;
static poller pollers[MOST_ACTORS];
static thread threads[THREADS];

void forget_sockets(void) {
    memset(descriptors, 0, sizeof descriptors);
    for (int i = 0; i < PEERS; i++) {
        peers[i].to_server.count = peers[i].from_server.count = 0;
        peers[i].is_stranger = peers[i].is_taken_in = peers[i].has_hung_up = peers[i].is_hung_up_on = false;
    }
    memset(pollers, 0, sizeof pollers);
    memset(threads, 0, sizeof threads);
    listeners = peer_count = 0;
}

static int fail_as(int why) {
    errno = why;
    return -1;
}

/* ------------------------------------------------------------------------------------------------------------------
 * Descriptors.
 */

static int make(int is) {
    int made = 3;
    while (made < DESCRIPTORS && descriptors[made].is != NONE) made++;
    if (made == DESCRIPTORS) fail("there are too many descriptors");
    descriptors[made] = (descriptor){ .is = is };
    return made;
}

static descriptor *find(int number, int is) {
    if (number < 0 || number >= DESCRIPTORS || (int)descriptors[number].is != is) fail("a descriptor is not what it should be");
    return &descriptors[number];
}

/* The first peer that waits at a listener, or NULL. */
static peer *waiting_at(const descriptor *listener) {
    for (int i = 0; i < peer_count; i++) {
        if (dialled[i] == listener->number && !peers[i].is_taken_in) return &peers[i];
    }
    return NULL;
}

static short found_at(const struct pollfd *at) {
    const descriptor *of = &descriptors[at->fd];
    int found = 0;
    switch (of->is) {
    case NONE: return POLLNVAL;
    case LISTENER: found = waiting_at(of) != NULL ? POLLIN : 0; break;
    case EVENT: found = of->count > 0 ? POLLIN : 0; break;
    case SOCKET:
        found = (of->at->to_server.count > 0 || of->at->has_hung_up ? POLLIN : 0) | (of->at->has_hung_up ? POLLRDHUP : 0)
              | (of->at->from_server.count < of->at->room ? POLLOUT : 0);
    }
    return (short)(found & at->events);
}

static int look(struct pollfd *all, nfds_t count) {
    int found = 0;
    for (nfds_t i = 0; i < count; i++) {
        all[i].revents = found_at(&all[i]);
        found += all[i].revents != 0;
    }
    return found;
}

/* Something has come. Those who poll for it go on. */
static void tell_pollers(void) {
    for (int i = 0; i < MOST_ACTORS; i++) {
        if (pollers[i].all != NULL && look(pollers[i].all, pollers[i].count) > 0) wake_at(&pollers[i].word, 1);
    }
}

static bool is_interrupted(void) {
    if (left.early_ends == 0 || choose(2) == 0) return false;
    left.early_ends--;
    tell_step(".. is interrupted");
    return true;
}

int open_event(void) { return make(EVENT); }

int add_to_event(int event, uint64_t more) {
    step("write to the eventfd");
    if (is_interrupted()) return fail_as(EINTR);
    find(event, EVENT)->count += more;
    tell_pollers();
    return 0;
}

int take_from_event(int event, uint64_t *count) {
    step("read the eventfd");
    descriptor *of = find(event, EVENT);
    if (is_interrupted()) return fail_as(EINTR);
    if (of->count == 0) return fail_as(EAGAIN);
    *count = of->count;
    of->count = 0;
    return 0;
}

/* Waits for one of them, for at most this time. Only while somebody else could go on does a long wait end by its time. */
static int wait_for(struct pollfd *all, nfds_t count, int64_t most, bool is_long) {
    poller *self = &pollers[who_runs()];
    step(most == 0 ? "poll, and go on" : is_long ? "poll for long" : "poll for a while");
    int found = look(all, count);
    if (found > 0 || most == 0) return found;
    if (is_interrupted()) return fail_as(EINTR);
    self->all = all;
    self->count = count;
    self->is_long = is_long;
    if (is_long) {
        sleep_long_at(&self->word, time_ns + most);
    } else {
        sleep_at(&self->word, 1, time_ns + most);
    }
    self->all = NULL;
    return look(all, count);
}

int poll_all(struct pollfd *all, nfds_t count, const struct timespec *time) {
    int64_t most = (int64_t)time->tv_sec * 1000000000 + time->tv_nsec;
    return wait_for(all, count, most, most >= LONG_NS);
}

int poll_within(struct pollfd *all, nfds_t count, int milliseconds) {
    return wait_for(all, count, (int64_t)milliseconds * 1000000, false);
}

/* Takes the first bytes of a stream. */
static size_t take(stream *from, void *bytes, size_t room) {
    size_t count = from->count < room ? from->count : room;
    memcpy(bytes, from->bytes, count);
    memmove(from->bytes, from->bytes + count, from->count - count);
    from->count -= count;
    return count;
}

static void add(stream *to, const void *bytes, size_t count) {
    if (count > BYTES - to->count) fail("a stream is full");
    memcpy(to->bytes + to->count, bytes, count);
    to->count += count;
}

ssize_t receive(int socket, void *bytes, size_t room) {
    step("receive");
    peer *from = find(socket, SOCKET)->at;
    if (is_interrupted()) return fail_as(EINTR);
    size_t count = take(&from->to_server, bytes, room);
    return count > 0 || from->has_hung_up ? (ssize_t)count : fail_as(EAGAIN);
}

ssize_t transmit(int socket, const void *bytes, size_t count) {
    step("send");
    peer *to = find(socket, SOCKET)->at;
    size_t left_there = to->room - to->from_server.count;
    if (is_interrupted()) return fail_as(EINTR);
    if (to->has_hung_up) return fail_as(EPIPE);
    if (left_there == 0) return fail_as(EAGAIN);
    count = count < left_there ? count : left_there;
    add(&to->from_server, bytes, count);
    wake_at(&to->word, 1);
    return (ssize_t)count;
}

int take_in_peer(int listener) {
    step("accept");
    peer *next = waiting_at(find(listener, LISTENER));
    if (is_interrupted()) return fail_as(EINTR);
    if (next == NULL) return fail_as(EAGAIN);
    int made = make(SOCKET);
    descriptors[made].at = next;
    next->is_taken_in = true;
    return made;
}

int say_no_more(int socket) {
    peer *to = find(socket, SOCKET)->at;
    to->is_hung_up_on = true;
    wake_at(&to->word, 1);
    return 0;
}

int duplicate(int descriptor) { return make(find(descriptor, EVENT)->is); }

void close_socket(int *socket) {
    int closed = *socket;
    *socket = -1;
    if (closed < 0) return;
    if (descriptors[closed].is == NONE) fail("a descriptor is closed twice");
    if (descriptors[closed].is == SOCKET) say_no_more(closed);
    descriptors[closed].is = NONE;
}

uint32_t open_listener(listener *made, const char *address) {
    *made = (listener){ .socket = make(LISTENER), .path = "socket" };
    (void)address;
    descriptors[made->socket].number = listeners++;
    return CQ_OK;
}

void close_listener(listener *of) { close_socket(&of->socket); }

bool is_own_peer(int socket) { return !find(socket, SOCKET)->at->is_stranger; }

int read_servers_clock(clockid_t clock, struct timespec *at) {
    (void)clock;
    time_ns += 1000;
    *at = (struct timespec){ time_ns / 1000000000, time_ns % 1000000000 };
    return 0;
}

int nap_for(const struct timespec *time) {
    static const uint32_t nothing;
    step("nap");
    sleep_at(&nothing, 1, time_ns + (int64_t)time->tv_sec * 1000000000 + time->tv_nsec);
    return 0;
}

/* ------------------------------------------------------------------------------------------------------------------
 * Threads.
 */

void take_lock(lock *of) {
    step("take a lock");
    while (of->is_held) sleep_at(&of->is_held, 1, -1);
    of->is_held = true;
}

void give_lock(lock *of) {
    if (!of->is_held) fail("a lock is given that is not held");
    of->is_held = false;
    wake_at(&of->is_held, 1);
}

void await_condition(condition *of, lock *held) {
    give_lock(held);
    if (!is_interrupted()) sleep_at(&of->unused, 1, -1);
    take_lock(held);
}

void meet_condition(condition *of) { wake_at(&of->unused, 1); }

int begin_thread(unsigned long *made, void *(*run)(void *), void *of) {
    int number = 0;
    while (number < THREADS && threads[number].run != NULL) number++;
    if (number == THREADS) fail("there are too many threads");
    *made = (unsigned long)number + 1;
    threads[number].run = run;
    threads[number].of = of;
    wake_at(&threads[number].word, 1);
    return 0;
}

int await_thread(unsigned long number) {
    thread *of = &threads[number - 1];
    step("join");
    while (!of->is_over) sleep_at(&of->word, 1, -1);
    return 0;
}

unsigned long own_thread(void) {
    for (int i = 0; i < THREADS; i++) {
        if (threads[i].is_there && threads[i].actor == who_runs()) return (unsigned long)i + 1;
    }
    return 0;
}

static void be_server(int number) {
    thread *self = &threads[number];
    while (self->run == NULL) sleep_at(&self->word, 1, -1);
    self->is_there = true;
    self->actor = who_runs();
    self->run(self->of);
    self->is_over = true;
    wake_at(&self->word, 1);
}

void be_server_0(void) { be_server(0); }
void be_server_1(void) { be_server(1); }

bool servers_rest(void) {
    for (int i = 0; i < THREADS; i++) {
        const poller *of = &pollers[threads[i].actor];
        if (threads[i].run != NULL && (!threads[i].is_there || of->all == NULL || !of->is_long)) return false;
    }
    return true;
}

/* ------------------------------------------------------------------------------------------------------------------
 * Peers.
 */

peer *dial(int number, size_t room) {
    step("dial");
    if (peer_count == PEERS) fail("there are too many peers");
    peer *made = &peers[peer_count];
    made->room = room < BYTES ? room : BYTES;
    dialled[peer_count++] = number;
    tell_pollers();
    return made;
}

void dial_as_stranger(int number) { dial(number, 0)->is_stranger = true; }

void say(peer *to, const void *bytes, size_t count) {
    step("say");
    add(&to->to_server, bytes, count);
    tell_pollers();
}

void hear(peer *from, void *bytes, size_t count) {
    for (size_t got = 0; got < count;) {
        step("hear");
        while (from->from_server.count == 0 && !from->is_hung_up_on) sleep_at(&from->word, 1, -1);
        if (from->from_server.count == 0) fail("a server hangs up");
        got += take(&from->from_server, (uint8_t *)bytes + got, count - got);
        tell_pollers();
    }
}

void hang_up(peer *from) {
    step("hang up");
    from->has_hung_up = true;
    tell_pollers();
}
