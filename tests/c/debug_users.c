/* debug_users.c: who may attach: root, and the effective user of the process that listens, but for the overflow user. Only root can try
 * others. */
#define _GNU_SOURCE
#include "debugged.h"

#include <netinet/in.h>
#include <sched.h>
#include <signal.h>
#include <sys/socket.h>
#include <sys/stat.h>
#include <sys/wait.h>
#include <unistd.h>

enum { OVERFLOW = 65534, OWN = 65533, ANOTHER = 65532, MANY = 50 };

typedef bool trying(void);

static uint16_t known_port;  /* of the parent's server, which its children know no more */

static uint16_t port_now(void) {
    uint16_t port = known_port;
    MAYBE(cq_server_port(&debugged, &port));
    return port;
}

static bool greets(int socket) {
    bool greeted = is_greeted(socket);
    close(socket);
    return greeted;
}

static bool dials(void) {
    return greets(dial_to(port_now()));
}

/* By a socket of IPv6. */
static bool dials_six(struct in6_addr host) {
    struct sockaddr_in6 at = { .sin6_family = AF_INET6, .sin6_port = htons(port_now()), .sin6_addr = host };
    int made = socket(AF_INET6, SOCK_STREAM, 0);
    SAME(connect(made, (struct sockaddr *)&at, sizeof at), 0);
    return greets(made);
}

static bool dials_loopback_of_six(void) {
    return dials_six((struct in6_addr)IN6ADDR_LOOPBACK_INIT);
}

/* To 127.0.0.1, as such a socket writes it. */
static bool dials_four_by_six(void) {
    return dials_six((struct in6_addr){ .s6_addr = { [10] = 0xff, [11] = 0xff, [12] = 127, [15] = 1 } });
}

/* Asks to suspend all by many connections, and closes them: the system shows root as the user of a closed socket. */
static bool asks_and_vanishes(void) {
    static packet suspend;
    int sockets[MANY];
    make_request(&suspend, 7, 1, 8, "");
    for (size_t i = 0; i < MANY; i++) {
        sockets[i] = dial_to(port_now());
    }
    for (size_t i = 0; i < MANY; i++) {
        say(sockets[i], HANDSHAKE);
        MAYBE(send(sockets[i], suspend.bytes, suspend.length, MSG_NOSIGNAL));
        close(sockets[i]);
    }
    return false;
}

/* What a process of this user finds, as one letter. It is killed then, so that nobody looks for leaks in its copy of the parent's
 * memory. */
static char found_by(uid_t user, char (*look)(trying *what), trying *what) {
    char found = 0;
    int ends[2];
    SAME(pipe(ends), 0);
    MAYBE(cq_server_port(&debugged, &known_port));
    fflush(NULL);
    pid_t child = fork();
    CHECK(child >= 0);
    if (child == 0) {
        CHECK(seteuid(0) == 0 && setresuid(user, user, user) == 0);
        found = look(what);
        SAME(write(ends[1], &found, 1), 1);
        kill(getpid(), SIGKILL);
    }
    close(ends[1]);
    SAME(read(ends[0], &found, 1), 1);
    SAME(waitpid(child, NULL, 0), child);
    close(ends[0]);
    return found;
}

static char try_it(trying *what) { return what() ? 'y' : 'n'; }

static bool tried_as(uid_t user, trying *what) { return found_by(user, try_it, what) == 'y'; }

/* Listens at an address for this effective user, and lets others try. */
static void takes(const char *address, uid_t own, trying *what) {
    begin_debugged(address);
    SAME(seteuid(own), 0);
    CHECK(tried_as(0, what));
    CHECK(tried_as(own, what));
    CHECK(!tried_as(ANOTHER, what));
    CHECK(!tried_as(OVERFLOW, what));
    CHECK(tried_as(own, what));
    SAME(seteuid(0), 0);
    end_debugged();
}

/* What others ask for is not done. */
static void does_nothing_for_others(void) {
    begin_debugged("127.0.0.1:0");
    unsigned long before = calls_for_worker();
    tried_as(ANOTHER, asks_and_vanishes);
    CHECK(tried_as(0, dials));
    await_worker();
    SAME(calls_for_worker(), before);
    end_debugged();
}

static bool has_six(void) {
    int probe = socket(AF_INET6, SOCK_STREAM, 0);
    struct sockaddr_in6 at = { .sin6_family = AF_INET6, .sin6_addr = IN6ADDR_LOOPBACK_INIT };
    bool is_bound = probe >= 0 && bind(probe, (struct sockaddr *)&at, sizeof at) == 0;
    close(probe);
    return is_bound;
}

/* At a Unix socket whose file lets everybody in. */
static void takes_at_a_path(void) {
    static char address[80];
    snprintf(address, sizeof address, "unix:/tmp/cebdyraq-users-%d.sock", (int)getpid());
    server_path = address + 5;
    begin_debugged(address);
    SAME(chmod(server_path, 0666), 0);
    CHECK(tried_as(0, dials));
    CHECK(!tried_as(ANOTHER, dials));
    CHECK(tried_as(0, dials));
    end_debugged();
}

/* Listens in a user namespace that maps nobody, so that all users are shown as the overflow user. 's' if there is none. */
static char listen_unmapped(trying *what) {
    if (unshare(CLONE_NEWUSER) != 0) return 's';
    SAME(geteuid(), OVERFLOW);
    begin_debugged("127.0.0.1:0");
    char found = try_it(what);
    end_debugged();
    return found;
}

/* The same of a process that runs as the overflow user. */
static char listen_as_overflow(trying *what) {
    CHECK(setresuid(OVERFLOW, OVERFLOW, OVERFLOW) == 0);
    begin_debugged("127.0.0.1:0");
    char found = try_it(what);
    end_debugged();
    return found;
}

static void takes_no_overflow_user(void) {
    SAME(found_by(0, listen_as_overflow, dials), 'n');
    char found = found_by(0, listen_unmapped, dials);
    if (found == 's') {
        printf("skipped: no user namespace can be made\n");
    } else {
        SAME(found, 'n');
    }
}

void takes_own_users(void) {
    if (getuid() != 0) {
        printf("skipped: only root can try to attach as others\n");
        return;
    }
    takes("127.0.0.1:0", 0, dials);
    takes("127.0.0.1:0", OWN, dials);
    takes_no_overflow_user();
    does_nothing_for_others();
    takes_at_a_path();
    if (!has_six()) {
        printf("skipped: there is no IPv6\n");
        return;
    }
    takes("127.0.0.1:0", OWN, dials_four_by_six);
    takes("[::1]:0", OWN, dials_loopback_of_six);
}
