/* serve_fork.c: children of a fork, in which no server of the parent's runs. */
#define _GNU_SOURCE
#include "served.h"

#include <netinet/in.h>
#include <pthread.h>
#include <signal.h>
#include <sys/socket.h>
#include <sys/wait.h>
#include <unistd.h>

/* The server's handle is as one that never began. */
static bool is_forgotten(void) {
    uint16_t port = 0;
    return cq_server_port(&server, &port) == CQ_MISUSED && cq_serve_end(&server) == CQ_OK;
}

/* The child serves what it has made itself. (The thread sanitizer lets a child start no threads.) */
static bool begins_anew(void) {
#ifndef __SANITIZE_THREAD__
    cq_service own = { 0 };
    answer got;
    if (cq_make(4, 1, 2, 0, &own) != CQ_OK || cq_serve(&server, &own, NULL, "127.0.0.1:0", "child") != CQ_OK) return false;
    get(&server, "/", &got);
    if (got.status != 200 || cq_serve_end(&server) != CQ_OK || cq_free(&own) != CQ_OK) return false;
#endif
    return true;
}

static bool forgets_and_begins_anew(void) { return is_forgotten() && begins_anew(); }

/* A child in which this is so, and which lives on. It is killed in the end, so that nobody looks for leaks in its copy of the parent's
 * memory. */
static pid_t live_on(bool (*is_so)(void)) {
    char found = 0;
    int ends[2];
    SAME(pipe(ends), 0);
    fflush(NULL);
    pid_t child = fork();
    CHECK(child >= 0);
    if (child == 0) {
        found = is_so() ? 'y' : 'n';
        SAME(write(ends[1], &found, 1), 1);
        for (;;) pause();
    }
    close(ends[1]);
    SAME(read(ends[0], &found, 1), 1);
    SAME(found, 'y');
    close(ends[0]);
    return child;
}

static void end(pid_t child) {
    SAME(kill(child, SIGKILL), 0);
    SAME(waitpid(child, NULL, 0), child);
}

static void is_served(void) {
    answer got;
    get(&server, "/", &got);
    SAME(got.status, 200);
    forget(&got);
}

/* The child keeps no connection open, and not the port. */
static void keeps_no_port(void) {
    char address[32];
    uint16_t port = 0;
    begin_served("127.0.0.1:0");
    OK(cq_server_port(&server, &port));
    snprintf(address, sizeof address, "127.0.0.1:%u", port);
    int socket = dial(&server);
    pid_t child = live_on(forgets_and_begins_anew);
    is_served();
    end_served();
    CHECK(is_closed(socket));
    close(socket);
    begin_served(address);
    is_served();
    end_served();
    end(child);
}

/* What the child ends is not the parent's file. */
static void keeps_the_path(void) {
    static char address[80];
    snprintf(address, sizeof address, "unix:/tmp/cebdyraq-%d-fork.sock", (int)getpid());
    begin_served(address);
    pid_t child = live_on(forgets_and_begins_anew);
    end(child);
    server_path = address + 5;
    is_served();
    end_served();
    server_path = NULL;
}

enum { CHILDREN = 100, DESCRIPTORS = 256 };
static uint16_t its_port;
static uint32_t has_ended;

/* Debuggers that come and go, one after another. */
static void *come_and_go(void *unused) {
    (void)unused;
    while (!__atomic_load_n(&has_ended, __ATOMIC_SEQ_CST)) close(dial_to(its_port));
    return NULL;
}

/* Whether no socket of this process is the server's: the server's have their own end at its port. */
static bool has_none_at_the_port(void) {
    for (int i = 0; i < DESCRIPTORS; i++) {
        struct sockaddr_in at = { 0 };
        socklen_t size = sizeof at;
        if (getsockname(i, (struct sockaddr *)&at, &size) == 0 && at.sin_family == AF_INET && at.sin_port == htons(its_port)) return false;
    }
    return true;
}

/* Children are made while peers are taken in, looked at and turned away. None keeps a socket of the server's. */
static void keeps_no_newcomer(void) {
    static cq_service own;
    static cq_server debugged;
    pthread_t peers;
    OK(cq_make(4, 2, 2, 0, &own));
    OK(cq_debug_listen(&debugged, &own, NULL, "127.0.0.1:0", "forks", "/"));
    OK(cq_server_port(&debugged, &its_port));
    SAME(pthread_create(&peers, NULL, come_and_go, NULL), 0);
    for (int i = 0; i < CHILDREN; i++) end(live_on(has_none_at_the_port));
    __atomic_store_n(&has_ended, 1, __ATOMIC_SEQ_CST);
    pthread_join(peers, NULL);
    OK(cq_serve_end(&debugged));
    OK(cq_free(&own));
}

void forgets_in_a_child(void) {
    keeps_no_port();
    keeps_no_newcomer();
    keeps_the_path();
}
