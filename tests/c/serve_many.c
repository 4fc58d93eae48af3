/* serve_many.c: bounds of connections and of profiles. */
#define _GNU_SOURCE
#include "served.h"

#include <dirent.h>
#include <poll.h>
#include <sys/socket.h>
#include <unistd.h>

#define HOST "Host: localhost\r\n\r\n"

/* Two profiles run at once, and a third is told when to come again. */
static void runs_two_profiles(void) {
    answer got;
    int sockets[3];
    for (int i = 0; i < 3; i++) {
        sockets[i] = dial(&server);
        say(sockets[i], "GET /debug/pprof/profile?seconds=7 HTTP/1.1\r\n" HOST);
        usleep(50000);
    }
    hear(sockets[2], &got, false);
    SAME(got.status, 503);
    CHECK(has_field(&got, "Retry-After: 7"));
    forget(&got);
    for (int i = 0; i < 2; i++) {
        shutdown(sockets[i], SHUT_WR);
        hear(sockets[i], &got, false);
        SAME(got.status, 200);
        forget(&got);
    }
    for (int i = 0; i < 3; i++) {
        close(sockets[i]);
    }
}

/* With 16 connections one that is idle makes room for the next. */
static void makes_room(void) {
    answer got;
    int sockets[CQ_DOOR_CONNECTIONS + 4];
    size_t count = sizeof sockets / sizeof *sockets;
    for (size_t i = 0; i < count; i++) {
        sockets[i] = dial(&server);
        say(sockets[i], "GET / HTTP/1.1\r\n" HOST);
        hear(sockets[i], &got, false);
        SAME(got.status, 200);
        forget(&got);
    }
    CHECK(is_closed(sockets[0]));
    for (size_t i = 0; i < count; i++) {
        close(sockets[i]);
    }
}

enum { PIPELINED = 999 };

/* A reader that asks for more than the system keeps for it. */
static int dial_slowly(void) {
    static char text[PIPELINED * 48];
    int room = 4096, made = dial(&server);
    size_t length = 0;
    for (int i = 0; i < PIPELINED; i++) {
        length += (size_t)snprintf(text + length, sizeof text - length, "GET /metrics HTTP/1.1\r\n" HOST);
    }
    SAME(setsockopt(made, SOL_SOCKET, SO_RCVBUF, &room, sizeof room), 0);
    say(made, text);
    return made;
}

/* Takes 1 KB of each, and waits for 100 ms. That is some 10 KB a second. */
static void read_slowly(const int *sockets, size_t count) {
    char bytes[1024];
    for (size_t i = 0; i < count; i++) {
        MAYBE(recv(sockets[i], bytes, sizeof bytes, MSG_DONTWAIT));
    }
    usleep(100000);
}

static bool has_come(int socket) {
    struct pollfd at = { socket, POLLIN, 0 };
    return poll(&at, 1, 0) == 1;
}

/* One of 16 slow readers gives way to a newcomer. */
static void slow_readers_give_way(void) {
    int sockets[CQ_DOOR_CONNECTIONS];
    answer got;
    for (size_t i = 0; i < CQ_DOOR_CONNECTIONS; i++) sockets[i] = dial_slowly();
    int newcomer = dial(&server);
    say(newcomer, "GET / HTTP/1.1\r\n" HOST);
    for (int i = 0; i < 300 && !has_come(newcomer); i++) read_slowly(sockets, CQ_DOOR_CONNECTIONS);
    CHECK(has_come(newcomer));
    hear(newcomer, &got, false);
    SAME(got.status, 200);
    forget(&got);
    close(newcomer);
    for (size_t i = 0; i < CQ_DOOR_CONNECTIONS; i++) close(sockets[i]);
}

/* How many files this process has open. */
static int open_files(void) {
    DIR *folder = opendir("/proc/self/fd");
    int count = 0;
    CHECK(folder != NULL);
    while (readdir(folder) != NULL) count++;
    closedir(folder);
    return count;
}

/* One that takes some bytes again and again, but too few, is closed. */
static void too_slow_a_reader_is_closed(void) {
    char byte;
    usleep(2000000);  /* so that connections of before have ended */
    int slow = dial_slowly();
    usleep(200000);
    int before = open_files();
    for (int i = 0; i < 600 && open_files() == before; i++) {
        MAYBE(recv(slow, &byte, 1, MSG_DONTWAIT));
        usleep(100000);
    }
    SAME(open_files(), before - 1);
    close(slow);
}

void keeps_its_bounds(void) {
    runs_two_profiles();
    makes_room();
}

void closes_slow_readers(void) {
    slow_readers_give_way();
    too_slow_a_reader_is_closed();
}
