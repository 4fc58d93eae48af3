/* client.c: see client.h. */
#define _GNU_SOURCE
#include "client.h"

#include <netinet/in.h>
#include <sys/socket.h>
#include <sys/time.h>
#include <sys/un.h>
#include <unistd.h>

const char *server_path;

static int dial_at(int family, const void *at, socklen_t size) {
    struct timeval patience = { 10, 0 };
    int made = socket(family, SOCK_STREAM, 0);
    SAME(connect(made, at, size), 0);
    SAME(setsockopt(made, SOL_SOCKET, SO_RCVTIMEO, &patience, sizeof patience), 0);
    return made;
}

static int dial_path(const char *path) {
    struct sockaddr_un at = { .sun_family = AF_UNIX };
    snprintf(at.sun_path, sizeof at.sun_path, "%s", path);
    return dial_at(AF_UNIX, &at, sizeof at);
}

static int dial_port(uint16_t port) {
    struct sockaddr_in at = { .sin_family = AF_INET, .sin_port = htons(port), .sin_addr = { htonl(INADDR_LOOPBACK) } };
    return dial_at(AF_INET, &at, sizeof at);
}

int dial_to(uint16_t port) {
    return port == 0 ? dial_path(server_path) : dial_port(port);
}

int dial(const cq_server *server) {
    uint16_t port = 0;
    OK(cq_server_port(server, &port));
    return dial_to(port);
}

void say(int socket, const char *text) {
    size_t length = strlen(text);
    while (length > 0) {
        ssize_t sent = send(socket, text, length, MSG_NOSIGNAL);
        if (sent <= 0) {
            return;
        }
        text += sent;
        length -= (size_t)sent;
    }
}

/* Reads up to the empty line. Returns whether it came. */
static bool hear_head(int socket, char *head, size_t room) {
    size_t count = 0;
    while (count + 1 < room && recv(socket, head + count, 1, 0) == 1) {
        head[++count] = 0;
        if (count >= 4 && !memcmp(head + count - 4, "\r\n\r\n", 4)) {
            return true;
        }
    }
    return false;
}

void hear(int socket, answer *to, bool is_head) {
    *to = (answer){ 0 };
    if (!hear_head(socket, to->head, sizeof to->head)) {
        return;
    }
    const char *length = strstr(to->head, "\r\nContent-Length: ");
    CHECK(length != NULL);
    to->length = is_head ? 0 : strtoull(length + 18, NULL, 10);
    CHECK(to->length < ANSWER);
    to->body = calloc(to->length + 1, 1);
    SAME(to->length == 0 ? 0 : recv(socket, to->body, to->length, MSG_WAITALL), to->length);
    SAME(sscanf(to->head, "HTTP/1.1 %d ", &to->status), 1);
}

bool is_closed(int socket) {
    char byte;
    return recv(socket, &byte, 1, 0) == 0;
}

void get(const cq_server *server, const char *target, answer *to) {
    char request[2048];
    int socket = dial(server);
    snprintf(request, sizeof request, "GET %s HTTP/1.1\r\nHost: localhost\r\n\r\n", target);
    say(socket, request);
    hear(socket, to, false);
    close(socket);
}

void forget(answer *of) {
    free(of->body);
    of->body = NULL;
}

bool has_field(const answer *of, const char *line) {
    const char *at = strstr(of->head, line);
    return at != NULL && at[-1] == '\n' && !strncmp(at + strlen(line), "\r\n", 2);
}

bool has_text(const answer *of, const char *text) {
    return memmem(of->body, of->length, text, strlen(text)) != NULL;
}
