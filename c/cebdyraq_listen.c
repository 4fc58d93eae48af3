/* cebdyraq_listen.c: see cebdyraq_listen.h. */
#define _GNU_SOURCE
#include "cebdyraq_listen.h"
#include "cebdyraq_serve.h"

#include <errno.h>
#include <netinet/in.h>
#include <stdbool.h>
#include <stdlib.h>
#include <string.h>
#include <sys/socket.h>
#include <sys/stat.h>
#include <sys/un.h>
#include <unistd.h>

enum { BACKLOG = 64 };

/* An address to listen at. */
typedef union {
    struct sockaddr any;
    struct sockaddr_in four;
    struct sockaddr_in6 six;
    struct sockaddr_un unix_path;
} address;
_Static_assert(sizeof((listener){ 0 }.path) == sizeof((struct sockaddr_un){ 0 }.sun_path), "a path fits");

void close_socket(int *socket) {
    int closed = *socket;
    *socket = -1;
    if (closed >= 0) {
        close(closed);
    }
}

static bool read_port(const char *text, uint16_t *port) {
    char *end = NULL;
    unsigned long number = text[0] >= '0' && text[0] <= '9' ? strtoul(text, &end, 10) : UINT16_MAX + 1UL;
    *port = (uint16_t)number;
    return number <= UINT16_MAX && *end == 0;
}

/* Reads "HOST:PORT". Only hosts of this machine are served. Returns the length of the address, or 0. */
static socklen_t read_host(const char *text, address *at) {
    static const char *const fours[] = { "127.0.0.1:", "localhost:" };
    uint16_t port = 0;
    for (size_t i = 0; i < sizeof fours / sizeof *fours; i++) {
        size_t length = strlen(fours[i]);
        if (!strncmp(text, fours[i], length) && read_port(text + length, &port)) {
            at->four = (struct sockaddr_in){ .sin_family = AF_INET, .sin_port = htons(port), .sin_addr = { htonl(INADDR_LOOPBACK) } };
            return sizeof at->four;
        }
    }
    if (!strncmp(text, "[::1]:", 6) && read_port(text + 6, &port)) {
        at->six = (struct sockaddr_in6){ .sin6_family = AF_INET6, .sin6_port = htons(port), .sin6_addr = IN6ADDR_LOOPBACK_INIT };
        return sizeof at->six;
    }
    return 0;
}

/* Reads an address. Returns its length, or 0 if it is none. */
static socklen_t read_address(const char *text, address *at) {
    if (strncmp(text, "unix:", 5) != 0) {
        return read_host(text, at);
    }
    size_t length = strlen(text + 5);
    if (length == 0 || length >= sizeof at->unix_path.sun_path) {
        return 0;
    }
    at->unix_path.sun_family = AF_UNIX;
    memcpy(at->unix_path.sun_path, text + 5, length + 1);
    return sizeof at->unix_path;
}

/* Removes the file of a Unix socket at which nobody listens any more. */
static void remove_stale(const address *at) {
    int probe = socket(AF_UNIX, SOCK_STREAM | SOCK_CLOEXEC, 0);
    struct stat file;
    bool is_socket = stat(at->unix_path.sun_path, &file) == 0 && S_ISSOCK(file.st_mode);
    if (probe >= 0 && is_socket && connect(probe, &at->any, sizeof at->unix_path) && errno == ECONNREFUSED) {
        unlink(at->unix_path.sun_path);
    }
    close_socket(&probe);
}

/* Binds a socket to an address. The file of a Unix socket is for this user alone, also before its mode is set. */
static bool bind_to(int socket, const address *at, socklen_t length) {
    int yes = 1;
    if (at->any.sa_family != AF_UNIX) {
        setsockopt(socket, SOL_SOCKET, SO_REUSEADDR, &yes, sizeof yes);
        return bind(socket, &at->any, length) == 0;
    }
    remove_stale(at);
    return fchmod(socket, 0600) == 0 && bind(socket, &at->any, length) == 0 && chmod(at->unix_path.sun_path, 0600) == 0;
}

static void note_file(listener *made, const char *path) {
    struct stat file;
    if (lstat(path, &file) == 0) {
        memcpy(made->path, path, sizeof made->path);
        made->device = file.st_dev;
        made->file = file.st_ino;
    }
}

/* Whether the file at the path is still this listener's. No other has its number while the socket is open. */
static bool has_its_file(const listener *of) {
    struct stat file;
    return of->path[0] && lstat(of->path, &file) == 0 && file.st_dev == of->device && file.st_ino == of->file;
}

/* Listens at an address, and notes the port or the path. */
static bool listen_at(listener *made, const address *at, socklen_t length) {
    address bound;
    socklen_t size = sizeof bound;
    made->socket = socket(at->any.sa_family, SOCK_STREAM | SOCK_CLOEXEC | SOCK_NONBLOCK, 0);
    if (made->socket < 0 || !bind_to(made->socket, at, length)) {
        return false;
    }
    if (at->any.sa_family == AF_UNIX) {
        note_file(made, at->unix_path.sun_path);
    }
    if (listen(made->socket, BACKLOG) || getsockname(made->socket, &bound.any, &size)) {
        return false;
    }
    made->port = ntohs(at->any.sa_family == AF_INET ? bound.four.sin_port : at->any.sa_family == AF_INET6 ? bound.six.sin6_port : 0);
    return true;
}

uint32_t open_listener(listener *made, const char *where) {
    address at = { 0 };
    socklen_t length = read_address(where, &at);
    *made = (listener){ .socket = -1 };
    if (length == 0) {
        return CQ_ILLEGAL_ARGUMENT;
    }
    return listen_at(made, &at, length) ? CQ_OK : CQ_SYSTEM;
}

void close_listener(listener *of) {
    if (has_its_file(of)) {
        unlink(of->path);
    }
    close_socket(&of->socket);
    of->path[0] = 0;
}
