/* cebdyraq_peer.c: see cebdyraq_peer.h. At a Unix socket the system keeps the user who connected. At a port, the peer's own socket
 * is looked for in the tables of TCP: the row whose ends are ours, the other way round. */
#define _GNU_SOURCE
#include "cebdyraq_peer.h"

#include <arpa/inet.h>
#include <inttypes.h>
#include <netinet/in.h>
#include <stdint.h>
#include <stdio.h>
#include <string.h>
#include <sys/socket.h>
#include <unistd.h>

static const char FOUR[] = "/proc/thread-self/net/tcp", SIX[] = "/proc/thread-self/net/tcp6";
static const char OVERFLOW_USER[] = "/proc/sys/kernel/overflowuid";
enum { ESTABLISHED = 1, END_LENGTH = 38, ROW_LENGTH = 512 };

typedef union {
    struct sockaddr any;
    struct sockaddr_in four;
    struct sockaddr_in6 six;
} end;

/* Both ends of a connection, as the tables write them. */
typedef struct { char local[END_LENGTH], remote[END_LENGTH]; } ends;

static void write_four(const struct sockaddr_in *at, char *text) {
    snprintf(text, END_LENGTH, "%08" PRIX32 ":%04X", (uint32_t)at->sin_addr.s_addr, ntohs(at->sin_port));
}

static void write_six(const struct in6_addr *at, in_port_t port, char *text) {
    uint32_t words[4];
    memcpy(words, at, sizeof words);
    snprintf(text, END_LENGTH, "%08" PRIX32 "%08" PRIX32 "%08" PRIX32 "%08" PRIX32 ":%04X", words[0], words[1], words[2], words[3],
             ntohs(port));
}

/* The address as a socket of IPv6 has it. */
static struct in6_addr as_six(const end *of) {
    struct in6_addr made = { .s6_addr = { [10] = 0xff, [11] = 0xff } };
    if (of->any.sa_family == AF_INET6) {
        return of->six.sin6_addr;
    }
    memcpy(made.s6_addr + 12, &of->four.sin_addr, 4);
    return made;
}

static void write_end(const end *of, bool is_six, char *text) {
    if (is_six) {
        struct in6_addr at = as_six(of);
        write_six(&at, of->any.sa_family == AF_INET6 ? of->six.sin6_port : of->four.sin_port, text);
    } else {
        write_four(&of->four, text);
    }
}

/* Whether a row is of an open connection with these ends. Writes the row's user. Once its process has closed a socket, the table
 * shows root as the user, and another state. */
static bool is_row_of(const char *row, const ends *wanted, uid_t *user) {
    ends found;
    unsigned state = 0, uid = 0;
    int read = sscanf(row, "%*d: %37s %37s %x %*s %*s %*s %u", found.local, found.remote, &state, &uid);
    *user = (uid_t)uid;
    return read == 4 && state == ESTABLISHED && !strcmp(found.local, wanted->local) && !strcmp(found.remote, wanted->remote);
}

/* Looks for the user of an open connection in a table. */
static bool find_user(const char *table, const ends *wanted, uid_t *user) {
    char row[ROW_LENGTH];
    bool is_found = false;
    FILE *file = fopen(table, "re");
    while (file != NULL && !is_found && fgets(row, sizeof row, file) != NULL) {
        is_found = is_row_of(row, wanted, user);
    }
    if (file != NULL) {
        fclose(file);
    }
    return is_found;
}

/* Looks for the user of the peer in the table of IPv6, or of IPv4. */
static bool find_in(bool is_six, const end *peer, const end *own, uid_t *user) {
    ends wanted;
    write_end(peer, is_six, wanted.local);
    write_end(own, is_six, wanted.remote);
    return find_user(is_six ? SIX : FOUR, &wanted, user);
}

/* The user of a peer at a port. At an IPv4 address its socket may be one of IPv6. */
static bool user_at_port(const end *peer, const end *own, uid_t *user) {
    return (peer->any.sa_family == AF_INET && find_in(false, peer, own, user)) || find_in(true, peer, own, user);
}

/* The same twice: if the peer closes while a row is written, the row may have the state from before and the user from after. The
 * next row has another state then. */
static bool user_at_open_port(const end *peer, const end *own, uid_t *user) {
    uid_t first = 0;
    return user_at_port(peer, own, &first) && user_at_port(peer, own, user) && *user == first;
}

static bool user_at_path(int socket, uid_t *user) {
    struct ucred found;
    socklen_t size = sizeof found;
    bool is_told = getsockopt(socket, SOL_SOCKET, SO_PEERCRED, &found, &size) == 0;
    *user = is_told ? found.uid : 0;
    return is_told;
}

static bool user_of_peer(int socket, uid_t *user) {
    end own, peer;
    socklen_t own_size = sizeof own, peer_size = sizeof peer;
    if (getsockname(socket, &own.any, &own_size)) {
        return false;
    }
    if (own.any.sa_family == AF_UNIX) {
        return user_at_path(socket, user);
    }
    return getpeername(socket, &peer.any, &peer_size) == 0 && user_at_open_port(&peer, &own, user);
}

/* The user as whom the system shows all that are not mapped in this user namespace. */
static uid_t overflow_user(void) {
    unsigned user = 65534;
    FILE *file = fopen(OVERFLOW_USER, "re");
    if (file != NULL) {
        if (fscanf(file, "%u", &user) != 1) user = 65534;
        fclose(file);
    }
    return (uid_t)user;
}

bool is_own_peer(int socket) {
    uid_t user = 0;
    return user_of_peer(socket, &user) && user != overflow_user() && (user == 0 || user == geteuid());
}
