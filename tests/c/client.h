/* client.h: a client of HTTP for the tests, which reads one answer after another from a socket. */
#ifndef CLIENT_H
#define CLIENT_H

#include "../../c/cebdyraq_serve.h"
#include "check.h"

enum { ANSWER = 1 << 22 };

typedef struct {
    int status;
    char head[4096];
    size_t length;       /* of the body */
    uint8_t *body;       /* with a 0 behind it */
} answer;

/* A connection to a server, at its port, or at this path. */
int dial(const cq_server *server);
extern const char *server_path;

/* A connection to this port, or at the path for port 0. */
int dial_to(uint16_t port);

/* Sends all of a text. */
void say(int socket, const char *text);

/* Reads one answer. Its status is 0 if the peer has closed, or nothing came within 10 s. After HEAD there is no body. */
void hear(int socket, answer *to, bool is_head);

/* Whether the peer closes, without a byte more. */
bool is_closed(int socket);

/* A request on a connection of its own, by its target. */
void get(const cq_server *server, const char *target, answer *to);

void forget(answer *of);

/* Whether the head has this line. */
bool has_field(const answer *of, const char *line);

/* Whether the body has this text. */
bool has_text(const answer *of, const char *text);

#endif
