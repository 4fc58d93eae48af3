/* cebdyraq_listen.h: sockets that listen at addresses of this machine. It is not installed. */
#ifndef CEBDYRAQ_LISTEN_H
#define CEBDYRAQ_LISTEN_H

#include <stdint.h>
#include <sys/types.h>

/* A socket that listens. It lies in a cq_server. */
typedef struct __attribute__((may_alias)) {
    int socket;      /* or -1 */
    uint16_t port;   /* 0 at a Unix socket */
    char path[108];  /* of a Unix socket, or empty */
    dev_t device;    /* of the file at the path, with its number there */
    ino_t file;
} listener;

/* Listens at "127.0.0.1:PORT", "[::1]:PORT" or "localhost:PORT", or at "unix:PATH". With a code other than CQ_OK `made` is to be
 * closed nevertheless. CQ_ILLEGAL_ARGUMENT 103: it is no such address. CQ_SYSTEM 306: errno says why. */
uint32_t open_listener(listener *made, const char *address);

/* Closes it, and removes the file of a Unix socket, unless another file has taken its place. */
void close_listener(listener *of);

/* Closes a socket, if there is one, and leaves -1. It is -1 before it is closed: a child of a fork closes what it finds. */
void close_socket(int *socket);

#endif
