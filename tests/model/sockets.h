/* sockets.h: descriptors and threads in place of the operating system's, and the peers of the servers' sockets. */
#ifndef SOCKETS_H
#define SOCKETS_H

#define _GNU_SOURCE
#include "explore.h"

#include <poll.h>
#include <sys/types.h>
#include <time.h>

/* ------------------------------------------------------------------------------------------------------------------
 * What a server's thread calls. Each that may find something else after another actor's step is a step.
 */

int open_event(void);
int add_to_event(int event, uint64_t more);
int take_from_event(int event, uint64_t *count);
int poll_all(struct pollfd *all, nfds_t count, const struct timespec *time);
/* The same, of a wait that may end by its time in any case. */
int poll_within(struct pollfd *all, nfds_t count, int milliseconds);
ssize_t receive(int socket, void *bytes, size_t room);
ssize_t transmit(int socket, const void *bytes, size_t count);
int take_in_peer(int listener);
int say_no_more(int socket);
int duplicate(int descriptor);
int nap_for(const struct timespec *time);
/* A look takes a microsecond, whatever it takes of others. */
int read_servers_clock(clockid_t clock, struct timespec *at);

typedef struct { uint32_t is_held; } lock;
typedef struct { uint32_t unused; } condition;

void take_lock(lock *of);
void give_lock(lock *of);
void await_condition(condition *of, lock *held);
void meet_condition(condition *of);

/* A thread is one of the actors below. */
int begin_thread(unsigned long *made, void *(*run)(void *), void *of);
int await_thread(unsigned long thread);
unsigned long own_thread(void);

/* ------------------------------------------------------------------------------------------------------------------
 * What scenarios have of it.
 */

/* The actors that are the servers' threads, in the order in which those are made. */
void be_server_0(void);
void be_server_1(void);

/* Whether each server's thread sleeps for long. */
bool servers_rest(void);

/* A peer of the server that began to listen as the one with this number. Its end takes so many bytes before they are read. A
 * stranger is none of this user's, nor root's. */
typedef struct peer peer;
peer *dial(int listener, size_t room);
void dial_as_stranger(int listener);
void say(peer *to, const void *bytes, size_t count);
void hear(peer *from, void *bytes, size_t count);
void hang_up(peer *from);

#endif
