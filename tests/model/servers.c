/* servers.c: cebdyraq_serve.c, or the file that SERVERS_C names, with steps in place of what it calls. A function of a door that neither
 * reads nor changes the service is no step. */
#define _GNU_SOURCE
#include "../../c/cebdyraq_serve.h"

#include <errno.h>
#include <fcntl.h>
#include <netinet/in.h>
#include <netinet/tcp.h>
#include <poll.h>
#include <pthread.h>
#include <signal.h>
#include <string.h>
#include <sys/eventfd.h>
#include <sys/prctl.h>
#include <sys/socket.h>
#include <time.h>

#include "calls.h"
#include "sockets.h"
#include "system.h"

#define eventfd(count, flags) open_event()
#define eventfd_write add_to_event
#define eventfd_read(event, count) take_from_event(event, (uint64_t *)(count))
#define ppoll(all, count, time, signals) poll_all(all, count, time)
#define poll(all, count, time) poll_within(all, count, time)
#define recv(socket, bytes, room, flags) receive(socket, bytes, room)
#define send(socket, bytes, count, flags) transmit(socket, bytes, count)
#define accept4(listener, address, length, flags) take_in_peer(listener)
#define shutdown(socket, how) say_no_more(socket)
#define setsockopt(socket, level, option, value, size) ((void)(value))
#define fcntl(descriptor, command, least) duplicate(descriptor)
#define nanosleep(time, left) nap_for(time)
#define clock_gettime read_servers_clock
#define prctl(option, value) ((void)(value))

#define pthread_mutex_t lock
#define pthread_cond_t condition
#undef PTHREAD_MUTEX_INITIALIZER
#undef PTHREAD_COND_INITIALIZER
#define PTHREAD_MUTEX_INITIALIZER { 0 }
#define PTHREAD_COND_INITIALIZER { 0 }
#define pthread_mutex_lock take_lock
#define pthread_mutex_unlock give_lock
#define pthread_cond_wait await_condition
#define pthread_cond_broadcast meet_condition
#define pthread_create(made, kind, run, of) begin_thread(made, run, of)
#define pthread_join(thread, result) await_thread(thread)
#define pthread_self own_thread
#define pthread_once(once, prepare) ((void)(once), prepare())
#define pthread_atfork(before, in_parent, in_child) ((void)(before), (void)(in_parent), (void)(in_child))
#define pthread_sigmask(how, set, old) ((void)(set), (void)(old))

#define cq_open_door(...) OR_BUSY(cq_open_door, __VA_ARGS__)
#define cq_open_debugger(...) OR_BUSY(cq_open_debugger, __VA_ARGS__)
#define cq_close_door(...) OR_BUSY(cq_close_door, __VA_ARGS__)
#define cq_door_next(...) ONE_STEP(cq_door_next, __VA_ARGS__)
#define cq_door_answer(...) ONE_STEP(cq_door_answer, __VA_ARGS__)
#define cq_door_disconnect(...) ONE_STEP(cq_door_disconnect, __VA_ARGS__)
#define cq_door_tick(...) ONE_STEP(cq_door_tick, __VA_ARGS__)

#define __atomic_load_n(at, order) load_word(at, "load " #at)
#define __atomic_fetch_add(at, more, order) add_to_word(at, more, "add to " #at)

#ifndef SERVERS_C
#define SERVERS_C "../../c/cebdyraq_serve.c"
#endif
#include SERVERS_C

void forget_servers(void) {
    first_server = NULL;
    looking = 0;
    of_servers = (lock)PTHREAD_MUTEX_INITIALIZER;
}

uint32_t count_looking(void) { return looking; }
