/* cebdyraq_peer.h: who is at the other end of a socket. It is not installed. */
#ifndef CEBDYRAQ_PEER_H
#define CEBDYRAQ_PEER_H

#include <stdbool.h>

/* Whether the peer of a connection on this machine is a process of root's, or of this process's effective user. Where the system
 * does not tell, it is not. The overflow user may be anybody who is not mapped in this user namespace, and so is neither. */
bool is_own_peer(int socket);

#endif
