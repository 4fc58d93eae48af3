/* cebdyraq_servers.h: what cebdyraq_serve.c gives to cebdyraq_wait.c. It is not installed, and the shared library exports none of it. */
#ifndef CEBDYRAQ_SERVERS_H
#define CEBDYRAQ_SERVERS_H

#include "cebdyraq_wait.h"

/* Wakes the servers that look for stops in a service with this signal, but for one whose thread calls it. It is a load if none looks. */
void cebdyraq_wake_servers(const cq_signal *signal);

#endif
