/* jdwp.h: packets of the debug wire protocol, whose data is written in hexadecimal digits. */
#ifndef JDWP_H
#define JDWP_H

#include "check.h"

#define HANDSHAKE "JDWP-Handshake"

enum { HEAD = 11, LONGEST_PACKET = 65536 };

/* Bytes that are put together. */
typedef struct { size_t length; uint8_t bytes[LONGEST_PACKET]; } packet;

/* Adds a number of so many bytes, the highest first. */
void add_number(packet *to, uint64_t number, size_t size);

/* Adds the bytes that digits spell. Spaces are passed over. "s:work" is a text behind its length, up to the next space. */
void add_data(packet *to, const char *data);

/* A request with this id. */
void make_request(packet *made, uint32_t id, uint8_t set, uint8_t command, const char *data);

/* The reply to it, with an error. */
void make_reply(packet *made, uint32_t id, uint16_t error, const char *data);

/* The number at the front of these bytes. */
uint32_t number_at(const uint8_t *bytes, size_t size);

/* The bytes are those that are wanted. */
void check_bytes(const uint8_t *found, size_t count, const packet *wanted);

#endif
