/* seal.h: what the files of coap-seal share. */
#ifndef SEAL_H
#define SEAL_H

#define _GNU_SOURCE
#include "ks_oscore.h"
#include "ks_udp6.h"
#include <sys/types.h>

#define DATAGRAM_ROOM 65536

/* A context, the peer that has it, and the socket by which the program knows that peer. */
typedef struct {
    ks_oscore *oscore;
    uint8_t peer[KS_UDP6_KEY];
    bool has_peer, is_connected;    /* a client's socket is connected */
    int inside;                     /* of an address of 127.0.0.0/8 of its own */
} session;

/* The keys of a file that its owner alone may read, with the file of their numbers beside it, NAME.numbers. What is
 * wrong is said on standard error. */
bool keys_open(const char *name, ks_oscore **made);
/* Draws the keys of two ends, and writes both with their files of numbers. */
bool keys_draw(const char *client, const char *server);

/* Starts a program, which ends with this one. Its number, or -1. */
pid_t program_start(char **words);
/* Whether a UDP socket of this port is the program's. */
bool program_has_port(pid_t program, uint16_t port);

/* Runs until the program ends: its status. */
int seal_client(session *s, int outside, pid_t program);
int seal_server(session *sessions, size_t count, int outside, pid_t program);
/* The socket of the inside of a client: its port, or 0. */
uint16_t inside_open(session *s);
/* That of a server's context, from an address of its own to this port. */
bool inside_connect(session *s, size_t place, uint16_t port);

#endif
