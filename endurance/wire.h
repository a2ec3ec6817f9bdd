// The sockets of peers: each on loopback, connected to a port of an exchange.
#ifndef WIRE_H
#define WIRE_H

#include "leg.h"

// Returns a socket with this port, connected to that of an exchange; -1 if the port can't be had. It has much room, and its
// datagrams have the moments at which they came.
int wire_of(unsigned port, unsigned exchange);
// Reads PORT:EXCHANGE_PORT:PREFIX[:SECRET] into the peer at a place, with its socket. Returns false if a part is missing.
int read_peer(struct peer *peer, int place, char *text);
// Receives the available datagrams of a peer, a batch at most. Gives each to `take`, with the moment at which the system had
// it. Returns whether there were any.
int receive(struct peer *peer, void (*take)(struct peer *peer, const unsigned char *octets, unsigned length, long long moment));
// Returns the number of datagrams that the system dropped at a peer's socket.
unsigned drops_of(const struct peer *peer);
// Returns the number of octets that wait at the socket of an exchange's port which is connected to a peer's, and at the one
// that is connected to none, by /proc/net/udp. The system counts its own for each datagram too.
unsigned long waiting_at(unsigned port, unsigned peer);
// Returns nanoseconds, by the system's clock, which also gives the moments of datagrams.
long long wall_ns(void);

#endif
