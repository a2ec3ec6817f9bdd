// The sockets of peers, and what the system counts of them. See wire.h.
#define _GNU_SOURCE
#include "wire.h"

#include <arpa/inet.h>
#include <linux/sock_diag.h>
#include <stdio.h>
#include <stdlib.h>
#include <string.h>
#include <sys/socket.h>
#include <time.h>

enum { BATCH = 32, ROOM = 8 << 20 };

int wire_of(unsigned port, unsigned exchange) {
    struct sockaddr_in at = {.sin_family = AF_INET, .sin_port = htons((unsigned short)port)};
    struct sockaddr_in to = {.sin_family = AF_INET, .sin_port = htons((unsigned short)exchange)};
    int wire = socket(AF_INET, SOCK_DGRAM, 0), room = ROOM, yes = 1;
    at.sin_addr.s_addr = to.sin_addr.s_addr = htonl(INADDR_LOOPBACK);
    setsockopt(wire, SOL_SOCKET, SO_RCVBUF, &room, sizeof room);
    setsockopt(wire, SOL_SOCKET, SO_SNDBUF, &room, sizeof room);
    setsockopt(wire, SOL_SOCKET, SO_TIMESTAMPNS, &yes, sizeof yes);
    if (bind(wire, (struct sockaddr *)&at, sizeof at) != 0 || connect(wire, (struct sockaddr *)&to, sizeof to) != 0) return -1;
    return wire;
}

int read_peer(struct peer *peer, int place, char *text) {
    char *port = strtok(text, ":"), *exchange = strtok(NULL, ":");
    peer->prefix = strtok(NULL, ":"), peer->secret = strtok(NULL, "");
    if (!peer->prefix) return 0;
    peer->wire = wire_of((unsigned)atoi(port), (unsigned)atoi(exchange)), peer->place = place;
    return 1;
}

static long long ns_of(struct timespec time) { return time.tv_sec * 1000000000ll + time.tv_nsec; }

long long wall_ns(void) {
    struct timespec time;
    clock_gettime(CLOCK_REALTIME, &time);
    return ns_of(time);
}

// Returns the system's moment for a datagram.
static long long moment_of(struct msghdr *head) {
    for (struct cmsghdr *it = CMSG_FIRSTHDR(head); it; it = CMSG_NXTHDR(head, it))
        if (it->cmsg_level == SOL_SOCKET && it->cmsg_type == SCM_TIMESTAMPNS) {
            struct timespec time;
            memcpy(&time, CMSG_DATA(it), sizeof time);
            return ns_of(time);
        }
    return wall_ns();
}

int receive(struct peer *peer, void (*take)(struct peer *peer, const unsigned char *octets, unsigned length, long long moment)) {
    static unsigned char octets[BATCH][MOST_OCTETS], more[BATCH][64];
    struct iovec parts[BATCH];
    struct mmsghdr all[BATCH];
    memset(all, 0, sizeof all);
    for (int place = 0; place < BATCH; place++) {
        parts[place] = (struct iovec){octets[place], MOST_OCTETS};
        all[place].msg_hdr.msg_iov = &parts[place], all[place].msg_hdr.msg_iovlen = 1;
        all[place].msg_hdr.msg_control = more[place], all[place].msg_hdr.msg_controllen = sizeof more[place];
    }
    int count = recvmmsg(peer->wire, all, BATCH, MSG_DONTWAIT, NULL);
    for (int place = 0; place < count; place++) take(peer, octets[place], all[place].msg_len, moment_of(&all[place].msg_hdr));
    return count > 0;
}

unsigned drops_of(const struct peer *peer) {
    unsigned counts[SK_MEMINFO_VARS] = {0};
    socklen_t size = sizeof counts;
    getsockopt(peer->wire, SOL_SOCKET, SO_MEMINFO, counts, &size);
    return counts[SK_MEMINFO_DROPS];
}

unsigned long waiting_at(unsigned port, unsigned peer) {
    char line[512];
    unsigned own, remote;
    unsigned long queue = 0, found;
    FILE *table = fopen("/proc/net/udp", "r");
    while (table && fgets(line, sizeof line, table)) {
        if (sscanf(line, "%*d: %*x:%x %*x:%x %*x %*x:%lx", &own, &remote, &found) != 3 || own != port) continue;
        if (remote == peer || !remote) queue += found;
    }
    if (table) fclose(table);
    return queue;
}
