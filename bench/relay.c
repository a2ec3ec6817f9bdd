// A plain UDP relay between two peers, to compare the exchange with: it sends the datagrams of one to the other, unread.
//
// relay PORT WEST_PORT EAST_PORT [ROOM], all on 127.0.0.1. It runs until it is ended. With ROOM it asks for a receive
// buffer of this number of octets at its socket.
#include <arpa/inet.h>
#include <netinet/in.h>
#include <stdio.h>
#include <stdlib.h>
#include <sys/socket.h>

static struct sockaddr_in local(const char *port) {
    struct sockaddr_in address = {.sin_family = AF_INET, .sin_port = htons((unsigned short)atoi(port))};
    address.sin_addr.s_addr = htonl(INADDR_LOOPBACK);
    return address;
}

int main(int count, char **words) {
    if (count != 4 && count != 5) {
        fprintf(stderr, "usage: relay PORT WEST_PORT EAST_PORT [ROOM]\n");
        return 2;
    }
    struct sockaddr_in at = local(words[1]), west = local(words[2]), east = local(words[3]);
    int wire = socket(AF_INET, SOCK_DGRAM, 0);
    if (wire < 0 || bind(wire, (struct sockaddr *)&at, sizeof at) != 0) {
        perror("relay");
        return 1;
    }
    int room = count == 5 ? atoi(words[4]) : 0;
    if (room) setsockopt(wire, SOL_SOCKET, SO_RCVBUF, &room, sizeof room);
    static char octets[2049];
    for (;;) {
        struct sockaddr_in from;
        socklen_t length = sizeof from;
        ssize_t got = recvfrom(wire, octets, sizeof octets, 0, (struct sockaddr *)&from, &length);
        if (got < 0) continue;
        struct sockaddr_in *to = from.sin_port == west.sin_port ? &east : &west;
        (void)sendto(wire, octets, (size_t)got, 0, (struct sockaddr *)to, sizeof *to);
    }
}
