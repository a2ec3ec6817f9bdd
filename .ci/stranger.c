/* Stands before the C library. Before a UDP socket over IPv4 is connected, strangers send to its port the octets that the
   environment has as STRANGER, in hexadecimal digits, until a datagram waits at that very socket. Says so on standard
   error. */
#define _GNU_SOURCE
#include <dlfcn.h>
#include <netinet/in.h>
#include <stdio.h>
#include <stdlib.h>
#include <string.h>
#include <sys/ioctl.h>
#include <sys/socket.h>
#include <unistd.h>

/* Each has a port of its own, by which the system chooses one of the sockets at an endpoint. */
enum { STRANGERS = 256, OCTETS = 256 };

static int is_udp(int file, struct sockaddr_in *at)
{
    int type = 0;
    socklen_t length = sizeof type;

    if (getsockopt(file, SOL_SOCKET, SO_TYPE, &type, &length) != 0 || type != SOCK_DGRAM)
        return 0;
    length = sizeof *at;
    return getsockname(file, (struct sockaddr *)at, &length) == 0 && at->sin_family == AF_INET && at->sin_port != 0;
}

static size_t octets_of(const char *digits, unsigned char *octets)
{
    size_t count = 0;

    while (count < OCTETS && sscanf(digits + 2 * count, "%2hhx", octets + count) == 1)
        count++;
    return count;
}

static int has_one(int file)
{
    int length = 0;

    return ioctl(file, FIONREAD, &length) == 0 && length > 0;
}

static void send_first(int file, const struct sockaddr_in *at, const char *digits)
{
    static const char said[] = "a stranger came first\n";
    unsigned char octets[OCTETS];
    size_t count = octets_of(digits, octets);

    for (int place = 0; place < STRANGERS && !has_one(file); place++) {
        int stranger = socket(AF_INET, SOCK_DGRAM | SOCK_CLOEXEC, 0);

        if (stranger < 0)
            return;
        sendto(stranger, octets, count, 0, (const struct sockaddr *)at, sizeof *at);
        close(stranger);
    }
    if (has_one(file) && write(STDERR_FILENO, said, sizeof said - 1) < 0)
        abort();
}

int connect(int file, const struct sockaddr *to, socklen_t length)
{
    int (*connects)(int, const struct sockaddr *, socklen_t);
    const char *digits = getenv("STRANGER");
    struct sockaddr_in at;

    if (digits != NULL && is_udp(file, &at))
        send_first(file, &at, digits);
    *(void **)&connects = dlsym(RTLD_NEXT, "connect");
    return connects(file, to, length);
}
