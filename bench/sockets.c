// Counts the processor time that a program spends in calls of its sockets, including the kernel's: a library that is loaded
// before recv, recvfrom, send, sendto and epoll_wait of the C library. At SIGTERM it prints the number of calls and the
// microseconds that they took, on standard error, and ends the program.
//
//     gcc -O2 -shared -fPIC -o bench/out/sockets.so bench/sockets.c -ldl
#define _GNU_SOURCE
#include <signal.h>
#include <stdio.h>
#include <sys/epoll.h>
#include <sys/socket.h>
#include <sys/syscall.h>
#include <time.h>
#include <unistd.h>

enum { TRIES = 10000 };

static unsigned long calls, nanoseconds;
// The time that a clock call takes on its own, which isn't the program's.
static unsigned long asking;

static unsigned long now(void) {
    struct timespec time;
    syscall(SYS_clock_gettime, CLOCK_THREAD_CPUTIME_ID, &time);
    return (unsigned long)time.tv_sec * 1000000000 + (unsigned long)time.tv_nsec;
}

static long counted(unsigned long begin, long status) {
    __atomic_fetch_add(&nanoseconds, now() - begin + asking, __ATOMIC_RELAXED);
    __atomic_fetch_add(&calls, 1, __ATOMIC_RELAXED);
    return status;
}

ssize_t recvfrom(int file, void *octets, size_t length, int flags, struct sockaddr *from, socklen_t *size) {
    unsigned long begin = now();
    return counted(begin, syscall(SYS_recvfrom, file, octets, length, flags, from, size));
}

ssize_t recv(int file, void *octets, size_t length, int flags) { return recvfrom(file, octets, length, flags, NULL, NULL); }

ssize_t sendto(int file, const void *octets, size_t length, int flags, const struct sockaddr *to, socklen_t size) {
    unsigned long begin = now();
    return counted(begin, syscall(SYS_sendto, file, octets, length, flags, to, size));
}

ssize_t send(int file, const void *octets, size_t length, int flags) { return sendto(file, octets, length, flags, NULL, 0); }

int epoll_wait(int poll, struct epoll_event *events, int count, int timeout) {
    unsigned long begin = now();
    return (int)counted(begin, syscall(SYS_epoll_wait, poll, events, count, timeout));
}

static void tell(int ended) {
    char line[128];
    int length = snprintf(line, sizeof line, "%lu calls of sockets, %lu us\n", calls, nanoseconds / 1000);
    (void)ended;
    (void)!write(2, line, (size_t)length);
    _exit(0);
}

__attribute__((constructor)) static void begin(void) {
    unsigned long first = now(), between = 0;
    for (int i = 0; i < TRIES; i++) {
        unsigned long before = now();
        between += now() - before;
    }
    asking = (now() - first - between) / TRIES;
    signal(SIGTERM, tell);
}
