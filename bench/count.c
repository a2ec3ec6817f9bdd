// Counts the memory that a program moves: a library that is loaded before memcpy, memmove and memset of the C library. At
// SIGTERM it prints the number of calls and the octets that they moved, on standard error, and ends the program.
//
//     gcc -O2 -shared -fPIC -fno-builtin -o bench/out/count.so bench/count.c -ldl
#define _GNU_SOURCE
#include <signal.h>
#include <stddef.h>
#include <stdio.h>
#include <unistd.h>

static unsigned long calls, octets, large;

static void count(size_t length) {
    __atomic_fetch_add(&calls, 1, __ATOMIC_RELAXED);
    __atomic_fetch_add(&octets, length, __ATOMIC_RELAXED);
    if (length > 512) __atomic_fetch_add(&large, 1, __ATOMIC_RELAXED);
}

void *memcpy(void *to, const void *from, size_t length) {
    count(length);
    void *begin = to;
    __asm__ volatile("rep movsb" : "+D"(to), "+S"(from), "+c"(length) : : "memory");
    return begin;
}

void *memmove(void *to, const void *from, size_t length) {
    const char *target = to, *source = from;
    if (target <= source || target >= source + length) return memcpy(to, from, length);
    count(length);
    for (size_t i = length; i > 0; i--) ((volatile char *)to)[i - 1] = ((const char *)from)[i - 1];
    return to;
}

void *memset(void *to, int octet, size_t length) {
    count(length);
    void *begin = to;
    __asm__ volatile("rep stosb" : "+D"(to), "+c"(length) : "a"(octet) : "memory");
    return begin;
}

static void tell(int ended) {
    char line[128];
    int length = snprintf(line, sizeof line, "%lu calls, %lu octets, %lu calls of over 512 octets\n", calls, octets, large);
    (void)ended;
    (void)!write(2, line, (size_t)length);
    _exit(0);
}

__attribute__((constructor)) static void begin(void) { signal(SIGTERM, tell); }
