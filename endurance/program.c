// The words of this folder's programs, their end, their clock, and their seed (program.h).
#define _GNU_SOURCE
#include <errno.h>
#include <stdio.h>
#include <stdlib.h>
#include <string.h>
#include <time.h>

#include "program.h"

volatile sig_atomic_t is_told_to_end;
static unsigned long long state = 1;

static void end_soon(int signal) {
    (void)signal;
    is_told_to_end = 1;
}

void end_at_sigterm(void) { signal(SIGTERM, end_soon); }

void stop(const char *why) {
    fprintf(stderr, "%s: %s\n", program_invocation_short_name, why);
    exit(2);
}

double now(void) {
    struct timespec time;
    clock_gettime(CLOCK_MONOTONIC, &time);
    return (double)time.tv_sec + (double)time.tv_nsec / 1e9;
}

void set_seed(const char *text) { state = strtoull(text, NULL, 10) * 2 + 1; }

unsigned draw(void) {
    state = state * 6364136223846793005ull + 1442695040888963407ull;
    return (unsigned)(state >> 33);
}

unsigned below(unsigned bound) { return draw() % bound; }

void by_chance(unsigned char *octets, unsigned length) {
    for (unsigned place = 0; place < length; place++) octets[place] = (unsigned char)below(256);
}

const char *word_of(int count, char **words, const char *name, const char *otherwise) {
    size_t length = strlen(name);
    for (int place = 1; place < count; place++)
        if (strncmp(words[place], name, length) == 0 && words[place][length] == '=') return words[place] + length + 1;
    return otherwise;
}

void read_words(int count, char **words, void (*set)(const char *name, char *value)) {
    for (int place = 1; place < count; place++) {
        char *value = strchr(words[place], '=');
        if (!value) stop(words[place]);
        *value++ = 0;
        set(words[place], value);
    }
}

int set_one(const struct number *all, unsigned count, const char *name, const char *value) {
    for (unsigned place = 0; place < count; place++)
        if (strcmp(all[place].name, name) == 0) {
            *all[place].at = (unsigned)strtoul(value, NULL, 10);
            return 1;
        }
    return 0;
}
