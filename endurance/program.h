// Shared parts of this folder's programs: their words, their end, their clock, their seed.
#ifndef PROGRAM_H
#define PROGRAM_H

#include <signal.h>

// Whether SIGTERM has come since `end_at_sigterm`.
extern volatile sig_atomic_t is_told_to_end;

void end_at_sigterm(void);
// Ends the program with status 2, after a line on standard error that says why.
void stop(const char *why) __attribute__((noreturn));
// Seconds, by a monotonic clock.
double now(void);
// By the number that this text spells, `draw` gives the same numbers of 31 bits each time.
void set_seed(const char *text);
unsigned draw(void);
// Returns a drawn number below a bound.
unsigned below(unsigned bound);
// Writes drawn octets.
void by_chance(unsigned char *octets, unsigned length);
// Returns the value of the word NAME=VALUE, or `otherwise` without that word.
const char *word_of(int count, char **words, const char *name, const char *otherwise);
// Gives the name and the value of each word NAME=VALUE to `set`. Stops at a word without a value.
void read_words(int count, char **words, void (*set)(const char *name, char *value));

// A parameter of a program: its name in the words NAME=VALUE, and its value.
struct number {
    const char *name;
    unsigned *at;
};
// Sets the parameter of this name. Returns whether there is one.
int set_one(const struct number *all, unsigned count, const char *name, const char *value);

#endif
