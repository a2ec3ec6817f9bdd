// A histogram of latencies.
#ifndef LATENCY_H
#define LATENCY_H

// Each doubling of a nanosecond has this number of steps.
enum { STEPS = 64, DOUBLINGS = 40 };

struct latencies {
    unsigned long counts[DOUBLINGS * STEPS];
    long long longest;
};

void count_latency(struct latencies *all, long long ns);
// Prints p50, p99, p99.9 and the longest in microseconds, as members of JSON behind others.
void print_latencies(const struct latencies *all);

#endif
