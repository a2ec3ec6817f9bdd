// A histogram of latencies. See latency.h.
#include "latency.h"

#include <math.h>
#include <stdio.h>

static int place_of(long long ns) {
    if (ns < STEPS) return ns < 0 ? 0 : (int)ns;
    int doubling = 63 - __builtin_clzll((unsigned long long)ns) - 6;
    if (doubling >= DOUBLINGS - 1) return DOUBLINGS * STEPS - 1;
    return (doubling + 1) * STEPS + (int)(ns >> doubling) - STEPS;
}

// Returns the upper end of the step that includes this share of all latencies, in microseconds.
static double latency_within(const struct latencies *all, double share) {
    unsigned long count = 0, below = 0;
    for (int place = 0; place < DOUBLINGS * STEPS; place++) count += all->counts[place];
    unsigned long wanted_below = (unsigned long)ceil((double)count * share);
    for (int place = 0; place < DOUBLINGS * STEPS; place++)
        if (count && (below += all->counts[place]) >= wanted_below) {
            int doubling = place / STEPS - 1;
            double upper = doubling < 0 ? place + 1 : ldexp(place % STEPS + STEPS + 1, doubling);
            return (upper < (double)all->longest ? upper : (double)all->longest) / 1000;
        }
    return 0;
}

void count_latency(struct latencies *all, long long ns) {
    all->counts[place_of(ns)]++;
    if (ns > all->longest) all->longest = ns;
}

void print_latencies(const struct latencies *all) {
    printf(", \"p50_us\": %.1f, \"p99_us\": %.1f, \"p999_us\": %.1f, \"longest_us\": %.1f", latency_within(all, 0.5),
           latency_within(all, 0.99), latency_within(all, 0.999), (double)all->longest / 1000);
}
