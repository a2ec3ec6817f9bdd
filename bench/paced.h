// Shared parts of the files of `paced`: its calls, its parameters, and its results. See paced.c.
#ifndef PACED_H
#define PACED_H

#include "../endurance/latency.h"
#include "../endurance/leg.h"

enum { MOST_PEERS = 32, MOST_CALLS = 8192, BATCH = 32, GSM = 2 };
enum { MINI = 4, TRUNK = 8, HEADERS = 28, STAMP = 16, MOST_MEDIA = 160 };

struct call {
    int place, is_answered, is_over;
    struct peer *from, *to;
    struct leg *ends[2];
    // By side: whether the first voice of the other came; frames sent and taken; the frame to come next; and the set of the
    // 64 before that which came, with the last as the lowest bit.
    int has_voice[2];
    unsigned sent[2], taken[2], next[2];
    unsigned long long came[2];
};

// The head of a frame's media. `is_counted` is 0 in the first of a call, which opens its voice.
struct stamp {
    long long moment;
    unsigned short call;
    unsigned char side, is_counted;
    unsigned place;
};

_Static_assert(sizeof(struct stamp) == STAMP, "a stamp has no padding");

// The parameters: see paced.c.
struct wanted {
    double seconds, gap_us, patience;
    unsigned trunk, octets, every_ms, ways, relay, retry_ms, mtu, each;
    int process;
};

// The results, by the names that the report has.
struct seen {
    unsigned long sent, taken, taken_in_time, twice, disordered, strange, unsent, turns, left_out, cut;
    unsigned long trunks_sent, trunks, entries, minis, voices, wire_octets;
    struct latencies latencies;
    double set_up, sending, processor;
};

extern struct peer peers[MOST_PEERS];
extern struct call calls[MOST_CALLS];
extern int peer_count, call_count;
extern struct wanted wanted;
extern struct seen seen;

// The voice subclass of the calls' media.
int format_of_calls(void);

// Receives datagrams, and waits at most this long for the first.
void receive_any(double seconds);
void resend_what_is_due(void);
// Sets up all calls, with the first voice of both sides. Ends the program if one can't be set up.
void set_up(void);
// Hangs up all calls, from the side of the callers.
void hang_up(void);

// Prints the results, as one line of JSON.
void report(void);

#endif
