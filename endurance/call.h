// The calls that `calls` places, and their results.
#ifndef CALL_H
#define CALL_H

#include "latency.h"
#include "leg.h"

enum { SLOTS = 8192, MOST_PEERS = 8, MOST_ROUTES = 16, MEDIA = 160, LARGEST_CALL = 10000000, MOST_TOLD = 4096 };
enum stage { NONE, PLACED, UP, QUIET, HANGING, OVER, FAILED };

struct call {
    unsigned long id;
    enum stage stage;
    struct peer *to;
    struct leg *ends[2];
    double begun, changed, media_due, digit_due[2];
    // The side that hangs up, and whether it does so with digits on their way.
    int hanger, early;
    // By side: the counts of sent and of taken frames.
    unsigned digits_sent[2], digits_taken[2], media_sent[2], media_taken[2], hangups[2];
    // Digits of both that were left out before others came.
    unsigned left_out;
};

// The parameters of each call.
struct wanted {
    unsigned digits, on_the_way, digit_ms, media_ms, hold_ms, early, retry_ms, ping_ms, quiet_ms, patience, at_once, total, least;
    double rate, seconds;
    unsigned long seed;
};

// The results, by the names that the report has.
struct seen {
    unsigned long placed, answered, ended, early, hung_up_by_caller, hung_up_by_called, challenged;
    unsigned long digits_sent, digits_taken, wrong_digits, lacking_digits, left_out_digits, media_sent, media_taken, wrong_media;
    unsigned long hangups_twice, hangups_missing, hangups_back, offered_twice, misrouted, rejected, cut, inval, stuck;
    unsigned long bad_answers;
    // The moment at which the first call was answered, and the digits that had come by the end of the time, in seconds
    // since the start.
    double first_answer;
    unsigned long digits_in_time;
    double last_stuck_stage;
    // Of media, from its sender to the system's socket of its receiver.
    struct latencies latencies;
};

// A call with a fault: its name in `seen`, and the seconds after the start.
struct told {
    unsigned long id;
    const char *what;
    double at;
};

extern struct wanted wanted;
extern struct seen seen;
// The first faults; all are counted in `seen`.
extern struct told told[MOST_TOLD];
extern unsigned told_count;
extern unsigned active;
// No call is placed any more, and current calls end once all their frames have come.
extern int is_closing;

void place_call(struct peer *from, struct peer *to);
// Makes the steps of a call that are due: digits, media, the hang-up, retransmissions, its end.
void step_call(struct call *call, double moment);
void step_calls(double moment);
// Handles a datagram that came at this moment, in nanoseconds of the system's clock.
void take_datagram(struct peer *peer, const unsigned char *octets, unsigned length, long long moment);

#endif
