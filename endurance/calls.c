// Plays peers of one exchange, or of several, over sockets on loopback: places calls between them, talks on them, hangs up,
// and checks all answers (call.c). At the end it prints the results, as one line of JSON.
//
// calls peer=PORT:EXCHANGE_PORT:PREFIX[:SECRET] .. route=FROM:TO .. [total=CALLS] [seconds=S] [NAME=VALUE ..]
//
// Peers are counted from 0, and calls use the routes in turn. With `total` it ends once this number of calls is over. With
// `seconds` no call is placed after that time, except for the `least` number of them; SIGTERM is the end of that time. A
// call that stays in one stage for `patience` seconds, and `hold_ms`, is stuck.
#define _GNU_SOURCE
#include <poll.h>
#include <stdio.h>
#include <stdlib.h>
#include <string.h>

#include "call.h"
#include "program.h"
#include "wire.h"

enum { PLACED_TOGETHER = 64, TICK_MS = 5 };

static struct peer peers[MOST_PEERS];
static int routes[MOST_ROUTES][2], peer_count, route_count;

static void add_peer(char *text) {
    if (peer_count == MOST_PEERS) stop("too many peers");
    if (!read_peer(&peers[peer_count], peer_count, text)) stop("a peer is PORT:EXCHANGE_PORT:PREFIX[:SECRET]");
    if (peers[peer_count++].wire < 0) stop("a port can't be had");
}

static void add_route(const char *text) {
    if (route_count == MOST_ROUTES || sscanf(text, "%d:%d", &routes[route_count][0], &routes[route_count][1]) != 2)
        stop("a route is FROM:TO");
    if (routes[route_count][0] >= peer_count || routes[route_count][1] >= peer_count) stop("a route to no peer");
    route_count++;
}

static void set_word(const char *name, char *value) {
    const struct number all[] = {{"digits", &wanted.digits},     {"on_the_way", &wanted.on_the_way},
                                 {"digit_ms", &wanted.digit_ms}, {"media_ms", &wanted.media_ms},
                                 {"hold_ms", &wanted.hold_ms},   {"early", &wanted.early},
                                 {"retry_ms", &wanted.retry_ms}, {"ping_ms", &wanted.ping_ms},
                                 {"quiet_ms", &wanted.quiet_ms}, {"patience", &wanted.patience},
                                 {"at_once", &wanted.at_once},   {"total", &wanted.total},
                                 {"least", &wanted.least}};
    if (set_one(all, sizeof all / sizeof all[0], name, value)) return;
    if (strcmp(name, "peer") == 0) add_peer(value);
    else if (strcmp(name, "route") == 0) add_route(value);
    else if (strcmp(name, "rate") == 0) wanted.rate = atof(value);
    else if (strcmp(name, "seconds") == 0) wanted.seconds = atof(value);
    else if (strcmp(name, "seed") == 0) wanted.seed = strtoul(value, NULL, 10);
    else stop(name);
}

static void read_parameters(int count, char **words) {
    wanted = (struct wanted){.on_the_way = 10, .retry_ms = 200, .quiet_ms = 300, .patience = 60, .at_once = 32};
    read_words(count, words, set_word);
    if (!route_count) stop("no route");
}

static void wait_for_any(int ms) {
    struct pollfd all[MOST_PEERS];
    for (int place = 0; place < peer_count; place++) all[place] = (struct pollfd){peers[place].wire, POLLIN, 0};
    poll(all, (nfds_t)peer_count, ms);
    for (int place = 0; place < peer_count; place++)
        if (all[place].revents) receive(&peers[place], take_datagram);
}

static int may_place(double elapsed) {
    if (is_closing || (wanted.total && seen.placed >= wanted.total)) return 0;
    return active < wanted.at_once && (!wanted.rate || (double)seen.placed < elapsed * wanted.rate);
}

static void place_calls(double elapsed) {
    for (int tries = 0; tries < PLACED_TOGETHER && may_place(elapsed); tries++) {
        const int *route = routes[seen.placed % (unsigned)route_count];
        place_call(&peers[route[0]], &peers[route[1]]);
    }
}

static int is_over(double elapsed) {
    if (!is_closing && (is_told_to_end || (wanted.seconds && elapsed >= wanted.seconds && seen.placed >= wanted.least))) {
        is_closing = 1;
        seen.digits_in_time = seen.digits_taken;
    }
    return (is_closing || (wanted.total && seen.placed >= wanted.total)) && !active;
}

static void run(void) {
    double begun = now(), ticked = begun;
    while (!is_over(now() - begun)) {
        place_calls(now() - begun);
        wait_for_any(TICK_MS);
        if (now() - ticked < TICK_MS / 1000.0) continue;
        ticked = now();
        step_calls(ticked);
    }
    // Calls that are over are watched for a while.
    for (double end = now() + 0.6; now() < end; step_calls(now())) wait_for_any(TICK_MS);
}

static void report(double begun) {
    unsigned long received = 0, sent = 0, resent = 0, inval = 0, drops = 0;
    for (int place = 0; place < peer_count; place++) {
        received += peers[place].received, sent += peers[place].sent, resent += peers[place].resent;
        inval += peers[place].inval, drops += drops_of(&peers[place]);
    }
    printf("{\"seconds\": %.3f, \"received\": %lu, \"sent\": %lu, \"resent\": %lu, \"invals\": %lu, \"drops\": %lu",
           now() - begun, received, sent, resent, inval, drops);
#define TELL(name) printf(", \"%s\": %lu", #name, seen.name)
    TELL(placed), TELL(answered), TELL(ended), TELL(early), TELL(hung_up_by_caller), TELL(hung_up_by_called), TELL(challenged);
    TELL(digits_sent), TELL(digits_taken), TELL(wrong_digits), TELL(lacking_digits), TELL(left_out_digits);
    TELL(media_sent), TELL(media_taken), TELL(wrong_media);
    TELL(hangups_twice), TELL(hangups_missing), TELL(hangups_back), TELL(offered_twice), TELL(misrouted);
    TELL(rejected), TELL(cut);
    TELL(inval), TELL(stuck), TELL(bad_answers), TELL(digits_in_time);
    print_latencies(&seen.latencies);
    printf(", \"last_stuck_stage\": %.0f, \"first_answer\": %.3f", seen.last_stuck_stage,
           seen.answered ? seen.first_answer - begun : -1);
    printf(", \"told\": [");
    for (unsigned place = 0; place < told_count; place++)
        printf("%s[\"%s\", %lu, %.3f]", place ? ", " : "", told[place].what, told[place].id, told[place].at - begun);
    printf("]}\n");
}

int main(int count, char **words) {
    end_at_sigterm();
    read_parameters(count, words);
    double begun = now();
    run();
    report(begun);
    return 0;
}
