// Sends datagrams of one kind to an exchange, as fast as it takes them, from one endpoint. Some kinds are frames of a call that
// is up. This program plays the caller and the called peer, and sets up the call again once it has ended.
//
// floods kind=NAME from=PORT to=EXCHANGE_PORT far=PORT prefix=CALLED [rate=DATAGRAMS] [seed=N]
//
// It sends a burst as soon as less than `ENOUGH` waits at the exchange's socket, by /proc/net/udp. So the socket is never empty,
// and doesn't overflow. `rate` is the greatest number of datagrams a second; there is no limit without it. SIGTERM ends the
// flood. Once nothing waits at the socket, it prints its counts as one line of JSON.
#define _GNU_SOURCE
#include <stdio.h>
#include <stdlib.h>
#include <string.h>
#include <sys/socket.h>
#include <unistd.h>

#include "call.h"
#include "program.h"
#include "wire.h"

// Octets at the exchange's socket, with those of the system; octets of a burst, with an overhead for each datagram.
enum { ENOUGH = 196608, BURST = 65536, OVERHEAD = 512 };
// Octets of the longest datagram, and of the head of a trunk frame; the entries that fill it, with 4 octets of media and with
// none.
enum { LONGEST = 2048, TRUNK = 8, ENTRIES = 255, EMPTY_ENTRIES = 510 };
// Digits that the exchange holds for the caller, which doesn't acknowledge them.
enum { HELD = 8, CALL_TOKEN = 54 };
// The longest set-up of a call, the longest end of the flood, and the time between two steps of the call, in seconds.
static const double SET_UP = 2, PATIENCE = 60, TICK = 0.005;

// The caller and the called peer, and the caller's end of the call.
static struct peer peers[2];
static struct leg *own;
// The ports of the exchange and of the sender.
static unsigned to, from;
static unsigned long sent, heard, set_ups, waits, bursts;

// ---- the kinds of datagrams

static unsigned write_random(unsigned char *octets) {
    unsigned length = 1 + below(300);
    by_chance(octets, length);
    return length;
}

static unsigned write_empty(unsigned char *octets) {
    (void)octets;
    return 0;
}

static unsigned write_hangup(unsigned char *octets) {
    return write_head(octets, own->number, 0, timestamp_of(own), own->sent, own->taken, IAX, HANGUP);
}

static unsigned write_new(unsigned char *octets) {
    static const unsigned char elements[] = {11, 2, 0, 2, CALLED_NUMBER, 1, '7', 9, 4, 0, 0, 0, ULAW};
    unsigned length = write_head(octets, 1 + below(32767), 0, 0, 0, 0, IAX, NEW);
    memcpy(octets + length, elements, sizeof elements);
    return length + sizeof elements;
}

static unsigned write_new_with_token(unsigned char *octets) {
    unsigned length = write_new(octets);
    octets[length] = CALL_TOKEN, octets[length + 1] = 0;
    return length + 2;
}

static unsigned write_unknown(unsigned char *octets) {
    return write_head(octets, 1 + below(32767), 1 + below(32767), below(65536), below(256), below(256), IAX, PING);
}

// A PING acknowledges the PONG before it, which the exchange will have sent by then.
static unsigned write_ping(unsigned char *octets) {
    unsigned length = write_head(octets, own->number, own->theirs, timestamp_of(own), own->sent, own->taken, IAX, PING);
    own->oldest = ++own->sent, own->taken++;
    return length;
}

static unsigned write_vnak(unsigned char *octets) {
    return write_head(octets, own->number, own->theirs, timestamp_of(own), own->sent, own->taken, IAX, VNAK);
}

static unsigned write_ahead(unsigned char *octets) {
    unsigned oseq = own->sent + 1 + below(100);
    return write_head(octets, own->number, own->theirs, timestamp_of(own), oseq, own->taken, IAX, PING);
}

static unsigned write_trunk(unsigned char *octets, unsigned entries, unsigned media) {
    memset(octets, 0, LONGEST);
    octets[2] = 1;
    for (unsigned entry = 0, at = TRUNK; entry < entries; entry++, at += 4 + media) {
        put16(octets + at, media ? own->number : 1 + below(32767)), put16(octets + at + 2, media);
        by_chance(octets + at + 4, media);
    }
    return TRUNK + entries * (4 + media);
}

static unsigned write_entries(unsigned char *octets) { return write_trunk(octets, ENTRIES, 4); }

static unsigned write_empty_entries(unsigned char *octets) { return write_trunk(octets, EMPTY_ENTRIES, 0); }

static const struct kind {
    const char *name;
    // Writes a datagram. Returns its length.
    unsigned (*write)(unsigned char *octets);
    int needs_call;
} kinds[] = {
    {"random", write_random, 0},
    {"empty", write_empty, 0},
    {"unknown_entries", write_empty_entries, 0},
    {"no_destination", write_hangup, 1},
    {"no_token", write_new, 0},
    {"empty_token", write_new_with_token, 0},
    {"unknown_call", write_unknown, 0},
    {"pings", write_ping, 1},
    {"ahead", write_ahead, 1},
    {"vnaks", write_vnak, 1},
    {"entries", write_entries, 1},
    {"challenged", write_new, 0},
};

// ---- the call

static int is_up(void) { return own && own->call && own->call->stage == UP; }

// Returns whether the caller ignores a frame: a digit, so that the exchange holds it, or an answer to the flood. A VNAK names
// the frame that the exchange expects, and the one that it sends next.
static int is_ignored(const struct peer *peer, const unsigned char *octets, unsigned length) {
    if (peer != &peers[0] || length < FULL || !(octets[0] & 0x80)) return 0;
    if (octets[10] == DTMF) return 1;
    if (!is_up() || octets[10] != IAX || (get16(octets + 2) & 0x7fff) != own->number) return 0;
    if (octets[11] == VNAK) own->sent = own->oldest = octets[9], own->taken = octets[8];
    return octets[11] == VNAK || octets[11] == PONG;
}

static void take(struct peer *peer, const unsigned char *octets, unsigned length, long long moment) {
    heard++;
    if (!is_ignored(peer, octets, length)) take_datagram(peer, octets, length, moment);
}

static void hear(void) {
    static double stepped;
    double moment = now();
    for (int side = 0; side < 2; side++)
        while (receive(&peers[side], take)) {
        }
    if (moment - stepped > TICK) step_calls(stepped = moment);
}

// Sets up a call, with its first voice: without that the exchange accepts no media.
static void set_up(void) {
    double begun = now();
    place_call(&peers[0], &peers[1]);
    own = peers[0].legs[peers[0].next];
    set_ups++;
    while (!is_told_to_end && now() - begun < SET_UP && !(is_up() && own->sent > 1 && !held_frames(own))) {
        usleep(200);
        hear();
    }
}

// ---- the flood

static void send_burst(const struct kind *kind) {
    unsigned char octets[LONGEST];
    for (unsigned length, left = BURST; left > LONGEST + OVERHEAD; left -= length + OVERHEAD, sent++) {
        length = kind->write(octets);
        (void)send(peers[0].wire, octets, length, 0);
    }
    bursts++;
}

static int is_early(double begun, double rate) {
    if (rate && (double)sent >= (now() - begun) * rate) return 1;
    int is_enough = waiting_at(to, from) > ENOUGH;
    waits += (unsigned)is_enough;
    return is_enough;
}

static void flood(const struct kind *kind, double rate) {
    for (double begun = now(); !is_told_to_end; hear()) {
        if (kind->needs_call && !is_up()) set_up();
        else if (is_early(begun, rate)) usleep(200);
        else send_burst(kind);
    }
    for (double end = now() + PATIENCE; waiting_at(to, from) && now() < end; hear()) usleep(1000);
}

static const struct kind *kind_of(const char *name) {
    for (unsigned place = 0; place < sizeof kinds / sizeof kinds[0]; place++)
        if (strcmp(kinds[place].name, name) == 0) return &kinds[place];
    return NULL;
}

int main(int count, char **words) {
    const struct kind *kind = kind_of(word_of(count, words, "kind", ""));
    to = (unsigned)atoi(word_of(count, words, "to", "0")), from = (unsigned)atoi(word_of(count, words, "from", "0"));
    end_at_sigterm();
    set_seed(word_of(count, words, "seed", "1"));
    wanted = (struct wanted){.on_the_way = HELD, .retry_ms = 200};
    wanted.media_ms = wanted.hold_ms = wanted.patience = 1u << 31;
    if (kind && kind->write == write_vnak) wanted.digits = HELD;
    // Calls of an earlier kind may still be up, so each kind has its own call numbers.
    if (kind) peers[0].next = peers[1].next = NUMBERS / (sizeof kinds / sizeof kinds[0]) * (unsigned)(kind - kinds);
    peers[1].place = 1, peers[1].prefix = word_of(count, words, "prefix", "");
    peers[0].wire = wire_of(from, to);
    peers[1].wire = wire_of((unsigned)atoi(word_of(count, words, "far", "0")), to);
    if (!kind || peers[0].wire < 0 || peers[1].wire < 0) return 2;
    double begun = now();
    flood(kind, atof(word_of(count, words, "rate", "0")));
    printf("{\"seconds\": %.3f, \"sent\": %lu, \"heard\": %lu, \"calls\": %lu, \"bursts\": %lu, \"waits\": %lu}\n", now() - begun,
           sent, heard, set_ups, bursts, waits);
    return 0;
}
