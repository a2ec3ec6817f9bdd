// The legs of a peer: their numbers, the frames that they send and hold, and their retransmissions. See leg.h.
#include "leg.h"

#include <errno.h>
#include <stdlib.h>
#include <string.h>
#include <sys/socket.h>

#include "program.h"

// The time for which a number stays unused after its leg, in seconds. So a repeated frame isn't taken for one of the next
// call.
static const double REST = 0.3;

unsigned get16(const unsigned char *at) { return (unsigned)at[0] << 8 | at[1]; }

void put16(unsigned char *at, unsigned n) { at[0] = (unsigned char)(n >> 8), at[1] = (unsigned char)n; }

unsigned timestamp_of(const struct leg *leg) { return (unsigned)((now() - leg->opened) * 1000); }

static int is_free(const struct leg *leg, double moment) { return !leg || (!leg->call && moment - leg->freed > REST); }

struct leg *open_leg(struct peer *peer, struct call *call, int side) {
    double moment = now();
    for (unsigned tries = 1; tries < NUMBERS; tries++) {
        peer->next = peer->next % (NUMBERS - 1) + 1;
        if (!is_free(peer->legs[peer->next], moment)) continue;
        struct leg *leg = peer->legs[peer->next];
        if (!leg && !(leg = peer->legs[peer->next] = malloc(sizeof *leg))) abort();
        if (leg->theirs && peer->of_theirs[leg->theirs] == leg) peer->of_theirs[leg->theirs] = NULL;
        // The room for held frames isn't cleared: it is written before it is read.
        leg->peer = peer, leg->call = call, leg->side = side, leg->number = peer->next, leg->theirs = 0;
        leg->sent = leg->oldest = leg->taken = 0;
        leg->opened = leg->last_sent = moment, leg->freed = 0, leg->is_dead = 0, leg->voice_high = -1;
        return leg;
    }
    return NULL;
}

void learn(struct leg *leg, unsigned theirs) {
    if (leg->theirs == theirs) return;
    leg->theirs = theirs;
    leg->peer->of_theirs[theirs] = leg;
}

unsigned held_frames(const struct leg *leg) { return (unsigned char)(leg->sent - leg->oldest); }

void send_octets(struct peer *peer, const void *octets, unsigned length) {
    while (send(peer->wire, octets, length, 0) < 0 && errno == EINTR) {
    }
    peer->sent++;
}

unsigned write_head(unsigned char *octets, unsigned source, unsigned destination, unsigned timestamp, unsigned oseq,
                    unsigned iseq, int type, int subclass) {
    put16(octets, 0x8000u | source), put16(octets + 2, destination);
    put16(octets + 4, timestamp >> 16), put16(octets + 6, timestamp);
    octets[8] = (unsigned char)oseq, octets[9] = (unsigned char)iseq;
    octets[10] = (unsigned char)type, octets[11] = (unsigned char)subclass;
    return FULL;
}

static unsigned write_full(unsigned char *octets, const struct leg *leg, unsigned timestamp, int type, int subclass,
                           const void *data, unsigned length) {
    write_head(octets, leg->number, leg->theirs, timestamp, leg->sent, leg->taken, type, subclass);
    if (length) memcpy(octets + FULL, data, length);
    return FULL + length;
}

int send_numbered(struct leg *leg, unsigned timestamp, int type, int subclass, const void *data, unsigned length) {
    if (held_frames(leg) >= MOST_HELD || length > MOST_DATA) return 0;
    struct held *held = &leg->held[leg->sent % MOST_HELD];
    held->length = write_full(held->octets, leg, timestamp, type, subclass, data, length);
    if (!held_frames(leg)) leg->last_sent = now();
    leg->sent++;
    send_octets(leg->peer, held->octets, held->length);
    return 1;
}

void send_answer(struct leg *leg, unsigned timestamp, int subclass) {
    unsigned char octets[FULL];
    send_octets(leg->peer, octets, write_full(octets, leg, timestamp, IAX, subclass, NULL, 0));
}

void resend(struct leg *leg) {
    for (unsigned char place = leg->oldest; place != leg->sent; place++) {
        struct held *held = &leg->held[place % MOST_HELD];
        put16(held->octets + 2, 0x8000u | leg->theirs);
        held->octets[9] = leg->taken;
        send_octets(leg->peer, held->octets, held->length);
        leg->peer->resent++;
    }
    leg->last_sent = now();
}

void acknowledge(struct leg *leg, unsigned next) {
    unsigned char counts = (unsigned char)(next - leg->oldest);
    if (counts && counts <= held_frames(leg)) leg->oldest = (unsigned char)next, leg->last_sent = now();
}

int is_new(const unsigned char *frame) { return !(get16(frame + 2) & 0x7fff) && frame[10] == IAX && frame[11] == NEW; }

int is_inval(const unsigned char *frame) { return frame[10] == IAX && frame[11] == INVAL; }

struct leg *leg_of(const struct peer *peer, const unsigned char *frame) {
    unsigned number = get16(frame + 2) & 0x7fff;
    return number && number < NUMBERS ? peer->legs[number] : NULL;
}

enum arrival note_arrival(struct leg *leg, const unsigned char *frame) {
    unsigned theirs = get16(frame) & 0x7fff;
    int type = frame[10], subclass = frame[11];
    if (leg->theirs && leg->theirs != theirs) return ASIDE;
    learn(leg, theirs);
    acknowledge(leg, frame[9]);
    if (type == IAX && subclass == VNAK) resend(leg);
    if (type == IAX && (subclass == ACK || subclass == VNAK || subclass == TXCNT || subclass == TXACC)) return ASIDE;
    unsigned char ahead = (unsigned char)(frame[8] - leg->taken);
    if (ahead == 0) return EXPECTED;
    send_answer(leg, get16(frame + 4) << 16 | get16(frame + 6), ahead < 128 ? VNAK : ACK);
    return REPEATED;
}

const unsigned char *element(const unsigned char *data, unsigned length, int which, unsigned *size) {
    const unsigned char *found = NULL;
    for (unsigned at = 0; at + 2 <= length && at + 2 + data[at + 1] <= length; at += 2u + data[at + 1])
        if (data[at] == which) found = data + at + 2, *size = data[at + 1];
    return found;
}
