// The events on the calls of `calls`, and the checks there: each digit once and in order, no media of another call, each
// call hung up once at its far end. See call.h.
#include "call.h"

#include <stdio.h>
#include <stdlib.h>
#include <string.h>

#include "program.h"
#include "wire.h"

struct wanted wanted;
struct seen seen;
struct told told[MOST_TOLD];
unsigned told_count;
unsigned active;
int is_closing;
static struct call calls[SLOTS];
static unsigned long last_id;

// The time for which a call is watched after its end, for a second HANGUP, in seconds.
static const double WATCH = 0.4;
// The time for which a call is quiet at least before its end, in seconds.
static const double QUIET_FOR = 0.3;
// The place of the moment in media.
enum { MOMENT = 8 };
static const unsigned char FORMAT_OF_CALL[] = {9, 4, 0, 0, 0, ULAW};

// A number that a call's identity, its side and a place in it determine, and that others can't be taken for.
static unsigned mixed(unsigned long id, int side, unsigned long place) {
    unsigned long long word = id * 2 + (unsigned)side + wanted.seed * 0x9e3779b97f4a7c15ull + (place << 40);
    word = (word ^ word >> 30) * 0xbf58476d1ce4e5b9ull;
    word = (word ^ word >> 27) * 0x94d049bb133111ebull;
    return (unsigned)(word >> 32);
}

static int digit_of(unsigned long id, int side, unsigned place) { return "0123456789ABCD*#"[mixed(id, side, place) & 15]; }

// Writes the call, the place and the moment of sending; all other octets follow from these.
static void write_media(unsigned char media[MEDIA], const struct call *call, int side, unsigned place, long long moment) {
    for (unsigned at = 0; at < MEDIA; at += 4) {
        unsigned word = mixed(call->id, side, place + at) ^ (unsigned)(moment ^ moment >> 32);
        if (at < 8) word = at ? place : (unsigned)call->id;
        memcpy(media + at, &word, 4);
    }
    memcpy(media + MOMENT, &moment, sizeof moment);
}

static void to_stage(struct call *call, enum stage stage) {
    call->stage = stage;
    call->changed = now();
}

static void tell(const struct call *call, const char *what) {
    if (told_count < MOST_TOLD) told[told_count++] = (struct told){call->id, what, now()};
}

// Digits may be left out only right before an exchange ends their call: one had no room there.
static void count_left_out(const struct call *call, int is_cut) {
    if (is_cut) seen.left_out_digits += call->left_out;
    else if (call->left_out) seen.wrong_digits += call->left_out, tell(call, "wrong_digits");
}

// The exchange ended the call, or it makes no progress: its other end is hung up, and it isn't watched any more.
static void fail(struct call *call, unsigned long *counted, const char *what) {
    if (call->stage == FAILED || call->stage == OVER) return;
    ++*counted;
    tell(call, what);
    count_left_out(call, counted == &seen.cut);
    for (int side = 0; side < 2; side++)
        if (call->ends[side] && !call->ends[side]->is_dead)
            send_numbered(call->ends[side], timestamp_of(call->ends[side]), IAX, HANGUP, NULL, 0);
    to_stage(call, FAILED);
}

static struct call *slot_of(unsigned long id) { return &calls[id % SLOTS]; }

void place_call(struct peer *from, struct peer *to) {
    struct call *call = slot_of(last_id);
    if (call->stage != NONE) {
        // A call that lasts has that place: the next one is tried.
        last_id = (last_id + 1) % LARGEST_CALL;
        return;
    }
    struct leg *leg = open_leg(from, call, 0);
    if (!leg) return;
    memset(call, 0, sizeof *call);
    call->id = last_id, last_id = (last_id + 1) % LARGEST_CALL;
    call->to = to, call->ends[0] = leg;
    call->begun = now();
    unsigned choice = mixed(call->id, 0, 1 << 20);
    call->hanger = (int)(choice & 1), call->early = wanted.early && (choice >> 1) % wanted.early == 0;
    char called[32];
    int length = snprintf(called, sizeof called, "%s%07lu", to->prefix, call->id);
    unsigned char data[64] = {11, 2, 0, 2, CALLED_NUMBER, (unsigned char)length};
    memcpy(data + 6, called, (unsigned)length);
    memcpy(data + 6 + length, FORMAT_OF_CALL, sizeof FORMAT_OF_CALL);
    send_numbered(leg, 0, IAX, NEW, data, 6u + (unsigned)length + sizeof FORMAT_OF_CALL);
    to_stage(call, PLACED);
    seen.placed++, active++;
}

static void send_digits(struct call *call, int side, double moment) {
    if (is_closing || moment < call->digit_due[side]) return;
    while (call->digits_sent[side] < wanted.digits &&
           call->digits_sent[side] - call->digits_taken[1 - side] < wanted.on_the_way) {
        int digit = digit_of(call->id, side, call->digits_sent[side]);
        if (!send_numbered(call->ends[side], timestamp_of(call->ends[side]), DTMF, digit, NULL, 0)) return;
        call->digits_sent[side]++, seen.digits_sent++;
        call->digit_due[side] = moment + wanted.digit_ms / 1000.0;
        if (wanted.digit_ms) return;
    }
}

static void send_media(struct call *call, int side) {
    struct leg *leg = call->ends[side];
    unsigned char mini[4 + MEDIA];
    unsigned timestamp = timestamp_of(leg);
    write_media(mini + 4, call, side, call->media_sent[side], wall_ns());
    if (leg->voice_high != (long)(timestamp >> 16)) {
        if (!send_numbered(leg, timestamp, VOICE, ULAW, mini + 4, MEDIA)) return;
        leg->voice_high = (long)(timestamp >> 16);
    } else {
        put16(mini, leg->number), put16(mini + 2, timestamp);
        send_octets(leg->peer, mini, sizeof mini);
    }
    call->media_sent[side]++, seen.media_sent++;
}

static int all_digits_taken(const struct call *call) {
    for (int side = 0; side < 2; side++)
        if ((!is_closing && call->digits_sent[side] < wanted.digits) || call->digits_taken[1 - side] < call->digits_sent[side])
            return 0;
    return 1;
}

static void hang_up(struct call *call) {
    struct leg *leg = call->ends[call->hanger];
    if (!send_numbered(leg, timestamp_of(leg), IAX, HANGUP, NULL, 0)) return;
    ++*(call->hanger ? &seen.hung_up_by_called : &seen.hung_up_by_caller);
    to_stage(call, HANGING);
}

static void step_talk(struct call *call, double moment) {
    int is_held = is_closing || moment - call->changed >= wanted.hold_ms / 1000.0;
    if (wanted.media_ms && moment >= call->media_due) {
        call->media_due = moment + wanted.media_ms / 1000.0;
        send_media(call, 0), send_media(call, 1);
    }
    send_digits(call, 0, moment), send_digits(call, 1, moment);
    if (call->early && !is_closing && 2 * call->digits_sent[0] >= wanted.digits) {
        seen.early++;
        hang_up(call);
    } else if ((!call->early || is_closing) && is_held && all_digits_taken(call)) to_stage(call, QUIET);
}

static void resend_what_is_due(struct call *call, double moment) {
    for (int side = 0; side < 2; side++) {
        struct leg *leg = call->ends[side];
        if (leg && held_frames(leg) && moment - leg->last_sent >= wanted.retry_ms / 1000.0) resend(leg);
    }
}

// A side that receives nothing for a while sends a PING.
static void ping_where_quiet(struct call *call, double moment) {
    for (int side = 0; side < 2; side++) {
        struct leg *leg = call->ends[side];
        int is_quiet = leg && leg->theirs && !held_frames(leg) && moment - leg->last_sent >= wanted.ping_ms / 1000.0;
        int is_over = call->hangups[side] || (call->stage >= HANGING && side == call->hanger);
        if (is_quiet && !is_over) send_numbered(leg, timestamp_of(leg), IAX, PING, NULL, 0);
    }
}

static void count_lacking(const struct call *call) {
    count_left_out(call, 0);
    unsigned sent = call->digits_sent[0] + call->digits_sent[1], taken = call->digits_taken[0] + call->digits_taken[1];
    if (sent > taken) seen.lacking_digits += sent - taken, tell(call, "lacking_digits");
}

// Counts the call, and frees its legs' numbers.
static void close_call(struct call *call) {
    for (int side = 0; side < 2; side++)
        if (call->ends[side]) call->ends[side]->call = NULL, call->ends[side]->freed = now();
    if (call->stage == OVER) {
        seen.ended++;
        if (!call->early) count_lacking(call);
        if (call->hangups[call->hanger]) seen.hangups_back++, tell(call, "hangups_back");
        if (call->hangups[1 - call->hanger] > 1) seen.hangups_twice++, tell(call, "hangups_twice");
        if (!call->hangups[1 - call->hanger]) seen.hangups_missing++;
    }
    call->stage = NONE;
}

// Returns whether no media is on its way any more. It is awaited for `quiet_ms` at most, so that missing media was lost.
static int is_quiet(const struct call *call, double moment) {
    int has_all = call->media_taken[0] >= call->media_sent[1] && call->media_taken[1] >= call->media_sent[0];
    double waited = moment - call->changed;
    return !wanted.media_ms || waited >= wanted.quiet_ms / 1000.0 || (has_all && waited >= QUIET_FOR);
}

void step_call(struct call *call, double moment) {
    if (call->stage == UP) step_talk(call, moment);
    if (call->stage == QUIET && is_quiet(call, moment)) hang_up(call);
    if (call->stage == HANGING && call->hangups[1 - call->hanger] && !held_frames(call->ends[call->hanger])) {
        active--;
        to_stage(call, OVER);
    }
}

static void step_time(struct call *call, double moment) {
    step_call(call, moment);
    if (call->stage == OVER && moment - call->changed >= WATCH) close_call(call);
    if (call->stage == FAILED && moment - call->changed >= 2 * WATCH) {
        active--;
        close_call(call);
    }
    if (call->stage == NONE) return;
    resend_what_is_due(call, moment);
    if (wanted.ping_ms && call->stage <= HANGING) ping_where_quiet(call, moment);
    if (call->stage < OVER && moment - call->changed > wanted.patience + wanted.hold_ms / 1000.0) {
        seen.last_stuck_stage = call->stage;
        fail(call, &seen.stuck, "stuck");
    }
}

void step_calls(double moment) {
    for (unsigned place = 0; place < SLOTS; place++)
        if (calls[place].stage != NONE) step_time(&calls[place], moment);
}

static void answer_call(struct leg *leg, unsigned timestamp) {
    send_numbered(leg, timestamp + 1, IAX, ACCEPT, FORMAT_OF_CALL, sizeof FORMAT_OF_CALL);
    send_numbered(leg, timestamp + 2, CONTROL, ANSWER, NULL, 0);
}

static void digest_of(const struct leg *leg, const unsigned char *challenge, unsigned size, char digits[33]) {
    unsigned char text[119];
    unsigned length = (unsigned)strlen(leg->peer->secret);
    memcpy(text, challenge, size);
    memcpy(text + size, leg->peer->secret, length);
    md5_digits(text, size + length, digits);
}

static void challenge_of(const struct leg *leg, char challenge[9]) {
    snprintf(challenge, 9, "%08x", mixed(leg->call->id, 1, 1 << 21));
}

static void send_challenge(struct leg *leg, unsigned timestamp) {
    unsigned char data[32] = {AUTHMETHODS, 2, 0, 2, CHALLENGE, 8};
    char challenge[9];
    challenge_of(leg, challenge);
    memcpy(data + 6, challenge, 8);
    send_numbered(leg, timestamp + 1, IAX, AUTHREQ, data, 14);
}

static void send_digest(struct leg *leg, const unsigned char *data, unsigned length) {
    unsigned char answer[34] = {MD5_RESULT, 32};
    unsigned size = 0;
    const unsigned char *challenge = element(data, length, CHALLENGE, &size);
    char digits[33];
    if (!challenge || size > 32 || !leg->peer->secret) return;
    digest_of(leg, challenge, size, digits);
    memcpy(answer + 2, digits, 32);
    send_numbered(leg, timestamp_of(leg), IAX, AUTHREP, answer, sizeof answer);
    seen.challenged++;
}

static void check_digest(struct leg *leg, unsigned timestamp, const unsigned char *data, unsigned length) {
    unsigned size = 0;
    const unsigned char *result = element(data, length, MD5_RESULT, &size);
    char challenge[9], digits[33];
    challenge_of(leg, challenge);
    digest_of(leg, (const unsigned char *)challenge, 8, digits);
    if (!result || size != 32 || memcmp(result, digits, 32) != 0) {
        seen.bad_answers++;
        return;
    }
    seen.challenged++;
    answer_call(leg, timestamp);
}

// Returns the place of a digit among those sent, from this place on, or a place beyond all of them if it isn't there.
static unsigned place_from(const struct call *call, int from, unsigned place, int digit) {
    while (place < call->digits_sent[from] && digit_of(call->id, from, place) != digit) place++;
    return place;
}

static void take_digit(struct leg *leg, int digit) {
    struct call *call = leg->call;
    int from = 1 - leg->side;
    unsigned expected = call->digits_taken[leg->side], place = place_from(call, from, expected, digit);
    seen.digits_taken++;
    if (place < call->digits_sent[from]) call->left_out += place - expected;
    else seen.wrong_digits++, tell(call, "wrong_digits"), place = expected;
    call->digits_taken[leg->side] = place + 1;
}

static void take_media(struct leg *leg, const unsigned char *media, unsigned length) {
    struct call *call = leg->call;
    unsigned char wanted_media[MEDIA];
    unsigned place = 0;
    long long moment = 0;
    if (length == MEDIA) memcpy(&place, media + 4, 4), memcpy(&moment, media + MOMENT, sizeof moment);
    write_media(wanted_media, call, 1 - leg->side, place, moment);
    if (length != MEDIA || place >= call->media_sent[1 - leg->side] || memcmp(media, wanted_media, MEDIA) != 0) {
        seen.wrong_media++;
        return;
    }
    call->media_taken[leg->side]++, seen.media_taken++;
    count_latency(&seen.latencies, leg->peer->came - moment);
}

static void take_hangup(struct leg *leg) {
    struct call *call = leg->call;
    call->hangups[leg->side]++;
    if (call->stage < HANGING) fail(call, &seen.cut, "cut");
}

static void take_iax(struct leg *leg, int subclass, unsigned timestamp, const unsigned char *data, unsigned length) {
    switch (subclass) {
    case NEW: leg->peer->secret ? send_challenge(leg, timestamp) : answer_call(leg, timestamp); break;
    case AUTHREQ: send_digest(leg, data, length); break;
    case AUTHREP: check_digest(leg, timestamp, data, length); break;
    case PING: send_numbered(leg, timestamp, IAX, PONG, NULL, 0); break;
    case LAGRQ: send_numbered(leg, timestamp, IAX, LAGRP, NULL, 0); break;
    case REJECT: fail(leg->call, &seen.rejected, "rejected"); break;
    case HANGUP: take_hangup(leg); break;
    default: break;
    }
}

// Handles the numbered frame that was expected, and acknowledges it.
static void take_frame(struct leg *leg, const unsigned char *frame, unsigned length) {
    unsigned timestamp = get16(frame + 4) << 16 | get16(frame + 6);
    int type = frame[10], subclass = frame[11];
    leg->taken++;
    if (type == IAX) take_iax(leg, subclass, timestamp, frame + FULL, length - FULL);
    if (type == DTMF) take_digit(leg, subclass);
    if (type == VOICE) take_media(leg, frame + FULL, length - FULL);
    if (type == CONTROL && subclass == ANSWER && leg->call->stage == PLACED) {
        if (!seen.answered++) seen.first_answer = now();
        to_stage(leg->call, UP);
    }
    send_answer(leg, timestamp, ACK);
}

// Returns the leg of an offered call, an old one if the NEW is a repeat.
static struct leg *offered(struct peer *peer, unsigned theirs, const unsigned char *data, unsigned length) {
    unsigned size = 0, prefix = (unsigned)strlen(peer->prefix);
    const unsigned char *called = element(data, length, CALLED_NUMBER, &size);
    char digits[16] = "";
    if (!called || size <= prefix || size - prefix >= sizeof digits || memcmp(called, peer->prefix, prefix) != 0) {
        seen.misrouted++;
        return NULL;
    }
    memcpy(digits, called + prefix, size - prefix);
    struct call *call = slot_of(strtoul(digits, NULL, 10));
    if (call->stage == NONE || call->id != strtoul(digits, NULL, 10) || call->stage == FAILED) return NULL;
    if (call->to != peer) seen.misrouted++, tell(call, "misrouted");
    else if (!call->ends[1] && (call->ends[1] = open_leg(peer, call, 1))) learn(call->ends[1], theirs);
    else if (call->ends[1] && call->ends[1]->theirs != theirs) seen.offered_twice++, tell(call, "offered_twice");
    return call->to == peer && call->ends[1] && call->ends[1]->theirs == theirs ? call->ends[1] : NULL;
}

// INVAL ends a leg. It also answers a repeated HANGUP whose acknowledgement was lost.
static void take_inval(struct leg *leg) {
    struct call *call = leg->call;
    leg->peer->inval++;
    leg->oldest = leg->sent, leg->is_dead = 1;
    if (call->stage < HANGING || (leg->side != call->hanger && !call->hangups[leg->side])) fail(call, &seen.inval, "inval");
    step_call(call, now());
}

static void take_full(struct peer *peer, const unsigned char *frame, unsigned length) {
    unsigned theirs = get16(frame) & 0x7fff;
    struct leg *leg = is_new(frame) ? offered(peer, theirs, frame + FULL, length - FULL) : leg_of(peer, frame);
    if (!leg || !leg->call) return;
    if (is_inval(frame)) {
        take_inval(leg);
        return;
    }
    enum arrival arrival = note_arrival(leg, frame);
    if (arrival == ASIDE) return;
    if (arrival == EXPECTED) take_frame(leg, frame, length);
    if (leg->call) step_call(leg->call, now());
}

static void take_entry(struct peer *peer, unsigned theirs, const unsigned char *media, unsigned length) {
    struct leg *leg = peer->of_theirs[theirs & 0x7fff];
    if (leg && leg->call && leg->theirs == (theirs & 0x7fff)) take_media(leg, media, length);
}

void take_datagram(struct peer *peer, const unsigned char *octets, unsigned length, long long moment) {
    peer->received++, peer->came = moment;
    if (length >= FULL && octets[0] & 0x80) take_full(peer, octets, length);
    else if (length > 4 && get16(octets)) take_entry(peer, get16(octets), octets + 4, length - 4);
}
