// The calls of `paced`: their set-up, what their peers receive, and their end. See paced.h.
#define _GNU_SOURCE
#include <math.h>
#include <poll.h>
#include <stdio.h>
#include <stdlib.h>
#include <string.h>
#include <sys/socket.h>
#include <time.h>

#include "../endurance/program.h"
#include "../endurance/wire.h"
#include "paced.h"

// The number of calls that are set up, or hung up, at once; the number of digits of a called number that identify the call.
enum { AT_ONCE = 64, CALL_DIGITS = 4 };

static int is_ending;

int format_of_calls(void) { return wanted.octets == 33 ? GSM : ULAW; }

// Notes that a frame of a call came to a side. Returns false if it came before.
static int is_first(struct call *call, int side, unsigned place) {
    unsigned ahead = place + 1 - call->next[side], behind = call->next[side] - 1 - place;
    unsigned long long *came = &call->came[side];
    if (place >= call->next[side]) {
        *came = ahead < 64 ? *came << ahead | 1 : 1;
        call->next[side] = place + 1;
        return 1;
    }
    if (behind < 64 && *came >> behind & 1) {
        seen.twice++;
        return 0;
    }
    seen.disordered++;
    if (behind < 64) *came |= 1ull << behind;
    return 1;
}

// Counts media that came to a side of a call.
static void count_media(struct call *call, int side, const struct stamp *stamp, long long moment) {
    if (!stamp->is_counted || !is_first(call, side, stamp->place)) return;
    call->taken[side]++, seen.taken++;
    count_latency(&seen.latencies, moment - stamp->moment);
}

static void take_media(struct peer *peer, struct leg *leg, const unsigned char *media, unsigned length, long long moment) {
    struct stamp stamp;
    if (length == wanted.octets) memcpy(&stamp, media, sizeof stamp);
    if (length != wanted.octets || stamp.call >= call_count || stamp.side > 1) {
        seen.strange++;
        return;
    }
    struct call *call = &calls[stamp.call];
    int side = 1 - stamp.side;
    int is_right = wanted.relay ? (side ? call->to : call->from) == peer : leg && leg->call == call && leg->side == side;
    if (!is_right) seen.strange++;
    else count_media(call, side, &stamp, moment);
}

static void take_entry(struct peer *peer, unsigned theirs, const unsigned char *media, unsigned length, long long moment) {
    take_media(peer, peer->of_theirs[theirs & 0x7fff], media, length, moment);
}

static void take_trunk(struct peer *peer, const unsigned char *octets, unsigned length, long long moment) {
    unsigned has_timestamps = octets[3] & 1, head = has_timestamps ? 6 : 4;
    for (unsigned at = TRUNK; at + head <= length;) {
        unsigned number = get16(octets + at + (has_timestamps ? 2 : 0)), size = get16(octets + at + (has_timestamps ? 0 : 2));
        if (at + head + size > length) break;
        take_entry(peer, number, octets + at + head, size, moment);
        seen.entries++, at += head + size;
    }
    seen.trunks++, seen.wire_octets += length + HEADERS;
}

static void send_first_voice(struct call *call, int side) {
    unsigned char media[MOST_MEDIA] = {0};
    struct stamp stamp = {.call = (unsigned short)call->place, .side = (unsigned char)side};
    memcpy(media, &stamp, sizeof stamp);
    struct leg *leg = call->ends[side];
    unsigned timestamp = timestamp_of(leg);
    leg->voice_high = (long)(timestamp >> 16);
    send_numbered(leg, timestamp, VOICE, format_of_calls(), media, wanted.octets);
}

static void take_hangup(struct leg *leg) {
    leg->is_dead = 1;
    if (!is_ending) seen.cut++;
    leg->call->is_over = 1;
}

static unsigned format_element(unsigned char *at, int which) {
    memcpy(at, (unsigned char[]){(unsigned char)which, 4, 0, 0, 0, (unsigned char)format_of_calls()}, 6);
    return 6;
}

static void answer_call(struct leg *leg, unsigned timestamp) {
    unsigned char format[6];
    send_numbered(leg, timestamp + 1, IAX, ACCEPT, format, format_element(format, 9));
    send_numbered(leg, timestamp + 2, CONTROL, ANSWER, NULL, 0);
}

static void take_iax(struct leg *leg, int subclass, unsigned timestamp) {
    switch (subclass) {
    case NEW: answer_call(leg, timestamp); break;
    case PING: send_numbered(leg, timestamp, IAX, PONG, NULL, 0); break;
    case LAGRQ: send_numbered(leg, timestamp, IAX, LAGRP, NULL, 0); break;
    case REJECT:
    case HANGUP: take_hangup(leg); break;
    default: break;
    }
}

// Handles the numbered frame that was expected, and acknowledges it.
static void take_frame(struct peer *peer, struct leg *leg, const unsigned char *frame, unsigned length, long long moment) {
    unsigned timestamp = get16(frame + 4) << 16 | get16(frame + 6);
    int type = frame[10], subclass = frame[11];
    leg->taken++;
    if (type == IAX) take_iax(leg, subclass, timestamp);
    if (type == VOICE) {
        leg->call->has_voice[leg->side] = 1;
        if (seen.sending) seen.voices++;
        take_media(peer, leg, frame + FULL, length - FULL, moment);
    }
    if (type == CONTROL && subclass == ANSWER && !leg->call->is_answered && leg->side == 0 && leg->call->ends[1]) {
        leg->call->is_answered = 1;
        send_first_voice(leg->call, 0), send_first_voice(leg->call, 1);
    }
    send_answer(leg, timestamp, ACK);
}

// Returns the leg of an offered call, the same one for a repeated NEW.
static struct leg *offered(struct peer *peer, unsigned theirs, const unsigned char *data, unsigned length) {
    unsigned size = 0, prefix = (unsigned)strlen(peer->prefix);
    const unsigned char *called = element(data, length, CALLED_NUMBER, &size);
    char digits[CALL_DIGITS + 1] = "";
    if (!called || size != prefix + CALL_DIGITS || memcmp(called, peer->prefix, prefix) != 0) return NULL;
    memcpy(digits, called + prefix, CALL_DIGITS);
    int place = atoi(digits);
    if (place >= call_count || calls[place].to != peer) return NULL;
    struct call *call = &calls[place];
    if (!call->ends[1] && (call->ends[1] = open_leg(peer, call, 1))) learn(call->ends[1], theirs);
    return call->ends[1] && call->ends[1]->theirs == theirs ? call->ends[1] : NULL;
}

static void take_full(struct peer *peer, const unsigned char *frame, unsigned length, long long moment) {
    unsigned theirs = get16(frame) & 0x7fff;
    struct leg *leg = is_new(frame) ? offered(peer, theirs, frame + FULL, length - FULL) : leg_of(peer, frame);
    if (!leg || !leg->call) return;
    if (is_inval(frame)) {
        leg->oldest = leg->sent;
        if (!leg->is_dead) take_hangup(leg);
        return;
    }
    if (note_arrival(leg, frame) == EXPECTED) take_frame(peer, leg, frame, length, moment);
}

static void take_datagram(struct peer *peer, const unsigned char *octets, unsigned length, long long moment) {
    peer->received++;
    if (length >= FULL && octets[0] & 0x80) take_full(peer, octets, length, moment);
    else if (length > MINI && get16(octets)) {
        seen.minis++, seen.wire_octets += length + HEADERS;
        take_entry(peer, get16(octets), octets + MINI, length - MINI, moment);
    } else if (length >= TRUNK && octets[2] == 1) take_trunk(peer, octets, length, moment);
}

void receive_any(double seconds) {
    struct pollfd all[MOST_PEERS];
    struct timespec time = {.tv_nsec = 0};
    if (seconds > 0) time = (struct timespec){(time_t)seconds, (long)((seconds - floor(seconds)) * 1e9)};
    for (int place = 0; place < peer_count; place++) all[place] = (struct pollfd){peers[place].wire, POLLIN, 0};
    if (ppoll(all, (nfds_t)peer_count, &time, NULL) <= 0) return;
    for (int place = 0; place < peer_count; place++)
        if (all[place].revents) receive(&peers[place], take_datagram);
}

static void place_call(struct call *call) {
    struct leg *leg = call->ends[0] = open_leg(call->from, call, 0);
    if (!leg) stop("no number is free");
    char called[32];
    int length = snprintf(called, sizeof called, "%s%0*d", call->to->prefix, CALL_DIGITS, call->place);
    unsigned char data[64] = {11, 2, 0, 2, CALLED_NUMBER, (unsigned char)length};
    memcpy(data + 6, called, (unsigned)length);
    unsigned size = 6u + (unsigned)length;
    size += format_element(data + size, 9);
    size += format_element(data + size, 8);
    send_numbered(leg, 0, IAX, NEW, data, size);
}

void resend_what_is_due(void) {
    double moment = now();
    for (int place = 0; place < call_count; place++)
        for (int side = 0; side < 2; side++) {
            struct leg *leg = calls[place].ends[side];
            if (leg && !leg->is_dead && held_frames(leg) && moment - leg->last_sent >= wanted.retry_ms / 1000.0) resend(leg);
        }
}

static int is_quiet(const struct leg *leg) { return !leg || leg->is_dead || !held_frames(leg); }

static int is_open(const struct call *call) {
    return call->has_voice[0] && call->has_voice[1] && is_quiet(call->ends[0]) && is_quiet(call->ends[1]);
}

void set_up(void) {
    double begun = now(), tick = begun;
    int placed = 0, open = 0;
    while (open < call_count) {
        for (; placed < call_count && placed < open + AT_ONCE; placed++) place_call(&calls[placed]);
        receive_any(0.005);
        if (now() - tick > 0.05) resend_what_is_due(), tick = now();
        // They open about in their order.
        while (open < placed && is_open(&calls[open])) open++;
        if (is_told_to_end || seen.cut) stop("a call was refused, or ended");
        if (now() - begun > wanted.patience) stop("a call wasn't set up in time");
    }
    seen.set_up = now() - begun;
}

static int is_hung_up(const struct call *call) {
    for (int side = 0; side < 2; side++)
        if (call->ends[side] && !call->ends[side]->is_dead && (side == 1 || held_frames(call->ends[side]))) return 0;
    return 1;
}

void hang_up(void) {
    is_ending = 1;
    double begun = now(), tick = begun;
    int placed = 0, over = 0;
    while (over < call_count && now() - begun < wanted.patience) {
        for (; placed < call_count && placed < over + AT_ONCE; placed++) {
            struct leg *leg = calls[placed].ends[0];
            if (!leg->is_dead) send_numbered(leg, timestamp_of(leg), IAX, HANGUP, NULL, 0);
        }
        receive_any(0.005);
        if (now() - tick > 0.05) resend_what_is_due(), tick = now();
        while (over < placed && is_hung_up(&calls[over])) over++;
    }
}

