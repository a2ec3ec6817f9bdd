// Sends the media of calls as peers do: a frame of each call every 20 ms. The frames of all calls go together, a gap apart, or
// spread over the time; as mini frames, or packed into trunk frames as an Asterisk packs them. Prints what the other peers
// received, as one line of JSON.
//
// paced peer=PORT:EXCHANGE_PORT:PREFIX .. pair=FROM:TO:CALLS .. [NAME=VALUE ..]
//
// Peers are counted from 0. The first peer of a pair places its calls. All calls are set up before media goes out, with the
// first voice full frame each way.
//
//   seconds=S    how long media is sent, 2 without it
//   trunk=1      peers send trunk frames, of `mtu` octets at most (1240); 2: with a timestamp in each entry; 0: mini frames
//   octets=N     of media in a frame: 160 is G.711, 33 is GSM
//   every_ms=N   between two frames of a call, 20
//   gap_us=N     between two datagrams of a sender, 0: back to back; -1: as far apart as `every_ms` allows
//   ways=1       only the callers send; 2: both
//   relay=1      sets up no call: mini frames cross a plain relay between two peers
//   each=1       prints what was sent and what came, for each call: from the caller, and from the called peer
//   process=ID   a process, whose processor time is measured while media is sent
//   retry_ms=N   how long a peer waits for an acknowledgement, 400
//   patience=S   the longest wait for the set-up, for the last media, and for the hang-ups, 20
//
// A frame has the moment at which its sender handed it to the system. The system notes the moment at which it came, so a
// late reader adds no latency. If the sender itself gets no processor, it leaves out whole turns of `every_ms` and counts
// them: bursts are never joined.
#define _GNU_SOURCE
#include <math.h>
#include <stdio.h>
#include <stdlib.h>
#include <string.h>
#include <sys/prctl.h>
#include <sys/socket.h>
#include <time.h>

#include "../endurance/program.h"
#include "../endurance/wire.h"
#include "paced.h"

// The sender doesn't sleep through a shorter gap than this, in seconds.
static const double NAP = 60e-6;

// A datagram of each turn: the moment at which it is due, in seconds from the turn's begin, and the ends of the calls whose
// frames it has.
struct parcel {
    double due;
    unsigned order, sender, first, count;
};

struct peer peers[MOST_PEERS];
struct call calls[MOST_CALLS];
int peer_count, call_count;
struct wanted wanted = {.seconds = 2, .patience = 20, .octets = 160, .every_ms = 20, .ways = 2, .retry_ms = 400, .mtu = 1240};
struct seen seen;
// The ends of calls for which a peer sends: twice a call's place, plus the side.
static unsigned *ends_of[MOST_PEERS], end_counts[MOST_PEERS];
static struct parcel *parcels;
static unsigned parcel_count;

static void add_peer(char *text) {
    if (peer_count == MOST_PEERS) stop("too many peers");
    if (!read_peer(&peers[peer_count], peer_count, text)) stop("a peer is PORT:EXCHANGE_PORT:PREFIX");
    if (peers[peer_count++].wire < 0) stop("a port can't be had");
}

static void add_pair(const char *text) {
    int from, to, count;
    if (sscanf(text, "%d:%d:%d", &from, &to, &count) != 3) stop("a pair is FROM:TO:CALLS");
    if (from < 0 || to < 0 || from >= peer_count || to >= peer_count) stop("a pair of no peers");
    if (count < 0 || call_count + count > MOST_CALLS) stop("too many calls");
    for (; count > 0; count--, call_count++)
        calls[call_count] = (struct call){.place = call_count, .from = &peers[from], .to = &peers[to]};
}

static void set_word(const char *name, char *value) {
    const struct number all[] = {{"trunk", &wanted.trunk}, {"octets", &wanted.octets},     {"every_ms", &wanted.every_ms},
                                 {"ways", &wanted.ways},   {"relay", &wanted.relay},       {"retry_ms", &wanted.retry_ms},
                                 {"mtu", &wanted.mtu},     {"each", &wanted.each}};
    if (set_one(all, sizeof all / sizeof all[0], name, value)) return;
    if (strcmp(name, "peer") == 0) add_peer(value);
    else if (strcmp(name, "pair") == 0) add_pair(value);
    else if (strcmp(name, "seconds") == 0) wanted.seconds = atof(value);
    else if (strcmp(name, "gap_us") == 0) wanted.gap_us = atof(value);
    else if (strcmp(name, "patience") == 0) wanted.patience = atof(value);
    else if (strcmp(name, "process") == 0) wanted.process = atoi(value);
    else stop(name);
}

static void read_parameters(int count, char **words) {
    read_words(count, words, set_word);
    if (!call_count) stop("no call");
    if (wanted.octets < STAMP || wanted.octets > MOST_MEDIA || !wanted.every_ms)
        stop("octets are 16 to 160, every_ms at least 1");
    if (wanted.relay && (peer_count != 2 || wanted.trunk)) stop("a relay has two peers, and carries mini frames");
    if (wanted.mtu < TRUNK + 6 + wanted.octets || wanted.mtu > MOST_OCTETS) stop("mtu has room for a frame, and is 2048 at most");
}

// Returns the greatest number of frames in a datagram of a sender.
static unsigned frames_in_one(void) {
    if (!wanted.trunk) return 1;
    return (wanted.mtu - TRUNK) / ((wanted.trunk == 2 ? 6 : 4) + wanted.octets);
}

static int by_due(const void *one, const void *other) {
    const struct parcel *left = one, *right = other;
    if (left->due != right->due) return left->due < right->due ? -1 : 1;
    // Senders take turns, a batch each, among the datagrams that are due together.
    if (left->order / BATCH != right->order / BATCH) return left->order < right->order ? -1 : 1;
    if (left->sender != right->sender) return left->sender < right->sender ? -1 : 1;
    return left->order < right->order ? -1 : 1;
}

static double due_of(unsigned order, unsigned count, unsigned sender) {
    if (wanted.gap_us >= 0) return order * wanted.gap_us / 1e6;
    return (order + (double)sender / peer_count) / count * wanted.every_ms / 1000;
}

// Prepares the datagrams of each turn, in their order.
static void make_parcels(void) {
    for (int place = 0; place < peer_count; place++) ends_of[place] = malloc(2 * MOST_CALLS * sizeof **ends_of);
    for (int place = 0; place < call_count; place++)
        for (unsigned side = 0; side < wanted.ways && side < 2; side++) {
            int sender = (side ? calls[place].to : calls[place].from)->place;
            ends_of[sender][end_counts[sender]++] = 2 * (unsigned)place + side;
        }
    parcels = malloc(2 * MOST_CALLS * sizeof *parcels);
    unsigned each = frames_in_one();
    for (unsigned sender = 0; sender < (unsigned)peer_count; sender++) {
        unsigned count = (end_counts[sender] + each - 1) / each;
        for (unsigned order = 0; order < count; order++) {
            unsigned first = order * each, left = end_counts[sender] - first, own = left < each ? left : each;
            parcels[parcel_count++] = (struct parcel){due_of(order, count, sender), order, sender, first, own};
        }
    }
    qsort(parcels, parcel_count, sizeof *parcels, by_due);
}

// Writes the next frame of an end of a call. Returns false if the call is over, or if a full frame took it because its
// timestamp has a new high half.
static int write_media(unsigned end, unsigned char *media, unsigned *number, unsigned *timestamp) {
    struct call *call = &calls[end / 2];
    int side = (int)(end % 2);
    struct leg *leg = call->ends[side];
    if (call->is_over) return 0;
    struct stamp stamp = {wall_ns(), (unsigned short)call->place, (unsigned char)side, 1, call->sent[side]};
    memset(media + STAMP, 0xd5, wanted.octets - STAMP);
    memcpy(media, &stamp, sizeof stamp);
    *number = leg ? leg->number : 1 + end / 2, *timestamp = leg ? timestamp_of(leg) : (unsigned)(stamp.moment / 1000000);
    if (leg && leg->voice_high != (long)(*timestamp >> 16)) {
        if (!send_numbered(leg, *timestamp, VOICE, format_of_calls(), media, wanted.octets)) return 0;
        leg->voice_high = (long)(*timestamp >> 16);
        call->sent[side]++, seen.sent++;
        return 0;
    }
    call->sent[side]++, seen.sent++;
    return 1;
}

static unsigned write_mini(unsigned char *octets, unsigned end) {
    unsigned number, timestamp;
    if (!write_media(end, octets + MINI, &number, &timestamp)) return 0;
    put16(octets, number), put16(octets + 2, timestamp);
    return MINI + wanted.octets;
}

static unsigned write_entry(unsigned char *octets, unsigned end) {
    unsigned number, timestamp, head = wanted.trunk == 2 ? 6 : 4;
    if (!write_media(end, octets + head, &number, &timestamp)) return 0;
    put16(octets + (wanted.trunk == 2 ? 2 : 0), number), put16(octets + (wanted.trunk == 2 ? 0 : 2), wanted.octets);
    if (wanted.trunk == 2) put16(octets + 4, timestamp);
    return head + wanted.octets;
}

static unsigned write_trunk(unsigned char *octets, const struct parcel *parcel) {
    unsigned length = TRUNK, timestamp = (unsigned)(now() * 1000);
    memset(octets, 0, TRUNK);
    octets[2] = 1, octets[3] = wanted.trunk == 2;
    put16(octets + 4, timestamp >> 16), put16(octets + 6, timestamp);
    const unsigned *ends = ends_of[parcel->sender] + parcel->first;
    for (unsigned place = 0; place < parcel->count; place++) length += write_entry(octets + length, ends[place]);
    return length > TRUNK ? length : 0;
}

// Sends datagrams of one sender.
static void send_parcels(const struct parcel *first, unsigned count) {
    static unsigned char octets[BATCH][MOST_OCTETS];
    struct iovec parts[BATCH];
    struct mmsghdr all[BATCH];
    unsigned filled = 0;
    memset(all, 0, sizeof all);
    for (unsigned place = 0; place < count; place++) {
        const struct parcel *parcel = first + place;
        unsigned end = ends_of[parcel->sender][parcel->first];
        unsigned length = wanted.trunk ? write_trunk(octets[filled], parcel) : write_mini(octets[filled], end);
        if (!length) continue;
        parts[filled] = (struct iovec){octets[filled], length};
        all[filled].msg_hdr.msg_iov = &parts[filled], all[filled].msg_hdr.msg_iovlen = 1;
        filled++;
    }
    int gone = filled ? sendmmsg(peers[first->sender].wire, all, filled, 0) : 0;
    seen.unsent += filled - (unsigned)(gone > 0 ? gone : 0);
    if (wanted.trunk) seen.trunks_sent += filled;
}

// Receives until a moment.
static void receive_until(double moment) {
    for (double left = moment - now(); left > 0; left = moment - now()) receive_any(left > NAP ? left - NAP : 0);
}

// Counts the parcels from a place on that one sender has to send by a moment of the turn: 1 to a batch.
static unsigned due_together(unsigned place, double moment) {
    unsigned count = 1;
    for (; count < BATCH && place + count < parcel_count; count++) {
        const struct parcel *next = &parcels[place + count];
        if (next->sender != parcels[place].sender || next->due > moment) break;
    }
    return count;
}

// Sends one turn: a frame of each call.
static void send_turn(double begin) {
    for (unsigned place = 0; place < parcel_count && !is_told_to_end;) {
        double due = begin + parcels[place].due;
        receive_until(due);
        double moment = now() - begin;
        unsigned count = due_together(place, moment);
        send_parcels(&parcels[place], count);
        place += count;
        // A peer's socket may not have room for a whole turn.
        if (place % (8 * BATCH) < count) receive_any(0);
    }
}

static double processor_of(int process) {
    clockid_t clock;
    struct timespec time;
    if (!process || clock_getcpuclockid(process, &clock) != 0 || clock_gettime(clock, &time) != 0) return 0;
    return (double)time.tv_sec + (double)time.tv_nsec / 1e9;
}

static void send_media(void) {
    double every = wanted.every_ms / 1000.0, begun = now() + 0.001, tick = begun;
    double processor = processor_of(wanted.process);
    unsigned long turn = 0, turns = (unsigned long)lround(wanted.seconds / every);
    seen.sending = wanted.seconds;
    for (; turn < turns && !is_told_to_end; turn++) {
        for (; turn + 1 < turns && now() > begun + (double)(turn + 1) * every; turn++) seen.left_out++;
        receive_until(begun + (double)turn * every);
        send_turn(begun + (double)turn * every);
        seen.turns++;
        if (now() - tick > 0.1) resend_what_is_due(), tick = now();
    }
    receive_until(begun + (double)turn * every);
    seen.processor = processor_of(wanted.process) - processor;
    seen.taken_in_time = seen.taken, seen.sending = now() - begun;
}

// Receives until all media has come, or none came for a second.
static void wait_for_the_rest(void) {
    double begun = now(), came = begun, tick = begun;
    while (seen.taken < seen.sent && now() - came < 1 && now() - begun < wanted.patience) {
        unsigned long before = seen.taken;
        receive_any(0.02);
        if (seen.taken != before) came = now();
        if (now() - tick > 0.05) resend_what_is_due(), tick = now();
    }
}

int main(int count, char **words) {
    end_at_sigterm();
    prctl(PR_SET_TIMERSLACK, 1);
    read_parameters(count, words);
    if (!wanted.relay) set_up();
    make_parcels();
    send_media();
    wait_for_the_rest();
    report();
    fflush(stdout);
    if (!wanted.relay) hang_up();
    return 0;
}
