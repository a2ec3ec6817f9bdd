// Sends a great many datagrams to an exchange, as fast as it takes them: valid frames, mutated ones, cut ones, and random
// octets. It has a separate socket, and so only one endpoint. It receives the answers, and uses the call numbers that it
// finds there.
//
// flood from=PORT to=EXCHANGE_PORT count=DATAGRAMS seconds=S prefix=CALLED [long_burst=DATAGRAMS] [seed=N]
//
// After each burst it waits until the exchange's socket is nearly empty, by /proc/net/udp. Each eighth burst is long: it
// fills the room of the socket, and more. It ends after the given number of datagrams, or of seconds, and prints the counts
// of the sent datagrams, as one line of JSON.
#define _GNU_SOURCE
#include <stdio.h>
#include <stdlib.h>
#include <string.h>
#include <sys/socket.h>
#include <unistd.h>

#include "program.h"
#include "wire.h"

enum { LONGEST = 2200, BURST = 400, PAIRS = 64, NEARLY_EMPTY = 65536, TEXT = 7 };
enum kind { CALL, FRAME, MINI, TRUNK, VIDEO, CHANCE, KINDS };

static const char *const names[KINDS] = {"calls", "frames", "minis", "trunks", "videos", "by_chance"};
static unsigned long counts[KINDS], mutated, cut, sent, heard, bursts, long_bursts;
// Pairs of a call number of the exchange and one of this sender, from the answers.
static unsigned pairs[PAIRS][2], pair_count;
static int wire;
static unsigned from;
static unsigned long burst_lengths[2] = {BURST, 20000};
static const char *prefix = "";

static unsigned write_call(unsigned char *octets) {
    static const unsigned char format[] = {9, 4, 0, 0, 0, 4, 8, 4, 0, 0, 0, 4};
    unsigned length = write_head(octets, 1 + below(32767), 0, below(65536), 0, 0, IAX, NEW);
    int called = snprintf((char *)octets + length + 6, 64, "%s%04u", prefix, below(10000));
    memcpy(octets + length, (unsigned char[]){11, 2, 0, 2, 1, (unsigned char)called}, 6);
    length += 6u + (unsigned)called;
    memcpy(octets + length, format, sizeof format);
    return length + sizeof format;
}

// Writes a frame of a call that is up, or of one that isn't.
static unsigned write_frame(unsigned char *octets) {
    static const int types[] = {IAX, IAX, IAX, IAX, DTMF, VOICE, CONTROL, TEXT};
    int type = types[below(8)], subclass = type == IAX     ? (int)below(48)
                                           : type == DTMF  ? '0' + (int)below(10)
                                           : type == VOICE ? 4
                                                           : (int)below(20);
    unsigned *pair = pair_count && below(4) ? pairs[below(pair_count)] : (unsigned[]){below(32768), below(16) ? below(32768) : 0};
    unsigned length = write_head(octets, pair[1], pair[0] | (below(8) ? 0 : 0x8000), below(65536), below(below(2) ? 4 : 256),
                                 below(below(2) ? 4 : 256), type, subclass);
    unsigned more = type == VOICE ? 160 : below(3) ? 0 : below(200);
    by_chance(octets + length, more);
    if (type == IAX && subclass == ACCEPT) memcpy(octets + length, (unsigned char[]){9, 4, 0, 0, 0, 4}, more = 6);
    return length + more;
}

static unsigned write_mini(unsigned char *octets) {
    put16(octets, pair_count ? pairs[below(pair_count)][1] : 1 + below(32767)), put16(octets + 2, below(65536));
    by_chance(octets + 4, 160);
    return 164;
}

static unsigned write_trunk(unsigned char *octets) {
    unsigned has_timestamps = below(2), length = 8, entries = 1 + below(7);
    memset(octets, 0, 8);
    octets[2] = 1, octets[3] = (unsigned char)has_timestamps;
    for (unsigned entry = 0; entry < entries; entry++) {
        unsigned data = below(170), number = pair_count ? pairs[below(pair_count)][1] : below(32768);
        put16(octets + length, has_timestamps ? data : number), put16(octets + length + 2, has_timestamps ? number : data);
        length += has_timestamps ? 6 : 4;
        by_chance(octets + length, data);
        length += data;
    }
    return length;
}

static unsigned write_datagram(unsigned char *octets) {
    enum kind kind = below(10) < 6 ? FRAME : (enum kind)below(KINDS);
    unsigned length = 0;
    counts[kind]++;
    switch (kind) {
    case CALL: length = write_call(octets); break;
    case FRAME: length = write_frame(octets); break;
    case MINI: length = write_mini(octets); break;
    case TRUNK: length = write_trunk(octets); break;
    default: by_chance(octets, length = below(64) ? 1 + below(300) : LONGEST); break;
    }
    // Meta frames: video, and unknown commands.
    if (kind == VIDEO) memset(octets, 0, 2), octets[2] = (unsigned char)below(256);
    if (below(5) == 0) mutated++, octets[below(length)] ^= (unsigned char)(1 + below(255));
    if (below(8) == 0) cut++, length = below(length + 1);
    return length;
}

// Receives the answers, and keeps their call numbers.
static void hear(void) {
    unsigned char octets[2048];
    for (ssize_t length; (length = recv(wire, octets, sizeof octets, MSG_DONTWAIT)) >= 0; heard++) {
        if (length < FULL || !(octets[0] & 0x80)) continue;
        unsigned *pair = pairs[pair_count < PAIRS ? pair_count++ : below(PAIRS)];
        pair[0] = ((unsigned)octets[0] << 8 | octets[1]) & 0x7fff, pair[1] = ((unsigned)octets[2] << 8 | octets[3]) & 0x7fff;
        if (!pair[1]) pair[1] = 1 + below(32767);
    }
}

static void wait_for_room(unsigned port, double end) {
    while (!is_told_to_end && now() < end && waiting_at(port, from) > NEARLY_EMPTY) {
        hear();
        usleep(500);
    }
}

static void flood(unsigned port, unsigned long count, double end) {
    unsigned char octets[LONGEST + 512];
    while (sent < count && now() < end && !is_told_to_end) {
        int is_long = bursts++ % 8 == 4;
        long_bursts += (unsigned)is_long;
        for (unsigned long left = burst_lengths[is_long]; left && sent < count; left--, sent++)
            (void)send(wire, octets, write_datagram(octets), 0);
        hear();
        wait_for_room(port, end);
    }
}

int main(int count, char **words) {
    unsigned port = (unsigned)atoi(word_of(count, words, "to", "0"));
    end_at_sigterm();
    prefix = word_of(count, words, "prefix", "");
    burst_lengths[1] = strtoul(word_of(count, words, "long_burst", "20000"), NULL, 10);
    set_seed(word_of(count, words, "seed", "1"));
    from = (unsigned)atoi(word_of(count, words, "from", "0"));
    wire = wire_of(from, port);
    if (wire < 0) return 2;
    double end = now() + atof(word_of(count, words, "seconds", "10"));
    flood(port, strtoul(word_of(count, words, "count", "100000"), NULL, 10), end);
    printf("{\"sent\": %lu, \"heard\": %lu, \"bursts\": %lu, \"long_bursts\": %lu, \"mutated\": %lu, \"cut\": %lu", sent, heard,
           bursts, long_bursts, mutated, cut);
    for (int kind = 0; kind < KINDS; kind++) printf(", \"%s\": %lu", names[kind], counts[kind]);
    printf("}\n");
    return 0;
}
