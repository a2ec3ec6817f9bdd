// A network between two exchanges, on loopback: it loses, repeats, delays and reorders datagrams, by a seed, and counts
// them by their causes. It ends at SIGTERM, or after the given seconds, and then prints its counts, as one line of JSON.
//
// network a=PORT:EXCHANGE_PORT b=PORT:EXCHANGE_PORT [loss=PERCENT] [repeats=PERCENT] [delay_ms=N] [reorder_ms=N] [retry_ms=N]
//         [seed=N] [seconds=S] [path_kbit=N] [queue_ms=N] [line_s=S] [spoil=digits|media|calls|hangups|again]
//
// A datagram that the exchange at the end `a` sends to PORT of `a` is sent from PORT of `b` to the exchange at the end `b`,
// and the other way round. With `path_kbit` each of the two directions begins with a line of this number of thousand bits a
// second. The line sends one datagram after the other, each with the 28 octets of its IPv4 and UDP headers. A datagram
// waits for it at most `queue_ms`; if it would have to wait longer, it is lost. The datagrams that the line has sent are
// then lost, repeated and delayed as without it. They are counted for `line_s` seconds after the first digit.
//
// A retransmitted frame counts as sent for a VNAK if it was last sent less than `retry_ms` ago and its leg has just got
// one, otherwise as sent by the timer. `spoil` makes the network change datagrams, to show that this is noticed: digits,
// media, one digit in fifty to a HANGUP, no HANGUP at all, or each HANGUP a second time with the next number.
#define _GNU_SOURCE
#include <arpa/inet.h>
#include <poll.h>
#include <stdio.h>
#include <stdlib.h>
#include <string.h>
#include <sys/socket.h>

#include "program.h"

enum { FULL = 12, MOST_OCTETS = 2048, HEADERS = 28, ROOM = 1 << 17, DTMF = 1, IAX = 6 };
enum { HANGUP = 5, ACK = 4, INVAL = 10, VNAK = 18 };
enum cause { FIRST, BY_TIMER, FOR_VNAK, ACKS, VNAKS, INVALS, MEDIA, CAUSES };

struct datagram {
    double due;
    unsigned long order;
    int to;
    unsigned length;
    unsigned char octets[];
};

static const char *const names[CAUSES] = {"first", "by_timer", "for_vnak", "acks", "vnaks", "invals", "media"};
static unsigned long counts[CAUSES], digits, lost, repeated, orders, carried;
// By direction: the moment until which its line is busy. Of both: the datagrams that found no room in a queue; and of the
// others the count, the octets, and the time that they waited.
static double busy_until[2], waited, first_digit;
static unsigned long no_room, lined, line_octets;
static struct datagram *heap[ROOM];
static unsigned waiting;
static double last_sent[2][32768][256], last_vnak[2][32768];
static struct sockaddr_in exchanges[2];
static int wires[2];
static double loss, repeats, delay_ms, reorder_ms, retry_ms = 1000, seconds = 1e9, path_kbit, queue_ms = 200, line_s = 1e9;
static char spoil;

// 0 to 1, by the seed.
static double chance(void) { return (double)draw() / 2147483648.0; }

static int is_before(const struct datagram *one, const struct datagram *other) {
    return one->due < other->due || (one->due == other->due && one->order < other->order);
}

static void push(struct datagram *datagram) {
    unsigned place = waiting++;
    for (; place && is_before(datagram, heap[(place - 1) / 2]); place = (place - 1) / 2) heap[place] = heap[(place - 1) / 2];
    heap[place] = datagram;
}

static struct datagram *pop(void) {
    struct datagram *least = heap[0], *last = heap[--waiting];
    unsigned place = 0;
    for (unsigned below; (below = 2 * place + 1) < waiting; place = below) {
        if (below + 1 < waiting && is_before(heap[below + 1], heap[below])) below++;
        if (!is_before(heap[below], last)) break;
        heap[place] = heap[below];
    }
    heap[place] = last;
    return least;
}

static enum cause cause_of(int from, const unsigned char *octets, unsigned length, double moment) {
    if (length < FULL || !(octets[0] & 0x80)) return MEDIA;
    unsigned source = (unsigned)(octets[0] & 0x7f) << 8 | octets[1];
    if (octets[10] == IAX && octets[11] == ACK) return ACKS;
    if (octets[10] == IAX && octets[11] == VNAK) return VNAKS;
    if (octets[10] == IAX && octets[11] == INVAL) return INVALS;
    double *last = &last_sent[from][source][octets[8]], before = *last;
    *last = moment;
    if (!(octets[2] & 0x80)) {
        if (octets[10] == DTMF && !digits++) first_digit = moment;
        return FIRST;
    }
    // A worker checks due frames once a turn, and the datagram came some time after it was sent.
    int is_due = moment - before >= retry_ms * 0.98 / 1000, has_vnak = moment - last_vnak[from][source] < retry_ms / 2 / 1000;
    return !is_due && has_vnak ? FOR_VNAK : BY_TIMER;
}

// Returns the moment at which the line of this direction has sent a datagram that comes to it now, or one before now if it
// finds no room in the queue.
static double sent_by_line(int from, unsigned length, double moment) {
    if (path_kbit <= 0) return moment;
    double wait = busy_until[from] > moment ? busy_until[from] - moment : 0;
    double sent = moment + wait + (length + HEADERS) * 8 / (path_kbit * 1000), end = first_digit + line_s;
    if (wait * 1000 > queue_ms) {
        if (digits && moment < end) no_room++;
        return moment - 1;
    }
    if (digits && sent < end) lined++, waited += wait, line_octets += length + HEADERS;
    return busy_until[from] = sent;
}

static void put_off(int to, const unsigned char *octets, unsigned length, double moment) {
    if (waiting == ROOM) {
        lost++;
        return;
    }
    struct datagram *datagram = malloc(sizeof *datagram + length);
    if (!datagram) abort();
    *datagram = (struct datagram){moment + (delay_ms + chance() * reorder_ms) / 1000, orders++, to, length};
    memcpy(datagram->octets, octets, length);
    push(datagram);
}

static int is_hangup(const unsigned char *octets, unsigned length) {
    return length >= FULL && octets[0] & 0x80 && octets[10] == IAX && octets[11] == HANGUP;
}

// Changes a datagram, or returns that it is lost.
static int spoilt(unsigned char *octets, unsigned length) {
    int is_full = length >= FULL && octets[0] & 0x80;
    if (spoil == 'd' && is_full && octets[10] == DTMF && chance() < 0.05) octets[11] ^= 1;
    if (spoil == 'c' && is_full && octets[10] == DTMF && chance() < 0.02) octets[10] = IAX, octets[11] = HANGUP;
    if (spoil == 'm' && !is_full && length > 40 && chance() < 0.05) octets[24] ^= 4;
    return spoil == 'h' && is_hangup(octets, length);
}

static void take(int from, unsigned char *octets, unsigned length) {
    double moment = now();
    counts[cause_of(from, octets, length, moment)]++;
    double sent = sent_by_line(from, length, moment);
    if (sent < moment) return;
    if (chance() * 100 < loss || spoilt(octets, length)) {
        lost++;
        return;
    }
    put_off(1 - from, octets, length, sent);
    if (spoil == 'a' && is_hangup(octets, length)) {
        octets[8]++;
        put_off(1 - from, octets, length, sent);
    }
    if (chance() * 100 < repeats) {
        repeated++;
        put_off(1 - from, octets, length, sent);
    }
}

static void receive(int from) {
    unsigned char octets[MOST_OCTETS];
    for (int count = 0; count < 64; count++) {
        ssize_t length = recv(wires[from], octets, sizeof octets, MSG_DONTWAIT);
        if (length < 0) return;
        take(from, octets, (unsigned)length);
    }
}

static void note_vnak(const struct datagram *datagram, double moment) {
    const unsigned char *octets = datagram->octets;
    if (datagram->length >= FULL && octets[0] & 0x80 && octets[10] == IAX && octets[11] == VNAK)
        last_vnak[datagram->to][(octets[2] & 0x7f) << 8 | octets[3]] = moment;
}

static void deliver(void) {
    double moment = now();
    while (waiting && heap[0]->due <= moment) {
        struct datagram *datagram = pop();
        note_vnak(datagram, moment);
        sendto(wires[datagram->to], datagram->octets, datagram->length, 0, (struct sockaddr *)&exchanges[datagram->to],
               sizeof exchanges[0]);
        carried++;
        free(datagram);
    }
}

static void add_end(int end, const char *text) {
    unsigned port, exchange;
    struct sockaddr_in at = {.sin_family = AF_INET};
    int room = 8 << 20;
    if (sscanf(text, "%u:%u", &port, &exchange) != 2) exit(2);
    at.sin_addr.s_addr = htonl(INADDR_LOOPBACK);
    exchanges[end] = at;
    at.sin_port = htons((unsigned short)port), exchanges[end].sin_port = htons((unsigned short)exchange);
    wires[end] = socket(AF_INET, SOCK_DGRAM, 0);
    setsockopt(wires[end], SOL_SOCKET, SO_RCVBUF, &room, sizeof room);
    if (bind(wires[end], (struct sockaddr *)&at, sizeof at) != 0) exit(2);
}

static void read_word(char *word) {
    const struct {
        const char *name;
        double *at;
    } all[] = {{"loss", &loss},         {"repeats", &repeats}, {"delay_ms", &delay_ms},   {"reorder_ms", &reorder_ms},
               {"retry_ms", &retry_ms}, {"seconds", &seconds}, {"path_kbit", &path_kbit}, {"queue_ms", &queue_ms},
               {"line_s", &line_s}};
    char *value = strchr(word, '=');
    if (!value) exit(2);
    *value++ = 0;
    if (strcmp(word, "a") == 0) add_end(0, value);
    if (strcmp(word, "b") == 0) add_end(1, value);
    if (strcmp(word, "seed") == 0) set_seed(value);
    if (strcmp(word, "spoil") == 0) spoil = value[0];
    for (unsigned place = 0; place < sizeof all / sizeof all[0]; place++)
        if (strcmp(all[place].name, word) == 0) *all[place].at = atof(value);
}

static int milliseconds_to_next(void) {
    if (!waiting) return 20;
    double left = (heap[0]->due - now()) * 1000;
    return left <= 0 ? 0 : left < 19 ? (int)left + 1 : 20;
}

static void report(double moment) {
    double took = moment - first_digit < line_s ? moment - first_digit : line_s;
    printf("{\"lost\": %lu, \"repeated\": %lu, \"carried\": %lu, \"digits\": %lu", lost, repeated, carried, digits);
    printf(", \"no_room\": %lu, \"line_kbit\": %.1f", no_room, (double)line_octets * 8 / 2 / took / 1000);
    printf(", \"waited_ms\": %.1f", lined ? waited * 1000 / (double)lined : 0);
    for (int cause = 0; cause < CAUSES; cause++) printf(", \"%s\": %lu", names[cause], counts[cause]);
    printf("}\n");
}

int main(int count, char **words) {
    end_at_sigterm();
    for (int place = 1; place < count; place++) read_word(words[place]);
    for (double end = now() + seconds; !is_told_to_end && now() < end;) {
        struct pollfd both[2] = {{wires[0], POLLIN, 0}, {wires[1], POLLIN, 0}};
        poll(both, 2, milliseconds_to_next());
        receive(0), receive(1);
        deliver();
    }
    report(now());
    return 0;
}
