// Loads an exchange, or a plain relay, with calls that carry mini frames of 160 octets both ways, and prints the number of
// frames carried per second of its processor time.
//
// load exchange|trunk|relay CALLS[/ENDS][@SITE][xSITES] SECONDS COMMAND [ARGUMENT..]
//
// It starts the command, which has to bind 127.0.0.1 port 4569. Itself it plays the peers at ports 5001 (west) and 5002
// (east). To an exchange it first sets up the calls, from west to the number 300. It then keeps a fixed number of frames on
// their way, evenly over the calls, measures the processor time of the command over the given seconds, and ends the
// command. It prints the processor time of each call's set-up, the number of frames carried, and the memory used. With
// ENDS, this number of calls is hung up each second, one after another, and each is set up again. To a trunk it sends the
// media of eight calls in each datagram, and counts entries; to a relay it sends a mini frame in each, as to an exchange.
// With 0 seconds no media is sent.
//
// With SITE, 0 to 7, all three ports are higher: that of the command by SITE, those of the peers by two for each SITE; and
// 3SITE0 is called. With SITES there are this number of pairs of peers, from SITE on, each with a separate process and
// separate calls. The command has to bind the port of each.
#define _GNU_SOURCE
#include <arpa/inet.h>
#include <netinet/in.h>
#include <poll.h>
#include <signal.h>
#include <stdio.h>
#include <stdlib.h>
#include <string.h>
#include <sys/mman.h>
#include <sys/prctl.h>
#include <sys/socket.h>
#include <sys/wait.h>
#include <time.h>
#include <unistd.h>

enum { MOST_CALLS = 512, MEDIA = 160, BATCH = 32, ON_THE_WAY = 96, FULL = 12, TRUNK = 8, ENTRY = 4, ENTRIES = 8 };
enum { PORT = 4569, WEST_PORT = 5001, MOST_SITES = 8 };
enum { DTMF = 1, VOICE = 2, CONTROL = 4, IAX = 6 };
enum { NEW = 1, PING = 2, PONG = 3, ACK = 4, HANGUP = 5, ACCEPT = 7, INVAL = 10, VNAK = 18, ANSWER = 4, ULAW = 4 };

// One end of a call: its number here is its place plus 1.
struct leg {
    unsigned theirs;
    unsigned char sent, taken;
    int open, voiced;
};

struct peer {
    int wire;
    struct leg legs[MOST_CALLS];
    unsigned opened;
    // The leg that the exchange hung up last; -1 if it hung up none.
    int freed;
    unsigned long carried;
    long on_the_way;
};

static struct peer west, east;
static struct timespec begin;
static int calls, ends, trunks, site;

// The process of each pair of peers shares these with the others: the frames that it has carried, and whether its calls are
// set up.
struct told {
    volatile unsigned long carried;
    volatile int is_set_up;
};

static struct told *told;

static unsigned now_ms(void) {
    struct timespec now;
    clock_gettime(CLOCK_MONOTONIC, &now);
    return (unsigned)((now.tv_sec - begin.tv_sec) * 1000 + (now.tv_nsec - begin.tv_nsec) / 1000000);
}

static double seconds_of(clockid_t clock) {
    struct timespec time;
    clock_gettime(clock, &time);
    return (double)time.tv_sec + (double)time.tv_nsec / 1e9;
}

static int bound(int port) {
    struct sockaddr_in at = {.sin_family = AF_INET, .sin_port = htons((unsigned short)port)};
    at.sin_addr.s_addr = htonl(INADDR_LOOPBACK);
    int wire = socket(AF_INET, SOCK_DGRAM, 0), room = 8 << 20;
    setsockopt(wire, SOL_SOCKET, SO_RCVBUF, &room, sizeof room);
    if (wire < 0 || bind(wire, (struct sockaddr *)&at, sizeof at) != 0) {
        perror("load: bind");
        exit(1);
    }
    struct sockaddr_in to = at;
    to.sin_port = htons((unsigned short)(PORT + site));
    if (connect(wire, (struct sockaddr *)&to, sizeof to) != 0) {
        perror("load: connect");
        exit(1);
    }
    return wire;
}

static void put16(unsigned char *at, unsigned n) { at[0] = (unsigned char)(n >> 8), at[1] = (unsigned char)n; }

// Sends a full frame ("Full Frames").
static void send_full(struct peer *peer, int place, unsigned ts, int numbered, int type, int subclass, const void *data,
                      size_t len) {
    struct leg *leg = &peer->legs[place];
    unsigned char frame[FULL + 256];
    put16(frame, 0x8000u | (unsigned)(place + 1));
    put16(frame + 2, leg->theirs);
    put16(frame + 4, ts >> 16), put16(frame + 6, ts);
    frame[8] = leg->sent, frame[9] = leg->taken;
    frame[10] = (unsigned char)type, frame[11] = (unsigned char)subclass;
    if (len) memcpy(frame + FULL, data, len);
    if (numbered) leg->sent++;
    (void)send(peer->wire, frame, FULL + len, 0);
}

static const unsigned char FORMAT_OF_CALL[] = {0x09, 4, 0, 0, 0, 4};
static unsigned char NEW_FOR_300[] = {0x0b, 2, 0, 2, 0x01, 3, '3', '0', '0', 0x09, 4, 0, 0, 0, 4, 0x08, 4, 0, 0, 0, 4};
enum { DIGIT_OF_SITE = 7 };

// Handles a full frame: acknowledges it, and answers it if the call has to continue.
static void take_full(struct peer *peer, const unsigned char *frame) {
    unsigned theirs = ((unsigned)frame[0] << 8 | frame[1]) & 0x7fff, ours = ((unsigned)frame[2] << 8 | frame[3]) & 0x7fff;
    unsigned ts = (unsigned)frame[4] << 24 | (unsigned)frame[5] << 16 | (unsigned)frame[6] << 8 | frame[7];
    int type = frame[10], subclass = frame[11];
    if (type == IAX && (subclass == ACK || subclass == INVAL || subclass == VNAK)) return;
    if (ours == 0) {
        if (type != IAX || subclass != NEW) return;
        for (unsigned i = 0; i < peer->opened; i++)
            if (peer->legs[i].theirs == theirs) return;
        if (peer->opened == (unsigned)calls && peer->freed < 0) return;
        int place = peer->freed >= 0 ? peer->freed : (int)peer->opened++;
        peer->legs[place].theirs = theirs;
        peer->legs[place].taken = 1;
        send_full(peer, place, ts + 1, 1, IAX, ACCEPT, FORMAT_OF_CALL, sizeof FORMAT_OF_CALL);
        send_full(peer, place, ts + 2, 1, CONTROL, ANSWER, 0, 0);
        peer->legs[place].open = 1;
        return;
    }
    if (ours > (unsigned)calls) return;
    int place = (int)ours - 1;
    struct leg *leg = &peer->legs[place];
    if (frame[8] == leg->taken) {
        leg->taken++;
        leg->theirs = theirs;
        if (type == CONTROL && subclass == ANSWER) leg->open = 1;
        if (type == VOICE) peer->carried++, peer->on_the_way--;
        if (type == IAX && subclass == PING) {
            send_full(peer, place, ts, 1, IAX, PONG, 0, 0);
            return;
        }
    }
    send_full(peer, place, ts, 0, IAX, ACK, 0, 0);
    if (type == IAX && subclass == HANGUP) {
        memset(leg, 0, sizeof *leg);
        peer->freed = place;
    }
}

// Counts the entries of a trunk frame ("Trunk Frames") without timestamps.
static int entries_of(const unsigned char *frame, unsigned length) {
    int entries = 0;
    for (unsigned at = TRUNK; at + ENTRY <= length; entries++) at += ENTRY + ((unsigned)frame[at + 2] << 8 | frame[at + 3]);
    return entries;
}

// Receives the available frames.
static void take_all(struct peer *peer) {
    static unsigned char frames[BATCH][2049];
    struct iovec parts[BATCH];
    struct mmsghdr all[BATCH];
    memset(all, 0, sizeof all);
    for (int i = 0; i < BATCH; i++) {
        parts[i] = (struct iovec){frames[i], sizeof frames[i]};
        all[i].msg_hdr.msg_iov = &parts[i], all[i].msg_hdr.msg_iovlen = 1;
    }
    for (;;) {
        int got = recvmmsg(peer->wire, all, BATCH, MSG_DONTWAIT, 0);
        for (int i = 0; i < got; i++) {
            if (frames[i][0] & 0x80) {
                take_full(peer, frames[i]);
                continue;
            }
            int carried = frames[i][0] | frames[i][1] ? 1 : entries_of(frames[i], all[i].msg_len);
            peer->carried += (unsigned long)carried, peer->on_the_way -= carried;
        }
        if (got < BATCH) return;
    }
}

static void wait_for_any(int ms) {
    struct pollfd both[2] = {{west.wire, POLLIN, 0}, {east.wire, POLLIN, 0}};
    poll(both, 2, ms);
    take_all(&west);
    take_all(&east);
    told[site].carried = west.carried + east.carried;
}

static int both_open(int place) { return west.legs[place].open && east.legs[place].open; }

// Sets up the calls one after another.
static int set_up(void) {
    for (int place = 0; place < calls; place++) {
        // The first NEW may be sent before the command has bound its socket, so it is repeated.
        for (int tries = 0; tries < 500 && !both_open(place); tries++) {
            if (tries % 50 == 0) {
                west.legs[place].sent = 0;
                send_full(&west, place, 0, 1, IAX, NEW, NEW_FOR_300, sizeof NEW_FOR_300);
            }
            wait_for_any(10);
        }
        if (!both_open(place)) return place;
    }
    return calls;
}

// Opens the voice of each call both ways.
static void open_voice(void) {
    static const unsigned char media[MEDIA];
    for (int place = 0; place < calls; place++) {
        long before = (long)(west.carried + east.carried);
        send_full(&west, place, now_ms(), 1, VOICE, ULAW, media, MEDIA);
        send_full(&east, place, now_ms(), 1, VOICE, ULAW, media, MEDIA);
        for (int tries = 0; tries < 500 && (long)(west.carried + east.carried) < before + 2; tries++) wait_for_any(10);
    }
}

// Returns the next call in turn whose voice is open.
static int next_open(const struct peer *from, int *next) {
    for (int tries = 0; tries < calls && !from->legs[*next].open; tries++) *next = (*next + 1) % calls;
    int place = *next;
    *next = (place + 1) % calls;
    return place;
}

// Sends a batch of mini frames, one of each of the next calls in turn ("Mini Frames").
static int send_minis(struct peer *from, int *next) {
    static unsigned char frames[BATCH][4 + MEDIA];
    struct iovec parts[BATCH];
    struct mmsghdr all[BATCH];
    unsigned ts = now_ms();
    memset(all, 0, sizeof all);
    for (int i = 0; i < BATCH; i++) {
        put16(frames[i], (unsigned)(next_open(from, next) + 1)), put16(frames[i] + 2, ts);
        parts[i] = (struct iovec){frames[i], sizeof frames[i]};
        all[i].msg_hdr.msg_iov = &parts[i], all[i].msg_hdr.msg_iovlen = 1;
    }
    return sendmmsg(from->wire, all, BATCH, 0);
}

// The same as entries of trunk frames ("Trunk Frames").
static int send_trunks(struct peer *from, int *next) {
    static unsigned char frames[BATCH / ENTRIES][TRUNK + ENTRIES * (ENTRY + MEDIA)];
    struct iovec parts[BATCH / ENTRIES];
    struct mmsghdr all[BATCH / ENTRIES];
    unsigned ts = now_ms();
    memset(all, 0, sizeof all);
    for (int i = 0; i < BATCH / ENTRIES; i++) {
        frames[i][2] = 1;
        put16(frames[i] + 4, ts >> 16), put16(frames[i] + 6, ts);
        for (int entry = 0; entry < ENTRIES; entry++) {
            unsigned char *at = frames[i] + TRUNK + entry * (ENTRY + MEDIA);
            put16(at, (unsigned)(next_open(from, next) + 1)), put16(at + 2, MEDIA);
        }
        parts[i] = (struct iovec){frames[i], sizeof frames[i]};
        all[i].msg_hdr.msg_iov = &parts[i], all[i].msg_hdr.msg_iovlen = 1;
    }
    int gone = sendmmsg(from->wire, all, BATCH / ENTRIES, 0);
    return gone > 0 ? gone * ENTRIES : gone;
}

static void send_batch(struct peer *from, struct peer *to, int *next) {
    int gone = trunks ? send_trunks(from, next) : send_minis(from, next);
    if (gone > 0) to->on_the_way += gone;
}

// Hangs up one call after another, at the given rate, and sets each up again.
static void turn_over(double elapsed) {
    static const unsigned char media[MEDIA];
    static enum { STILL, HANGING, CALLING } stage;
    static int place;
    static unsigned long turned;
    struct leg *leg = &west.legs[place];
    if (stage == STILL && (double)turned < elapsed * ends) {
        place = (int)(turned++ % (unsigned long)calls);
        leg = &west.legs[place];
        leg->open = 0, east.freed = -1;
        send_full(&west, place, now_ms(), 1, IAX, HANGUP, 0, 0);
        stage = HANGING;
    } else if (stage == HANGING && east.freed >= 0) {
        memset(leg, 0, sizeof *leg);
        send_full(&west, place, 0, 1, IAX, NEW, NEW_FOR_300, sizeof NEW_FOR_300);
        stage = CALLING;
    } else if (stage == CALLING && leg->open && east.legs[east.freed].open) {
        send_full(&west, place, now_ms(), 1, VOICE, ULAW, media, MEDIA);
        send_full(&east, east.freed, now_ms(), 1, VOICE, ULAW, media, MEDIA);
        west.on_the_way++, east.on_the_way++;
        stage = STILL;
    }
    if ((double)turned + ends < elapsed * ends) {
        fprintf(stderr, "load: calls can't be set up as fast as they end\n");
        exit(1);
    }
}

// Keeps frames on their way both ways for this number of seconds.
static void carry(double seconds) {
    static double began;
    int next_west = 0, next_east = 0;
    if (began == 0) began = seconds_of(CLOCK_MONOTONIC);
    double end = seconds_of(CLOCK_MONOTONIC) + seconds, quiet = 0;
    while (seconds_of(CLOCK_MONOTONIC) < end) {
        unsigned long before = west.carried + east.carried;
        if (east.on_the_way < ON_THE_WAY) send_batch(&west, &east, &next_west);
        if (west.on_the_way < ON_THE_WAY) send_batch(&east, &west, &next_east);
        wait_for_any(1);
        if (ends) turn_over(seconds_of(CLOCK_MONOTONIC) - began);
        // A lost frame doesn't come: after a while no frame is on its way any more.
        if (west.carried + east.carried != before) quiet = 0;
        else if (quiet == 0) quiet = seconds_of(CLOCK_MONOTONIC);
        else if (seconds_of(CLOCK_MONOTONIC) > quiet + 0.1) west.on_the_way = east.on_the_way = 0, quiet = 0;
    }
}

// Sets up the calls of this pair of peers. Returns false if a call wasn't set up.
static int are_set_up(int is_relay) {
    if (is_relay || set_up() == calls) return 1;
    fprintf(stderr, "load: a call wasn't set up\n");
    return 0;
}

// Starts the other pairs of peers, each in a separate process, which carries until it is ended.
static void start_others(int first, int sites, int is_relay, double seconds) {
    for (int other = first + 1; other < first + sites; other++) {
        if (fork() != 0) continue;
        prctl(PR_SET_PDEATHSIG, SIGKILL);
        site = other;
        close(west.wire), close(east.wire);
        west.wire = bound(WEST_PORT + 2 * site), east.wire = bound(WEST_PORT + 2 * site + 1);
        NEW_FOR_300[DIGIT_OF_SITE] = (unsigned char)('0' + site);
        int is_well = are_set_up(is_relay);
        if (is_well && !is_relay && seconds > 0) open_voice();
        told[site].is_set_up = is_well ? 1 : -1;
        while (told[site].is_set_up > 0) carry(1);
        _exit(1);
    }
}

// Carries until the calls of all pairs are set up, for half a second at least. Returns false if some can't be.
static int wait_for_others(int first, int sites) {
    carry(0.5);
    for (int other = first + 1; other < first + sites; other++) {
        while (told[other].is_set_up == 0) carry(0.1);
        if (told[other].is_set_up < 0) return 0;
    }
    return 1;
}

static unsigned long carried_by_all(int first, int sites) {
    unsigned long carried = 0;
    for (int one = first; one < first + sites; one++) carried += told[one].carried;
    return carried;
}

// Returns the most memory that the command has had, in kilobytes.
static long peak_of(pid_t command) {
    char path[64], line[256];
    snprintf(path, sizeof path, "/proc/%d/status", (int)command);
    FILE *status = fopen(path, "r");
    long peak = 0;
    while (status && fgets(line, sizeof line, status)) sscanf(line, "VmHWM: %ld", &peak);
    if (status) fclose(status);
    return peak;
}

int main(int count, char **words) {
    if (count < 5 || (calls = atoi(words[2])) < 1 || calls > MOST_CALLS) {
        fprintf(stderr, "usage: load exchange|trunk|relay CALLS[/ENDS][@SITE][xSITES] SECONDS COMMAND [ARGUMENT..]\n");
        return 2;
    }
    ends = strchr(words[2], '/') ? atoi(strchr(words[2], '/') + 1) : 0;
    int first = strchr(words[2], '@') ? atoi(strchr(words[2], '@') + 1) : 0;
    int sites = strchr(words[2], 'x') ? atoi(strchr(words[2], 'x') + 1) : 1;
    if (first < 0 || sites < 1 || first + sites > MOST_SITES) {
        fprintf(stderr, "load: there are %d sites at most\n", MOST_SITES);
        return 2;
    }
    east.freed = west.freed = -1;
    trunks = strcmp(words[1], "trunk") == 0;
    double seconds = atof(words[3]);
    told = mmap(0, MOST_SITES * sizeof *told, PROT_READ | PROT_WRITE, MAP_SHARED | MAP_ANONYMOUS, -1, 0);
    if (told == MAP_FAILED) {
        perror("load: mmap");
        return 1;
    }
    clock_gettime(CLOCK_MONOTONIC, &begin);
    site = first;
    NEW_FOR_300[DIGIT_OF_SITE] = (unsigned char)('0' + site);
    west.wire = bound(WEST_PORT + 2 * site), east.wire = bound(WEST_PORT + 2 * site + 1);
    pid_t command = fork();
    if (command == 0) {
        execvp(words[4], words + 4);
        perror("load: command");
        _exit(127);
    }
    usleep(200000);
    int status = 1, is_relay = strcmp(words[1], "relay") == 0;
    clockid_t processor;
    double setting_up = 0;
    if (clock_getcpuclockid(command, &processor) != 0)
        fprintf(stderr, "load: the command has ended\n");
    else {
        start_others(first, sites, is_relay, seconds);
        setting_up = seconds_of(processor);
        if (are_set_up(is_relay)) {
            setting_up = seconds_of(processor) - setting_up;
            if (!is_relay && seconds > 0) open_voice();
            status = seconds > 0 && !wait_for_others(first, sites);
        }
    }
    if (status == 0) {
        unsigned long carried = carried_by_all(first, sites);
        double used = seconds_of(processor), from = seconds_of(CLOCK_MONOTONIC);
        carry(seconds);
        carried = carried_by_all(first, sites) - carried;
        used = seconds_of(processor) - used, from = seconds_of(CLOCK_MONOTONIC) - from;
        printf("%s %d calls: %lu frames in %.2f s, %.2f s of processor time: ", words[1], calls, carried, from, used);
        printf("%.0f frames per second of processor time; ", used > 0 ? (double)carried / used : 0);
        printf("set-up %.1f us a call; %lu frames in all; %ld KB\n", setting_up / calls * 1e6, carried_by_all(first, sites),
               peak_of(command));
    }
    kill(command, SIGTERM);
    waitpid(command, 0, 0);
    return status;
}
