// One end of a call, as a peer has it ("Call Legs", "Message Transport" of RFC 5456): its numbers, its held frames, and its
// retransmissions. Shared by the files of `calls`.
#ifndef LEG_H
#define LEG_H

enum { FULL = 12, MOST_HELD = 16, MOST_DATA = 180, NUMBERS = 8192, MOST_OCTETS = 2048 };
enum { DTMF = 1, VOICE = 2, CONTROL = 4, IAX = 6 };
enum { NEW = 1, PING, PONG, ACK, HANGUP, REJECT, ACCEPT, AUTHREQ, AUTHREP, INVAL, LAGRQ, LAGRP, VNAK = 18, TXCNT = 23, TXACC };
enum { RINGING = 3, ANSWER = 4, ULAW = 4 };
enum { CALLED_NUMBER = 1, USERNAME = 6, AUTHMETHODS = 14, CHALLENGE, MD5_RESULT };

struct call;

// A full frame that waits for its acknowledgement.
struct held {
    unsigned char octets[FULL + MOST_DATA];
    unsigned length;
};

struct leg {
    struct peer *peer;
    struct call *call;
    // 0 at the caller, 1 at the called peer.
    int side;
    unsigned number, theirs;
    // Counts of sequence numbers, modulo 256: the next to be sent, the oldest held, the next to be taken.
    unsigned char sent, oldest, taken;
    struct held held[MOST_HELD];
    double opened, last_sent, freed;
    // The exchange doesn't know it any more.
    int is_dead;
    // The high half of the last voice frame's timestamp; -1 before the first.
    long voice_high;
};

struct peer {
    int wire;
    int place;
    const char *prefix, *secret;
    struct leg *legs[NUMBERS];
    unsigned next;
    // The leg that has a call number of the exchange, for mini frames.
    struct leg *of_theirs[32768];
    unsigned long received, sent, resent, inval;
    // The moment at which the current datagram came, in nanoseconds of the system's clock.
    long long came;
};

unsigned get16(const unsigned char *at);
void put16(unsigned char *at, unsigned n);
// Writes the head of a full frame. Returns its length.
unsigned write_head(unsigned char *octets, unsigned source, unsigned destination, unsigned timestamp, unsigned oseq,
                    unsigned iseq, int type, int subclass);
unsigned timestamp_of(const struct leg *leg);

// A leg with a number that has been free for a while, or NULL.
struct leg *open_leg(struct peer *peer, struct call *call, int side);
void learn(struct leg *leg, unsigned theirs);
unsigned held_frames(const struct leg *leg);
// Sends a numbered frame, which is held. Returns 0 if too many are.
int send_numbered(struct leg *leg, unsigned timestamp, int type, int subclass, const void *data, unsigned length);
void send_answer(struct leg *leg, unsigned timestamp, int subclass);
void send_octets(struct peer *peer, const void *octets, unsigned length);
void resend(struct leg *leg);
void acknowledge(struct leg *leg, unsigned next);

// Whether a full frame is a NEW to no call number, or an INVAL.
int is_new(const unsigned char *frame);
int is_inval(const unsigned char *frame);
// Returns the leg with the number to which a full frame goes; NULL if there is none.
struct leg *leg_of(const struct peer *peer, const unsigned char *frame);
// A full frame to a leg: of another leg or without a number of its own; repeated or too early, and so answered; or the next.
enum arrival { ASIDE, REPEATED, EXPECTED };
// Takes the call number and the acknowledgement of a full frame to a leg. Answers VNAK.
enum arrival note_arrival(struct leg *leg, const unsigned char *frame);
// The value of an information element, or NULL.
const unsigned char *element(const unsigned char *data, unsigned length, int which, unsigned *size);

// The MD5 digest of a text, as 32 hexadecimal digits.
void md5_digits(const unsigned char *text, unsigned length, char digits[33]);

#endif
