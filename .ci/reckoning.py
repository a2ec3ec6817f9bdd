"""A plain reckoning of what `replay` prints for a script of plan version 4, written from docs/PROTOCOL.md, docs/PLAN.md and
docs/SCRIPT.md alone. `.ci/rules` compares it with the program.

Left out: other formats than mu-law, strangers, call tokens, drains, orders, PINGs, POKEs and challenges of the exchange's own,
QUELCH, unknown IAX frames, a caller's name and number, trunk frames with timestamps that come, full outboxes, accounts."""
from collections import Counter, namedtuple
from types import SimpleNamespace

from iax_test.frames import (
    CAPABILITY, ENTRY, FORMAT, STAMPED_ENTRY, STAMPED_TRUNK, TRUNK, FullFrame, answer_to, cause_code, challenge_data, element,
    md5_result, mini_frame, new_data,
)
from iax_test.protocol import (
    ACCEPT, ACK, ANSWER, AUTHREP, AUTHREQ, HANGUP, INVAL, LAGRP, LAGRQ, NEW, NO_LEG, PING, POKE, PONG, PROCEEDING, PROGRESS,
    REJECT, RINGING, UNNUMBERED,
    VNAK, VOICE, Element, FrameType, Kind,
)

LIVE, TALKING, OVER = ("Waiting", "Challenged", "Offered", "Linked", "Up"), ("Linked", "Up"), ("Closing", "Ended")
CAUSES = {1: b"unallocated number", 16: b"normal clearing", 17: b"user busy", 18: b"no user responding", 21: b"call rejected"}
CAUSES |= {28: b"invalid number format", 34: b"no channel available", 42: b"switching equipment congestion"}
# Answers to a NEW, which have to acknowledge it.
ANSWERS = {
    ACCEPT: "3 ACCEPT unacknowledged", AUTHREQ: "3 AUTHREQ unacknowledged", REJECT: "3 REJECT unacknowledged",
    HANGUP: "3 HANGUP unacknowledged",
}
# The challenge of a script without a line `challenge`; octets of a trunk frame that goes out, and of media.
CHALLENGE, LONGEST, MOST_MEDIA = b"0", 1400, 1380
# The most entries of one call in a trunk frame: of one that comes the others are dropped.
MOST_ENTRIES = 16
# How often each rule was met, and a moment long before the first.
met, NEVER = Counter(), -(10**9)


class Refused(Exception):
    """A datagram is refused by this name, and has changed nothing."""


def cause(code):
    return element(Element.CAUSE, CAUSES.get(code, b"cause %d" % code)) + cause_code(code)


def meaning(kind):
    """Returns a kind by the meaning of its octet of C and subclass."""
    power = kind.subclass & 0x7F
    return kind if kind.subclass < 0x80 else Kind(kind.frame_type, 1 << power if power < 64 else None)


def elements_of(data):
    """Returns the last value of each information element."""
    values, at = {}, 0
    while at < len(data):
        end = at + 2 + (data[at + 1] if at + 1 < len(data) else len(data))
        if end > len(data):
            raise Refused("Cut")
        values[data[at]], at = data[at + 2 : end], end
    return values


def entries_of(octets):
    """Returns the entries that count of a trunk frame without timestamps, each a call number and media."""
    entries, at = [], 8
    while at < len(octets):
        number, length = ENTRY.unpack_from(octets + bytes(ENTRY.size), at)
        at += ENTRY.size + length
        if at > len(octets):
            raise Refused("EntryCut")
        is_one_too_many = sum(it[0] == number for it in entries) >= MOST_ENTRIES
        met["6 an entry behind 16 of its call"] += is_one_too_many
        entries += [] if is_one_too_many else [(number, octets[at - length : at])]
    return entries


# The answer to a message: the reply, its data, the stage after, what is handed up, and why the leg ends if it does.
Row = namedtuple("Row", "reply data stage up cause", defaults=(ACK, b"", None, (None,), 16))
# The answers that depend on the stage and the message alone. `Leg.row` has the others; all else is answered by ACK.
TABLE = {
    ("Linked", it): Row(up=("Indicate", it)) for it in (RINGING, PROGRESS, PROCEEDING)
} | {("Linked", ANSWER): Row(stage="Up", up=("Answer", ANSWER))}
TABLE |= {(it, kind): Row(reply) for it in LIVE for kind, reply in ((PING, PONG), (LAGRQ, LAGRP))}
BUSY, CONGESTION, CONTROL_HANGUP = Kind(4, 5), Kind(4, 8), Kind(4, 1)
ENDS = ((BUSY, 17), (CONGESTION, 42), (CONTROL_HANGUP, 16))
TABLE |= {(it, kind): Row(HANGUP, cause(16), "Closing", cause=code) for it in TALKING for kind, code in ENDS}
REJECTED, HUNG_UP = Row(REJECT, cause(21), "Closing"), Row(HANGUP, cause(21), "Closing")
OFFERED = Row(None, stage="Offered", up=("Offered",))

# The orders: the stages that take them, whether they may fill the whole window, and the stage after.
ORDERS = {
    "Accept": (("Offered",), True, "Linked"), "Reject": (("Offered",), True, "Closing"), "Hangup": (LIVE, True, "Closing"),
    "Indicate": (("Linked",), False, None), "Answer": (("Linked",), False, "Up"), "Dtmf": (TALKING, False, None),
    "Voice": (TALKING, False, None),
}


class Leg:
    """One end of a call. `sent`, `acked` and `taken` count numbered frames, `acks` acknowledgements of such, `octets` their
    data."""

    def __init__(self, peer, stage, called, remote=None):
        self.exchange, self.plan, self.peer = peer.exchange, peer.exchange.plan, peer
        self.number, self.stage = peer.free.pop(0), stage
        self.called, self.remote, self.opened, self.partner = called, remote, self.exchange.moment, None
        self.sent = self.acked = self.acks = self.taken = self.octets = 0
        self.held, self.cause, self.voice_at, self.asked_at, self.last_vnak, self.all_at = [], 16, -1, NEVER, (NEVER, None), NEVER
        self.has_its_number = self.was_challenged = self.is_doomed = self.owes = self.has_taken_voice = self.had_an_ack = False
        peer.legs[self.number] = self

    def is_full(self):
        entries = self.sent + self.acks + self.taken
        is_small = self.stage == "Challenged" and (entries + 4 > 32 or self.octets + 1452 > 4096)
        return self.plan["record_limit"] - entries < 4 or is_small

    def become(self, stage, code=16):
        if stage in OVER and self.stage in LIVE:
            self.owes, self.cause = True, code
        self.stage = stage

    def put(self, kind, timestamp, data=b"", number=None, again=False):
        number = self.sent if number is None else number
        self.peer.put(FullFrame(self.number, self.remote or 0, timestamp, number, self.taken, kind, data, again).packed(), self)

    def send(self, kind, data=b"", timestamp=None):
        """Sends a numbered frame."""
        timestamp = self.exchange.moment - self.opened if timestamp is None else timestamp
        self.put(kind, timestamp, data)
        held = SimpleNamespace(number=self.sent, kind=kind, data=data, timestamp=timestamp, tries=0, is_early=False)
        held.last = self.exchange.moment
        self.held.append(held)
        self.sent, self.octets = self.sent + 1, self.octets + len(data)

    def send_again(self, held, tries):
        held.last, held.tries = self.exchange.moment, held.tries + tries
        self.put(held.kind, held.timestamp, held.data, held.number, True)

    def order(self, name, kind, data=b""):
        """Sends the frame of an order. Returns the name of its refusal, or None."""
        stages, fills, after = ORDERS[name]
        if self.stage not in stages or name == "Dtmf" and self.is_doomed:
            return "WrongStage"
        if len(self.held) >= (self.peer.window if fills else self.peer.local_room):
            return "WindowFull"
        if self.is_full():
            return "RecordFull"
        self.send(kind, data)
        return self.become(after or self.stage)

    def play(self, media):
        """Order Media: a voice full frame, a mini frame or a trunk entry."""
        stamp = self.exchange.moment - self.opened
        if self.voice_at >> 16 != stamp >> 16:
            self.voice_at = self.voice_at if self.order("Voice", VOICE, media) else stamp
        elif self.stage in TALKING:
            self.peer.put_media(self.number, stamp % 2**16, media)

    def receive(self, frame, kind):
        """Handles a full frame. Returns what it hands up."""
        ahead, removed = (frame.oseq - self.taken) % 256, (frame.iseq - self.sent + len(self.held)) % 256
        counts, is_late = kind != INVAL and removed <= len(self.held), self.has_its_number and kind not in UNNUMBERED
        if self.is_full():
            raise Refused("RecordFull")
        if frame.destination == 0:
            met["2 ACK, VNAK or INVAL of destination 0"] += kind in (ACK, VNAK, INVAL)
            met["2 too late for destination 0"] += is_late and ahead < 128
            if kind in UNNUMBERED or is_late and ahead < 128:
                raise Refused("Unaddressed")
            met["2 late repeat of destination 0"] += is_late
            met["2 destination 0 acknowledges nothing"] += counts and removed > 0
            counts = False
        if self.stage == "Waiting" and kind in ANSWERS and not (counts and removed):
            met["3 acknowledged before" if self.acked else ANSWERS[kind]] += 1
            if not self.acked:
                raise Refused("NewUnacknowledged")
        self.remote = frame.source if self.remote is None and kind != INVAL else self.remote
        if counts and removed:
            del self.held[:removed]
            self.acked, self.acks = self.acked + removed, self.acks + 1
        if self.stage == "Closing" and not self.held:
            self.become("Ended")
        self.had_an_ack |= kind == ACK
        if kind == VNAK and counts:
            self.answer_vnak(frame.iseq)
        elif kind == INVAL:
            has_effect = self.stage != "Waiting" or self.remote is not None
            met["3 INVAL that ends a leg" if has_effect else "3 INVAL before any answer"] += 1
            self.become("Ended" if has_effect else self.stage)
        elif kind not in UNNUMBERED and ahead == 0:
            return self.take(frame, kind, self.row(frame, kind))
        elif kind not in UNNUMBERED and ahead > 127:
            self.put(ACK, frame.timestamp)
        elif kind not in UNNUMBERED and self.exchange.moment - self.asked_at >= self.plan["vnak_ms"]:
            self.asked_at = self.exchange.moment
            self.put(VNAK, frame.timestamp)
        return (None,)

    def answer_vnak(self, iseq):
        lesser, most, now = min(self.plan["retry_ms"], 10), len(self.held), self.exchange.moment
        after, repeats, since_all = now - self.last_vnak[0], iseq == self.last_vnak[1], now - self.all_at
        met["4 a repeat in the last millisecond"] += most > 0 and repeats and after == lesser - 1
        met["4 no repeat any more"] += most > 0 and repeats and after == lesser
        met["4 another number"] += most > 0 and not repeats and after < lesser
        met["4 two frames in the last millisecond"] += most > 2 and since_all == 99
        met["4 all frames at once"] += most > 2 and since_all == 100
        if repeats and after < lesser:
            return
        self.last_vnak, self.all_at = (now, iseq), self.all_at if since_all < 100 else now
        for held in self.held[: 2 if since_all < 100 else most]:
            self.send_again(held, 0)
            if since_all < 100:
                held.tries, held.is_early = max(0, held.tries - 1), self.plan["max_retries"] > 0
                held.last = max(0, now - max(0, self.plan["retry_ms"] - 100 + since_all)) if held.is_early else now

    def row(self, frame, kind):
        """Returns the row of the leg table for a frame."""
        values, message = elements_of(frame.data) if kind.frame_type == FrameType.IAX else {}, (self.stage, kind)
        if kind == HANGUP or message == ("Waiting", REJECT):
            code = values.get(Element.CAUSECODE, b"")
            return Row(stage="Ended", cause=code[0] if len(code) == 1 else 16)
        if message == ("Challenged", AUTHREP):
            return OFFERED if values.get(Element.MD5_RESULT, b"").lower() == md5_result(CHALLENGE, self.peer.secret) else REJECTED
        if message == ("Waiting", AUTHREQ):
            is_right = (
                values.get(Element.AUTHMETHODS) == b"\0\2" and Element.CHALLENGE in values
                and self.peer.secret and not self.was_challenged
            )
            return Row(AUTHREP, answer_to(values[Element.CHALLENGE], self.peer.secret)) if is_right else HUNG_UP
        if message == ("Waiting", ACCEPT):
            return Row(stage="Linked") if values.get(Element.FORMAT, FORMAT[2:]) == FORMAT[2:] else HUNG_UP
        if self.stage in TALKING and kind.frame_type == FrameType.DTMF and kind.subclass in range(128):
            return Row(up=("Dtmf", kind))
        return Row(up=("Media", frame.data)) if kind == VOICE else TABLE.get(message, Row())

    def take(self, frame, kind, row):
        """Takes and answers a frame, if there is room for the answer. Returns what it hands up."""
        if row.reply not in (ACK, None) and len(self.held) >= self.peer.window:
            return (None,)
        met["2 destination 0 taken"] += frame.destination == 0 and kind != NEW
        met["2 destination 0 taken after an ACK"] += frame.destination == 0 and self.had_an_ack
        met["3 acknowledged: accepted"] += (self.stage, row.stage) == ("Waiting", "Linked")
        met["3 acknowledged: ended"] += self.stage == "Waiting" and row.stage in OVER
        self.taken, self.octets, self.asked_at = self.taken + 1, self.octets + len(frame.data), NEVER
        self.has_its_number |= frame.destination != 0
        self.has_taken_voice |= kind == VOICE
        self.was_challenged |= (self.stage, kind) == ("Waiting", AUTHREQ)
        if row.reply == ACK:
            self.put(ACK, frame.timestamp)
        elif row.reply is not None:
            self.send(row.reply, row.data, frame.timestamp if row.reply in (PONG, LAGRP) else None)
        self.become(row.stage or self.stage, row.cause)
        return row.up

    def tick(self):
        if (
            self.stage == "Ended" or self.is_full()
            or self.stage == "Challenged" and self.exchange.moment - self.opened >= self.plan["challenge_ms"]
        ):
            return self.become("Ended")
        if self.is_doomed:
            self.order("Hangup", HANGUP, cause(16))
        for held in self.held:
            if self.exchange.moment - held.last >= self.plan["retry_ms"]:
                if held.tries >= self.plan["max_retries"]:
                    return self.become("Ended", 18)
                met["4 due again after the two frames"] += (
                    held.is_early and self.exchange.moment - self.all_at < self.plan["retry_ms"]
                )
                held.is_early = False
                self.send_again(held, 1)


class Peer:
    """A peer: its legs by number, its free numbers in the order in which they are given out, its outbox and trunk queue."""

    def __init__(self, exchange, keys, first):
        self.exchange, self.name, self.most = exchange, keys["name"], keys["numbers"]
        self.window, self.poke, self.local_room = keys["window"], keys["poke"], keys["window"] - keys["window"] // 4
        self.user, self.secret = (keys["user"] or "").encode(), (keys["secret"] or "").encode()
        self.trunk, self.has_stamps, self.queued_at, self.is_ticking = keys["trunk"], keys["trunk_timestamps"], 0, False
        self.free, self.legs, self.outbox, self.queue, self.queued = [*range(first, first + self.most)], {}, [], b"", Counter()

    def put(self, octets, leg=None):
        """Puts a datagram into the outbox, behind the trunk queue if a leg sends it whose media waits."""
        if leg and (self.is_ticking or leg.number in self.queued):
            self.send_queue()
        self.outbox.append(octets)

    def put_media(self, number, stamp, media):
        if not self.trunk:
            return self.put(mini_frame(number, stamp, media))
        entry = (STAMPED_ENTRY.pack(len(media), number, stamp) if self.has_stamps else ENTRY.pack(number, len(media))) + media
        has_enough = self.queued[number] >= (MOST_ENTRIES if self.has_stamps else 1)
        met["6 a frame has 16 entries of the call"] += has_enough and self.has_stamps
        if len(self.queue) + len(entry) > LONGEST or has_enough:
            self.send_queue()
        if not self.queue:
            self.queued_at = self.exchange.moment
            self.queue = (STAMPED_TRUNK if self.has_stamps else TRUNK) + self.queued_at.to_bytes(4, "big")
        self.queue, self.queued[number] = self.queue + entry, self.queued[number] + 1

    def send_queue(self):
        self.outbox += [self.queue] if self.queue else []
        self.queue, self.queued = b"", Counter()

    def of_remote(self, number):
        return next((it for it in self.legs.values() if it.remote == number), None)

    def tick(self):
        self.is_ticking = True
        for number in sorted(self.legs):
            self.legs[number].tick()
        self.is_ticking = False
        if self.exchange.moment - self.queued_at >= self.exchange.plan["trunk_ms"]:
            self.send_queue()


class Exchange:
    """An exchange: the keys of its plan, those of its peers, and its routes, each a prefix, a peer, and a source or None."""

    def __init__(self, plan, peers, routes):
        self.plan, self.routes, self.moment, self.peers, self.retired, self.stages = plan, routes, 0, {}, [], {}
        for keys in peers:
            self.peers[keys["name"]] = Peer(self, keys, 1 + sum(it.most for it in self.peers.values()))

    def printed(self, *lines):
        """Returns what `replay` prints after a line of the script."""
        lines = [*lines]
        for peer in self.peers.values():
            lines += [f"tx {peer.name} {it.hex()}" for it in peer.outbox]
            peer.outbox = []
        lines += [f"retired {it.number} {it.sent} {it.acked} {it.taken}" for it in sorted(self.retired, key=lambda it: it.number)]
        now = {number: leg.stage for peer in self.peers.values() for number, leg in peer.legs.items()}
        lines += [f"leg {it} {now.get(it, 'Free')}" for it in sorted({*now, *self.stages}) if now.get(it) != self.stages.get(it)]
        self.retired, self.stages = [], now
        return lines

    def rx(self, name, octets):
        try:
            self.datagram(self.peers[name], octets)
        except Refused as refused:
            return self.printed(f"refused {refused}")
        return self.printed()

    def tick(self, *names):
        for peer in [self.peers[it] for it in names or self.peers]:
            peer.tick()
            for number in sorted(peer.legs):
                self.finish(peer.legs[number])
        return self.printed()

    def datagram(self, peer, octets):
        is_full, is_trunk = octets[0] & 0x80, octets[:2] == TRUNK[:2]
        if len(octets) < (12 if is_full else 8 if is_trunk else 4):
            raise Refused("Short")
        if is_full:
            return self.full(peer, FullFrame.read(octets))
        media = entries_of(octets) if is_trunk else [(int.from_bytes(octets[:2], "big"), octets[4:])]
        if not is_trunk and peer.of_remote(media[0][0]) is None:
            raise Refused("NoCall")
        for number, it in media:
            self.media(peer.of_remote(number), it)

    def full(self, peer, frame):
        kind = meaning(frame.kind)
        if frame.source == 0:
            raise Refused("NoSource")
        if kind.frame_type == FrameType.IAX:
            elements_of(frame.data)
        known, named = peer.of_remote(frame.source), peer.legs.get(frame.destination)
        is_its = named and named.remote in (frame.source, None) and known in (named, None)
        leg = known if frame.destination == 0 else named if is_its else None
        if leg:
            return self.handed_up(leg, *leg.receive(frame, kind))
        if frame.destination == 0 and kind == NEW and frame.oseq == 0:
            return self.new(peer, frame)
        if frame.destination == 0 and kind == POKE and peer.poke:
            return peer.put(FullFrame(NO_LEG, frame.source, frame.timestamp, 0, frame.oseq + 1, PONG).packed())
        if frame.destination == 0 or kind in UNNUMBERED or (frame.destination, kind) == (NO_LEG, PONG):
            raise Refused("NoCall")
        return peer.put(FullFrame(frame.destination, frame.source, 0, 0, 0, INVAL).packed())

    def new(self, peer, frame):
        challenged = sum(it.stage == "Challenged" for it in peer.legs.values())
        met["5 half are challenged"] += 2 * challenged >= peer.most and len(peer.free) > 0
        met["5 no number is free"] += 2 * challenged < peer.most and not peer.free
        if 2 * challenged >= peer.most or not peer.free:
            return peer.put(FullFrame(NO_LEG, frame.source, frame.timestamp, 0, frame.oseq + 1, REJECT, cause(42)).packed())
        values, row = elements_of(frame.data), OFFERED
        leg = Leg(peer, "Offered", values.get(Element.CALLED_NUMBER, b""), frame.source)
        if values.get(Element.VERSION) != b"\0\2" or FORMAT[2:] not in (
            values.get(Element.FORMAT), values.get(Element.CAPABILITY)
        ):
            row = REJECTED
        elif peer.secret:
            row = Row(AUTHREQ, element(Element.USERNAME, peer.user) + challenge_data(CHALLENGE), "Challenged")
            met["5 the last of the half"] += 2 * (challenged + 1) >= peer.most > 1
        return self.handed_up(leg, *leg.take(frame, NEW, row))

    def route(self, caller, called):
        """Returns the peer to which a called number of a caller leads, or None."""
        fitting = [it for it in self.routes if called.startswith(it[0].encode()) and it[2] in (None, caller)]
        fitting.sort(key=lambda it: (len(it[0]), it[2] is not None), reverse=True)
        usable = [it for it in fitting if it[2] or it[1] != caller]
        if usable[:1] != fitting[:1]:
            met["1 the next nearest route" if usable else "1 no route back, and no other"] += 1
        met["1 a route back by its source"] += [it[1] for it in usable[:1]] == [caller]
        return self.peers[usable[0][1]] if usable else None

    def handed_up(self, leg, name, *more):
        """Does what a leg hands up, and finishes it."""
        if name == "Offered":
            self.offered(leg)
        elif name == "Media":
            self.media(leg, *more)
        elif name and leg.partner and leg.partner.order(name, *more) in ("WindowFull", "RecordFull"):
            leg.partner.is_doomed = True
        self.finish(leg)

    def offered(self, leg):
        is_text = all(0x20 <= it <= 0x7E for it in leg.called)
        met["1 a number of other octets"] += not is_text
        target = self.route(leg.peer.name, leg.called) if is_text else None
        if target is None or not target.free:
            code = 28 if not is_text else 1 if target is None else 34
            leg.is_doomed = leg.order("Reject", REJECT, cause(code)) is not None
        elif leg.order("Accept", ACCEPT, FORMAT):
            target.free.append(target.free.pop(0))  # The number that was reserved is released.
            leg.is_doomed = True
        else:
            leg.partner = Leg(target, "Waiting", leg.called)
            leg.partner.partner = leg
            leg.partner.send(
                NEW, new_data(leg.called, element(Element.USERNAME, target.user) if target.user else b"", FORMAT, CAPABILITY)
            )

    def media(self, leg, media):
        if leg and leg.stage in TALKING and leg.has_taken_voice and 0 < len(media) <= MOST_MEDIA and leg.partner:
            leg.partner.play(media)

    def finish(self, leg):
        """Hangs up the partner of a leg that is over, and takes out one that has ended."""
        if leg.owes:
            wants = ("WindowFull", "RecordFull")
            leg.owes = leg.partner is not None and leg.partner.order("Hangup", HANGUP, cause(leg.cause)) in wants
        if leg.stage == "Ended" and not leg.owes:
            if leg.number in leg.peer.queued:
                leg.peer.send_queue()
            del leg.peer.legs[leg.number]
            leg.peer.free.append(leg.number)
            self.retired.append(leg)
            if leg.partner:
                leg.partner.is_doomed, leg.partner.partner = True, None
