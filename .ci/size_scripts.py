"""Scripts of a size that no scene has: late moments, long calls, many routes. Their expected output is worked out here, by the
RFC's rules.

`.ci/sizes` runs them."""
import os
import random
import subprocess

from iax_test.frames import (
    CAPABILITY, FORMAT, STAMPED_TRUNK, TRUNK, FullFrame, cause_code, element, new_data, new_frame,
)
from iax_test.ports import LOOPBACK
from iax_test.protocol import ACCEPT, ACK, ANSWER, HANGUP, NEW, PING, REJECT, VNAK, Element, FrameType, digit_kind
from running import TOP, plan_text, same

SCENES = f"{TOP}/crates/exchange_main/scenes"
# The seconds after which a replay is taken to hang, however slow the machine is.
LONGEST = 600
# Beyond 32 bits of milliseconds, which are 49.7 days.
LATE = 2**32 + 4321


def replayed(program, plan, script):
    """Returns the lines that a replay prints."""
    found = subprocess.run([*program, "replay", plan, script], capture_output=True, timeout=LONGEST)
    same(f"status of {script}", found.returncode, 0)
    return found.stdout.decode("ascii").splitlines()


def written(folder, name, text):
    with open(f"{folder}/{name}", "w", encoding="ascii") as it:
        it.write(text)
    return f"{folder}/{name}"


def full(*fields, **more):
    """Returns a full frame with these fields, in hexadecimal digits."""
    return FullFrame(*fields, **more).packed().hex()


CAUSE_16 = element(Element.CAUSE, b"normal clearing") + cause_code(16)
NEW_FOR_300 = new_data(b"300", FORMAT, CAPABILITY)
# A call of the west to the east, at moment 0, until both legs are up and hold no frame; and what is said of it.
CALL_UP = [
    f"rx west {full(7, 0, 0, 0, 0, NEW, NEW_FOR_300)}",
    f"rx east {full(9, 5, 3, 0, 1, ACCEPT, FORMAT)}", f"rx east {full(9, 5, 13, 1, 1, ANSWER)}",
    f"rx west {full(7, 1, 0, 1, 2, ACK)}",
]
SAID_UP = [
    f"tx west {full(1, 7, 0, 0, 1, ACCEPT, FORMAT)}", f"tx east {full(5, 0, 0, 0, 0, NEW, NEW_FOR_300)}",
    "leg 1 Linked", "leg 5 Waiting", f"tx east {full(5, 9, 3, 1, 1, ACK)}", "leg 5 Linked",
    f"tx west {full(1, 7, 0, 1, 1, ANSWER)}", f"tx east {full(5, 9, 13, 1, 2, ACK)}", "leg 1 Up", "leg 5 Up",
]


def later(line):
    """Returns a line of a script, later by `LATE` milliseconds."""
    word, _, moment = line.partition(b" ")
    return b"%s %d" % (word, int(moment) + LATE) if word in (b"at", b"back") and moment.isdigit() else line


def sent_later(line):
    """A line of its output. Only a trunk frame bears the moment itself, modulo 2^32."""
    words = line.split(" ")
    if words[0] != "tx" or not bytes.fromhex(words[2]).startswith((TRUNK, STAMPED_TRUNK)):
        return line
    moment = (int(words[2][8:16], 16) + LATE) % 2**32
    return f"tx {words[1]} {words[2][:8]}{moment:08x}{words[2][16:]}"


# The lines that have to be the first of a script.
FIRST_LINES = (b"#", b"prefix ", b"key ", b"free ", b"serial ")


def scenes_at_late_moments(folder, program):
    """Each scene gives the same 50 days later, though its moments have more than 32 bits. (A call token and a POKE
    have the moment itself: their scenes are left out.)"""
    count = 0
    for name in sorted(it[:-7] for it in os.listdir(SCENES) if it.endswith(".script")):
        plan = f"{SCENES}/{name}.plan"
        with open(plan, "rb") as it:
            has_moments = b"call_token" in it.read() or name.startswith("qualify_")
        if has_moments or os.path.exists(f"{SCENES}/{name}.status"):
            continue
        with open(f"{SCENES}/{name}.script", "rb") as it:
            lines = it.read().split(b"\n")
        first = next((place for place, it in enumerate(lines) if it and not it.startswith(FIRST_LINES)), 0)
        lines = lines[:first] + [b"at %d" % LATE] + [later(it) for it in lines[first:]]
        with open(f"{folder}/late", "wb") as it:
            it.write(b"\n".join(lines))
        with open(f"{SCENES}/{name}.expected", encoding="ascii") as it:
            wanted = [sent_later(line) for line in it.read().splitlines()]
        same(f"{name}, at {LATE} ms", replayed(program, plan, f"{folder}/late"), wanted)
        count += 1
    same("scenes with a script", count > 100, True)
    return count


def a_call_of_fifty_days(folder, program):
    """A call lasts for more than 2^32 ms. Its PING, its digit and its HANGUP bear what is left of its length; a frame is sent
    again as ever."""
    length = 2**32 + 1000
    head = "format = 1\nping_ms = 600000\nrecord_limit = 65536"
    plan = written(folder, "days.plan", plan_text([(LOOPBACK, 4569)], [("west", 5001, 0, 4), ("east", 5002, 0, 4)], head))
    script = [
        *CALL_UP,
        f"at {length}", "tick", f"at {length + 1000}", "tick",
        f"rx west {full(7, 1, length + 1000, 1, 3, ACK)}", f"rx east {full(9, 5, length + 1000, 2, 2, ACK)}",
        f"at {length + 1500}", f"rx west {full(7, 1, length + 1500, 1, 3, digit_kind(0x35))}",
        f"rx east {full(9, 5, 0, 2, 3, ACK)}",
        "hangup 1", f"rx west {full(7, 1, length + 1500, 2, 4, ACK)}", f"rx east {full(9, 5, 0, 2, 4, ACK)}", "settle",
    ]
    pings = [f"tx west {full(1, 7, length, 2, 1, PING)}", f"tx east {full(5, 9, length, 1, 2, PING)}"]
    again = [
        f"tx {peer} {full(*fields, PING, is_retransmitted=True)}"
        for peer, *fields in (("west", 1, 7, length, 2, 1), ("east", 5, 9, length, 1, 2))
    ]
    wanted = [
        *SAID_UP, *pings, *again,
        f"tx west {full(1, 7, length + 1500, 3, 2, ACK)}", f"tx east {full(5, 9, length + 1500, 2, 2, digit_kind(0x35))}",
        f"tx west {full(1, 7, length + 1500, 3, 2, HANGUP, CAUSE_16)}",
        f"tx east {full(5, 9, length + 1500, 3, 2, HANGUP, CAUSE_16)}",
        "leg 1 Closing", "leg 5 Closing", "retired 1 4 4 2", "leg 1 Free", "retired 5 4 4 2", "leg 5 Free", "octets 0 0 0 0",
    ]
    found = replayed(program, plan, written(folder, "days.script", "\n".join(script) + "\n"))
    same("a call of fifty days", found, wanted)


def five_thousand_digits(folder, program):
    """A record has more than 10,000 entries, and each octet of a sequence number comes many times, in frames with and
    without R: digits are taken in order, a repeat and a gap are distinguished from them, and the counts at the end are
    those of all frames. The script has more than a million lines."""
    count = 5000
    plan = written(
        folder, "digits.plan",
        plan_text([(LOOPBACK, 4569)], [("west", 5001, 0, 4), ("east", 5002, 0, 4)], "format = 4\nping_ms = 0"),
    )
    script, wanted = [*CALL_UP], [*SAID_UP]
    for place in range(count):
        digit, moment = digit_kind(0x30 + place % 10), 20 * place
        # (of every seventh digit the first copy was lost)
        received = full(7, 1, moment, 1 + place, 2, digit, is_retransmitted=place % 7 == 3)
        script += [f"at {moment}", f"rx west {received}", f"rx east {full(9, 5, 13, 2, 2 + place, ACK)}", *["tick"] * 200]
        wanted += [f"tx west {full(1, 7, moment, 2, 2 + place, ACK)}", f"tx east {full(5, 9, moment, 1 + place, 2, digit)}"]
    last = count + 1
    # A repeat of the last digit, a frame after the next one, and the next one, which hangs up.
    script += [
        f"rx west {full(7, 1, 7, last - 1, 2, digit_kind(0x39))}", f"rx west {full(7, 1, 8, last + 1, 2, digit_kind(0x30))}"
    ]
    script += [f"rx west {full(7, 1, 9, last, 2, HANGUP)}"]
    script += [f"rx east {full(9, 5, 13, 2, last + 1, ACK)}", "settle"]
    wanted += [
        f"tx west {full(1, 7, 7, 2, last, ACK)}", f"tx west {full(1, 7, 8, 2, last, VNAK)}",
        f"tx west {full(1, 7, 9, 2, last + 1, ACK)}",
    ]
    wanted += [
        f"tx east {full(5, 9, 20 * (count - 1), last, 2, HANGUP, CAUSE_16)}", f"retired 1 2 2 {count + 2}", "leg 1 Free",
        "leg 5 Closing",
    ]
    wanted += [f"retired 5 {count + 2} {count + 2} 2", "leg 5 Free", "octets 0 0 0 0"]
    found = replayed(program, plan, written(folder, "digits.script", "\n".join(script) + "\n"))
    frames = [FullFrame.read(bytes.fromhex(line.split()[2])) for line in found if line.startswith("tx east ")]
    numbers = [frame.oseq for frame in frames if frame.kind.frame_type == FrameType.DTMF]
    same("the numbers of digits that go out", {numbers.count(it) >= 19 for it in range(256)}, {True})
    for place, both in enumerate(zip(found, wanted), 1):
        same(f"line {place} of {count} digits", *both)
    same("how many lines", len(found), len(wanted))
    same("a long script", len(script) > 1_000_000, True)
    return count


def all_end_at_once(folder, program):
    """Hundreds of legs whose REJECTs nobody acknowledges end at one tick: each is retired, in the order of their numbers. Of the
    REJECTs that are sent again at one tick the outbox takes 256."""
    count, room = 512, 256
    head = "format = 1\nretry_ms = 1000\nmax_retries = 1\nping_ms = 0"
    plan = written(folder, "ends.plan", plan_text([(LOOPBACK, 4569)], [("west", 5001, 0, count)], head))
    numbers = range(1, count + 1)
    script = [f"rx west {new_frame(own, new_data(b'9', FORMAT)).hex()}" for own in numbers]
    script += ["at 1000", "tick", "at 10000", "tick", "settle"]
    data = element(Element.CAUSE, b"unallocated number") + cause_code(1)
    wanted = []
    for own in numbers:
        wanted += [f"tx west {full(own, own, 0, 0, 1, REJECT, data)}", f"leg {own} Closing"]
    wanted += [f"tx west {full(own, own, 0, 0, 1, REJECT, data, is_retransmitted=True)}" for own in numbers[:room]]
    wanted += [f"retired {own} 1 0 1" for own in numbers] + [f"leg {own} Free" for own in numbers] + ["octets 0 0 0 0"]
    found = replayed(program, plan, written(folder, "ends.script", "\n".join(script) + "\n"))
    for place, both in enumerate(zip(found, wanted), 1):
        same(f"line {place} of {count} ends", *both)
    same("how many lines", len(found), len(wanted))
    return count


def a_fault_past_a_million_lines(folder, program):
    """A fault is named by its line, however many lines precede it."""
    plan = written(folder, "fault.plan", plan_text([(LOOPBACK, 4569)], [("west", 5001, 0, 4)]))
    script = written(folder, "fault.script", "#\n" * 10**6 + "stop\n")
    found = subprocess.run([*program, "replay", plan, script], capture_output=True, timeout=LONGEST)
    same("a fault past a million lines", (found.stdout, found.returncode), (b"refused Script 1000001\n", 1))


def many_routes(folder, program, count):
    """Each of a hundred calls goes to the peer of the longest prefix, and of two of one length to that of the route for this
    caller. A route without a source that leads to the caller is skipped; one with this source isn't."""
    dice, names = random.Random(count), [f"peer{place}" for place in range(32)]
    peers = [(name, 5001 + place, 0, 128) for place, name in enumerate(names)]
    routes = {}
    while len(routes) < count:
        begun = dice.choice([*routes, ("", None)] if len(routes) < 400 else [("", None)])[0]
        prefix = (begun + "".join(dice.choices("0123456789", k=dice.randrange(1, 5))))[:9]
        routes.setdefault((prefix, dice.choice([None, None, names[0], names[1]])), dice.choice([*names, *names[:1] * 4]))
    text = plan_text([(LOOPBACK, 4569)], peers, "format = 4")
    for (prefix, source), target in routes.items():
        text += f'[[route]]\nprefix = "{prefix}"\npeer = "{target}"\n' + (f'source = "{source}"\n' if source else "")
    script, wanted, skipped = [], [], []
    for own in range(1, 101):
        number = (dice.choice([*routes])[0] + "".join(dice.choices("0123456789", k=4)))[: dice.randrange(1, 13)]
        script.append(f"rx {names[0]} {new_frame(own, new_data(number.encode(), FORMAT)).hex()}")
        fitting = [it for it in routes if number.startswith(it[0]) and it[1] in (None, names[0])]
        skipped += [number for it in fitting if it[1] is None and routes[it] == names[0]]
        found = [(len(it[0]), it[1] is not None, routes[it]) for it in fitting if it[1] or routes[it] != names[0]]
        wanted.append((number, max(found)[2] if found else None))
    lines = replayed(program, written(folder, "routes.plan", text), written(folder, "routes.script", "\n".join(script) + "\n"))
    sent = [line.split()[1:3] for line in lines if line.startswith("tx ")]
    frames = [(FullFrame.read(bytes.fromhex(octets)), peer) for peer, octets in sent]
    calls = [(frame.element(Element.CALLED_NUMBER).decode(), peer) for frame, peer in frames if frame.kind == NEW]
    same(f"calls by {count} routes", calls, [it for it in wanted if it[1]])
    same("calls without a route", sum(frame.kind == REJECT for frame, _ in frames), sum(it[1] is None for it in wanted))
    same("peers that are called", len({it[1] for it in wanted if it[1]}) > 20, True)
    same(
        "routes that lead back are skipped, or taken by a source", (len(skipped) > 5, names[0] in dict(wanted).values()),
        (True, True),
    )
    return count


def all_of(folder, program):
    """Runs all, and says how many."""
    late = scenes_at_late_moments(folder, program)
    a_call_of_fifty_days(folder, program)
    digits = five_thousand_digits(folder, program)
    ends = all_end_at_once(folder, program)
    a_fault_past_a_million_lines(folder, program)
    routes = [many_routes(folder, program, it) for it in (300, 5000)]
    return (
        f"{late} scenes late, a call of fifty days, {digits} digits in a million lines, {ends} legs that end at one tick, "
        f"{routes[0]} and {routes[1]} routes"
    )
