"""Quantities that the sources know, each with the words by which a page speaks of it.

A quantity of a page may have the value of each fact of its unit whose words, a regular expression, match its heading and
sentence in lower case, where `#` stands in place of the number itself. Facts with `#` in their words are about that very place:
if one of them matches, no others count.
"""
import functools
import math
import re
from dataclasses import dataclass

from .sources import constant, number_in, options, plan_keys, source


@dataclass(frozen=True)
class Fact:
    """A known quantity: its unit, its words, and its value, which is two numbers for a range."""

    unit: str
    words: str
    values: tuple


def known(path, name):
    """Returns the number of a constant of a source below `crates/`, or the one that a pattern finds there."""
    if re.fullmatch(r"[A-Z][A-Z0-9_]*", name):
        return constant(path, name)
    found = re.search(name, source(path))
    if not found:
        raise LookupError(f"crates/{path} has no {name}")
    return number_in(found.group(1))


# The sources that have several facts, or have long names.
HISTORY, PACKER, ROOM = "seq_window/src/history.rt", "trunk_packer/src/packer.rt", "leg_machine/src/record_room.rt"
REQUEST, CLIENTS, INTAKE = "control_requests/src/request.rt", "control_server/src/clients.rt", "udp_workers/src/intake.rt"
FRAMES, SOCKETS, TEXTS = "iax_frames/src/reading.rt", "worker_setup/src/sockets.rt", "peer_plan/src/reading/texts.rt"
RUNNING, TELLING, ESTIMATES = "udp_workers/src/running.rt", "service_log/src/log_state.rt", "plan_report/src/estimates.rt"
DIGITS, SECRET, CHALLENGE = "worker_setup/src/digits.rt", "call_signals/src/rules.rt", "call_auth/src/challenge.rt"
# A unit, the words, and the place of the value: a source with a constant or a pattern, how often it is taken, and what is added.
TABLE = (
    ("octets", r"# octets of body|body has more than #", REQUEST, "BODY_LIMIT"),
    ("octets", r"# octets or \d+ fields|head has more than #|# octets of head", REQUEST, "HEAD_LIMIT"),
    ("octets", r"# mib of answers", CLIENTS, "KEPT"),
    ("octets", r"answer has more than #", "control_requests/src/client/asking.rt", "MOST"),
    ("octets", r"a pipe or a device.*#", "exchange_main/src/plans.rt", "MOST_PIPED"),
    ("octets", r"is empty or has more than #", "control_requests/src/placing.rt", "NUMBER_LIMIT"),
    ("octets", r"badnumber.*more than #", "exchange_core/src/calls.rt", r"text\.len\(\) > (\d+)"),
    (
        "octets",
        r"path has at most #|this path, at most #|too long`: it has more than #",
        "control_server/src/socket_file.rt",
        r"path of (\d+) octets",
        1,
        -1,
    ),
    ("octets", r"share # mib|asks for # mib", SOCKETS, "WORKER_ROOM"),
    ("octets", r"# kib", SOCKETS, "SOCKET_ROOM"),
    ("octets", r"more than # octets is left out", "replay_views/src/capture/packet.rt", "MOST_PAYLOAD"),
    ("octets", r"toolong` \| more than #|that comes|comes in", "peer_lock/src/arrivals.rt", r"datagram\.octets\.len\(\) > (\d+)"),
    (
        "octets",
        r"full frames? (with more than|of) #|at most # octets of data|up to # octets before|data of a full frame",
        HISTORY,
        "MAX_PAYLOAD",
    ),
    (
        "octets",
        r"frame of at most #|fits? in #|goes out|trunk frames of #",
        "iax_frames/src/output.rt",
        r"octets: ArrayVec<u8, (\d+)>",
    ),
    ("octets", r"media has more than #|media in one", PACKER, "MAX_MEDIA"),
    ("octets", r"there, with # octets|past # octets", PACKER, "MAX_QUEUED"),
    ("octets", r"entries (and|with) # octets of media", INTAKE, "MOST_OCTETS"),
    ("octets", r"entries (and|with) # octets(?! of media)", ROOM, "CHALLENGED_OCTETS"),
    ("octets", r"# octets of data are left", HISTORY, "MAX_PAYLOAD", 2),
    ("octets", r"# octets of data more", HISTORY, "MAX_PAYLOAD", 1, 64),
    (
        "octets",
        r"# octets of the name|up to # octets, with|is at most # octets of printable",
        "plan_faults/src/lines.rt",
        "MOST_SHOWN",
    ),
    ("octets", r"fewer than # octets, and md5", "plan_faults/src/warnings.rt", r"len\(\) < (\d+)"),
    ("octets", r"row takes at most #|row of at most #", "call_records/src/call_row.rt", r"<CallRow>\(\) <= (\d+)"),
    ("octets", r"of the caller.*# octets", "call_signals/src/caller.rt", r"at most (\d+) octets"),
    ("octets", r"exchange's key \(#", "peer_plan/src/drawn.rt", r"token_key: \[u8; (\d+)\]"),
    ("octets", r"steps and # octets", "exchange_core/src/opening.rt", r"FIRST_CREDIT: u64 = ([^;]+);"),
    ("octets", r"full frame \| a frame of #|otherwise # octets bring|# octets with a forged address", FRAMES, r"len\(\) < (12)"),
    ("octets", r"v=1 under #", FRAMES, r"len\(\) < (6)"),
    ("octets", r"trunk under #", FRAMES, r"len\(\) < (8)"),
    ("octets", r"mini frame \| #|fewer than # octets, or a full", FRAMES, r"len\(\) < (4)"),
    ("octets", r"entry takes #", ESTIMATES, r"u64::from\(record_limit\) \* (\d+)"),
    ("octets", r"# octets an entry", ESTIMATES, r"u64::from\(record_limit\) \* (\d+)", 1, 8),
    ("octets", r"have some # octets of data", ESTIMATES, r"record_octets / (\d+)"),
    (
        "octets",
        r"folder, with the slash,(?: has)? (?:at most|more than) #",
        "control_server/src/socket_file.rt",
        r"octets = \[0u8; (\d+)\];",
        -1,
        107 - len("./s"),
    ),
    ("octets", r"has more than # mib", "service_state/src/socket_table.rt", "LIMIT"),
    ("ms", r"read every # seconds", "service_state/src/counting.rt", "REST_MS", 100),
    ("ms", r"kill, # seconds after", "../contrib/exchange_main-run", r"\(\(drain \+ (\d+)\)\)", 1000),
    ("octets", r"the last # octets", "service_log/src/end_lines.rt", "LAST"),
    ("ms", r"closed # seconds|closed.*within #", "control_server/src/client.rt", "CLIENT_MS"),
    ("ms", r"doesn't answer`, within #", "control_requests/src/client/asking.rt", "SECONDS", 1000),
    ("ms", r"once in # seconds|rounds of # seconds|up to # seconds late|every # seconds|in # s`", TELLING, "REFUSALS_MS"),
    ("ms", r"waits? (at most|up to) # ms|at least every # ms", RUNNING, "WAIT_MS"),
    ("ms", r"period of #", "call_auth/src/call_token.rt", "TOKEN_MS"),
    ("ms", r"in the last #", "call_auth/src/call_token.rt", "TOKEN_MS", 2),
    ("ms", r"`retry_ms` and #|repeats? (?:that one )?within #", "leg_machine/src/resending.rt", r"retry_ms\.min\((\d+)\)"),
    (
        "ms", r"another within #|any other within #|within # of that|vnak within #", "leg_machine/src/resending.rt",
        r"vnak_answered, now, (\d+)",
    ),
    ("ms", r"are tried for #", "call_files/src/writer.rt", "END_MS"),
    ("entries", r"fewer than # |memory for #|# entries more", ROOM, r"free_entries\(\) < (\d+)"),
    ("entries", r"at most # entries and [\d,]+ octets of data|answered \| #|has # entries and", ROOM, "CHALLENGED_ENTRIES"),
    ("entries", r"weighs #", INTAKE, "FULL_ENTRIES"),
    ("entries", r"# entries (and|with) [\d,]+ octets of media", INTAKE, "MOST_ENTRIES"),
    ("entries", r"at most # entries wait|queuefull` \| #|or # entries wait", PACKER, "MAX_ENTRIES"),
    ("entries", r"adds at most #|talks costs #", ROOM, r"free_entries\(\) < (\d+)", 1, -1),
    ("entries", r"limit of at most #", "peer_plan/src/reading.rt", r"Key::RecordLimit, Ok\(\w+\), 64, ([\d_]+)"),
    ("entries", r"# (trunk )?entries of (a|one|its) call", "peer_lock/src/outboxes.rt", "ENTRIES_OF_A_CALL"),
    ("entries", r"trunk: # and", FRAMES, r"len\(\) < (8)"),
    ("datagrams", r"outbox|wait to be sent", "outbox/src/outbox.rt", "MAX_DATAGRAMS"),
    ("datagrams", r"room for #|at most # datagrams, whole", "outbox/src/outbox.rt", "MAX_DATAGRAMS"),
    ("datagrams", r"sends at most #", "udp_workers/src/sending.rt", "FRAMES"),
    ("datagrams", r"receives at most #|one turn \| #|# datagrams[^#]*sends at most", "udp_workers/src/receiving.rt", "DATAGRAMS"),
    ("frames", r"because # others", "outbox/src/outbox.rt", "MAX_DATAGRAMS"),
    ("frames", r"# further frames", "seq_window/src/laws.rt", r"\b(128)\b"),
    ("numbers", r"again after # numbers", "seq_window/src/laws.rt", r"number_byte_judged (256)"),
    ("numbers", r"# numbers (behind|late)", "seq_window/src/laws.rt", r"\b(128)\b"),
    ("fields", r"head", REQUEST, "FIELD_LIMIT"),
    ("clients", r"client", CLIENTS, "CLIENTS"),
    ("places", r"# further places", CLIENTS, "CLIENTS"),
    ("places", r"array of #", "peer_legs/src/remote_index.rt", "CALL_NUMBERS"),
    ("legs", r"more than # legs ended", "service_state/src/service_watch.rt", "NOTED"),
    ("addresses", r"latest", "service_log/src/strangers.rt", "ADDRESSES"),
    ("rows", r"more than # rows wait", "call_files/src/writer.rt", "WAITING"),
    ("columns", r"", "replay_views/src/ladder/text.rt", "COLUMNS"),
    ("faults", r"printed", "plan_faults/src/findings.rt", "MOST_OTHERS", 1, 1),
    ("warnings", r"printed", "plan_faults/src/warnings.rt", "MOST_KEPT"),
    ("letters", r"prefix|begin|it has", "worker_setup/src/drawing.rt", r"twelve_letters.*-> \[u8; (\d+)\]"),
    ("digits", r"followed by #|# random digits", DIGITS, r"digits_behind.*-> \[u8; (\d+)\]", 1, -12),
    ("digits", r"challenges? (have|of) #", DIGITS, r"\[u8; (10)\]"),
    ("digits", r"(text;|empty, or|token is) # ", CHALLENGE, r"ArrayVec<u8, (\d+)>"),
    ("digits", r"call tokens, # hexadecimal", "peer_plan/src/drawn.rt", r"token_key: \[u8; (\d+)\]", 2),
    ("tables", r"\[\[worker\]\]", "peer_plan/src/reading/workers.rt", r"Key::Worker, (\d+)\)"),
    ("tables", r"\[\[peer\]\]", "peer_plan/src/reading/peers.rt", r"Key::Peer, (\d+)\)"),
    # The sizes of tests.
    ("peers", r"and # peers|routes, # peers", "../.ci/sizes", r"many_peers\(folder, (3\d)\)"),
    ("legs", r"# legs up", "../.ci/sizes", r"west\.port, 0, (\d+)\), \(\"east\""),
    ("legs", r"list of # legs|`: # legs", "../.ci/sizes", r"west\.port, 0, (\d+)\), \(\"east\"", 2),
    ("numbers", r"last of # numbers", "../.ci/sizes", r"west\.port, 0, (\d+)\), \(\"east\""),
    ("octets", r"datagrams of # octets, and", "../.ci/sizes", r"trunk_of\((\d+),"),
    ("entries", r"more than # entries|, # entries, moments", "../.ci/size_scripts.py", r"count = (5\d+)", 2),
    ("datagrams", r"storm of #", "exchange_tests/src/tests/storm.rt", "DATAGRAMS"),
    ("lines", r"each of # lines", "exchange_tests/src/tests/steps_by_hand/lines.rt", "COUNT"),
)


def of_table():
    """Returns the facts of the table."""
    facts = []
    for unit, words, path, name, *scale in TABLE:
        times, plus = (scale + [1, 0][len(scale) :])[:2]
        facts.append(Fact(unit, words, (known(path, name) * times + plus,)))
    return facts


def usual_limits():
    """Returns the defaults of `record_limit`: that of plan version 4, and that of versions 1 and 2."""
    found = re.search(r"if format == 4 \{ ([\d_]+) \} else \{ (\d+)", source("peer_plan/src/reading.rt"))
    return tuple(map(number_in, found.groups()))


def of_plan():
    """Returns the ranges and the defaults of the plan's keys, and the lengths and octets of its texts."""
    facts = []
    for key in (it for it in plan_keys().values() if it.high):
        word = rf"(?<![\w-]){key.name}(?!\w)"
        places = rf"`{key.name}`(?:, `\w+`)* \| #|ic (?:\w+ , )?{key.name} [^#]*#"
        places += rf"|`{key.name}`,? (?:entries, |frames, |is |ago or longer, |of \w+ is )?#"
        facts += [Fact("range", places, (key.low, key.high)), Fact("range", word, (key.low, key.high))]
        facts += [Fact(unit, word, (key.high,)) for unit in ("legs", "numbers", "frames", "entries", "octets")]
        if key.name.endswith("_ms"):
            facts += [Fact("ms", rf"{word}.*default|default.*{word}", (int(key.default),))]
            facts += [Fact("ms", word, (bound,)) for bound in (key.low, key.high)]
    usual = {it.name: it.default for it in plan_keys().values() if it.default.isdigit()}
    usual["record_limit"] = str(usual_limits()[0])
    facts += [Fact("number", rf"^## the keys \| (?:… )?`{name}` \| .* \| #", (int(value),)) for name, value in usual.items()]
    window, port = plan_keys()["window"], plan_keys()["port"]
    facts += [
        Fact("range", r"that a leg holds, #", (window.low, window.high)),
        Fact("frames", r"up to # frames", (window.high - 1,)),
    ]
    facts += [Fact("range", r"leading zeros; #|address, and #", (port.low, port.high))]
    facts += [
        Fact("range", r"`port \"4569\" .*from #", (port.low, port.high)),
        Fact("ms", r"default of # seconds covers", (int(plan_keys()["challenge_ms"].default),)),
    ]
    facts += [Fact("range", r"when a trunk frame goes out \| #", (1, plan_keys()["trunk_ms"].high))]
    return facts + of_texts()


def of_texts():
    """Returns the lengths of the plan's texts and of challenges, and the values of their octets."""
    visible = tuple(int(it, 16) for it in re.search(r"(0x\w+) <= \*octet && \*octet <= (0x\w+)", source(TEXTS)).groups())
    printed = tuple(int(it, 16) for it in re.search(r"octet >= (0x\w+) && \*octet <= (0x\w+)", source(SECRET)).groups())
    name, prefix = known(TEXTS, r"len\(\) <= (\d+) && are_name_octets"), known(TEXTS, r"len\(\) <= (\d+) && are_visible")
    secret, challenge = known(SECRET, r"ArrayVec<u8, (\d+)>"), known(CHALLENGE, r"ArrayVec<u8, (\d+)>")
    called = known("exchange_core/src/calls.rt", r"text\.len\(\) > (\d+)")
    facts = [Fact("values", r"`secret` \||secret (\d+ to \d+ octets )?#|outside #|(each|octet) that isn't #|is shown", printed)]
    facts += [Fact("values", r"prefix(`| \d).*#|badnumber.*#|challenge.*#", visible)]
    facts += [Fact("range", r"`name` \| #|ic name #", (1, name)), Fact("range", r"`prefix` \| #|ic prefix #", (0, prefix))]
    facts += [
        Fact("range", r"`user`, `secret` \| #|secret # octets", (1, secret)),
        Fact("range", r"called number isn't #", (1, called)),
    ]
    return facts + [Fact("range", r"goes out is #|from now on, #|challenges begin, #", (1, challenge))]


def of_program():
    """Returns the ranges and defaults of the program's options, and other ranges."""
    facts = [Fact("range", rf"(?:--|fl fl ){it.name}\b", (it.low, it.high)) for it in options().values() if it.high]
    stop, limit = int(options()["drain"].default), int(options()["trace-limit"].default)
    facts += [Fact("ms", r"at most # seconds \(`--drain|twice that and #|`timeoutstopsec` # seconds", (stop * 1000,))]
    facts += [Fact("octets", r"# mib (for each worker|last)", (limit << 20,))]
    number = known("control_requests/src/operation.rt", r"number <= ([\d_]+)")
    serials = tuple(
        known("worker_setup/src/skipping.rt", it) for it in (r"LEAST_SERIAL: u64 = ([^;]+);", r"GREATEST_SERIAL: u64 = ([^;]+);")
    )
    media, most = constant(PACKER, "MAX_MEDIA"), r"Key::{}, (\d+)\)"
    workers, peers = (known(f"peer_plan/src/reading/{it.lower()}s.rt", most.format(it)) for it in ("Worker", "Peer"))
    rows = (
        (r"call number, #|in a path is #", (1, number)),
        (r"serial.*drawn.*from #", serials),
        (r"turns.*#", (1, (1 << 32) - 1)),
        (r"cause", (0, 255)),
        (r"media.* # octets|pieces of #|data is #|has # octets", (1, media)),
        (r"# is a gap", (1, 127)),
        (r"# is a repeat", (128, 255)),
        (r"version 1 or #|1 or #", (2, 4)),
        (r"\[\[worker\]\]", (1, workers)),
        (r"\[\[peer\]\]", (1, peers)),
    )
    return facts + [Fact("range", words, values) for words, values in rows]


def of_estimates():
    """Returns what a call costs its record: the entries of a minute by `ping_ms`, and the intervals that the estimate counts."""
    estimates = source(ESTIMATES)
    pings, others = (number_in(it) for it in re.search(r"([\d_]+) / ping_ms \+ (\d+)", estimates).groups())
    pattern = r"\((\d+)\n?--? ?seconds\)|\((\d+)\s(?:-- )?seconds\)"
    intervals = re.findall(pattern, source("plan_report/specs/Estimates.antt"))
    words = (r"ping each #", r"lagrqs? each #")
    facts = [Fact("ms", said, (int(one or other) * 1000,)) for said, (one, other) in zip(words, intervals)]
    default, tick = int(plan_keys()["ping_ms"].default), known(RUNNING, "WAIT_MS")
    for words, ping in ((r"some # entries a minute:", default), (r"with 10,000 it is some #", 10_000)):
        facts.append(Fact("entries", words, (round((pings / ping + others) / 60),)))
    facts.append(Fact("turns", r"last a minute", (60_000 // tick,)))
    trunk = int(plan_keys()["trunk_ms"].default)
    return facts + [
        Fact("ms", r"media of all its calls every #", (trunk,)),
        Fact("ms", r"jitter buffer has to cover #", (tick + trunk,)),
    ]


def of_elements():
    """Returns the sizes of the information elements that have one."""
    sizes = {"Octet": 1, "Presentation": 1, "Pair": 2, "Methods": 2, "Formats": 4}
    kinds = re.findall(r"\((\w+), \"[^\"]*\", Form::(\w+)\)", source("replay_views/src/ladder/elements.rt"))
    known_kinds = [(name.replace("_", " ").lower(), sizes[form]) for name, form in kinds if form in sizes]
    return [Fact("octets", rf"\b{name}\b[^|]* \| (?:text; )?#", (size,)) for name, size in known_kinds]


def of_numbers():
    """Returns the facts of numbers without a unit."""
    outbox, data, media = (
        constant(*it) for it in (("outbox/src/outbox.rt", "MAX_DATAGRAMS"), (HISTORY, "MAX_PAYLOAD"), (PACKER, "MAX_MEDIA"))
    )
    most = known("iax_frames/src/output.rt", r"octets: ArrayVec<u8, (\d+)>")
    longest = known("peer_lock/src/arrivals.rt", r"datagram\.octets\.len\(\) > (\d+)")
    credit = constant("exchange_core/src/opening.rt", "FIRST_CREDIT")
    waiting = sum(known("call_files/src/outlets.rt", it) for it in ("RING", "KEPT"))
    rows = (
        (
            r"from the number #|come from #|source is #|destination #|pong to #|# sources|# invals",
            constant("peer_lock/src/pokes.rt", "NO_CALL"),
        ),
        (r"# steps|begins with #|octets \| # each", credit),
        (r"wrap at #|after # - 1|octets of media .*modulo #|over all peers, modulo #", 1 << 64),
        (r"(moment|timestamp|opened|seconds|opening)[^#]*modulo #", 1 << 32),
        (r"(oseqno|iseqno)[^#]*modulo #", 1 << 8),
        (r"that comes \| #", longest),
        (r"that goes out \| #|trunk frames of #", most),
        (r"full frame \| #|may have # each", data),
        (r"in one frame or entry \| #", media),
        (r"wait to be sent \| #|# others waited|peer, # at most|most # to each", outbox),
        (r"and # of each worker", waiting),
        # A line of the table has 128 octets.
        (r"some # udp sockets", round(constant("service_state/src/socket_table.rt", "LIMIT") // 128, -3)),
        (r"use up # serials", known("worker_setup/src/skipping.rt", r"LEAST_SERIAL: u64 = ([^;]+);")),
        (r"default \| #|default is #", usual_limits()[0]),
        (r"plan of # routes", known("../.ci/plans", r"(100_000)")),
        (r"300 and # routes", known("../.ci/size_scripts.py", r"count = (5\d+)")),
        (r"default \| [\d,]+ \| #", usual_limits()[1]),
        (r"with # it is some", 10_000),
        (r"more would be more than #", constant(ROOM, "CHALLENGED_OCTETS")),
        (r"four entries more would be more than #", constant(ROOM, "CHALLENGED_ENTRIES")),
        (r"takes octets\*\*, and gets #", constant("call_files/src/disk_file.rt", "PIECE")),
    )
    return [Fact("number", words, (value,)) for words, value in rows] + of_other_numbers()


def of_other_numbers():
    """Returns the facts of numbers that are one less than a constant, of ports, and of rows in docs/PLAN.md."""
    facts = [Fact("number", r"at most # are kept", (known("control_server/src/client.rt", r"self\.old\.input < (\d+)") - 1,))]
    facts += [Fact("number", r"of at most # within", (constant("service_state/src/service_watch.rt", "NOTED"),))]
    facts += [
        Fact("number", r"port is below #", (known("plan_faults/src/warnings.rt", r"port < (\d+)"),)),
        Fact("number", r"spent \| #", (known("call_signals/src/cause.rt", r"Cause::NoUserResponding => (\d+)"),)),
    ]
    # The default of versions 1 and 2, the limit in the middle, and the default of version 4.
    newer, older = usual_limits()
    lengths = ((r"\| # \| 1 hour", older), (r"\| # \| 7 hours", math.isqrt(older * newer)), (r"\| # \| 28 hours", newer))
    return facts + [Fact("number", words, (value,)) for words, value in lengths]


@functools.cache
def facts():
    """Returns all facts."""
    widths = [
        Fact("bits", words, (bits,))
        for words, bits in (
            (r"call number \(#|number of # bits|type of # bits", 15),
            (r"integers have #", 64),
            (r"\(# bits\) that is|up to # and", 64),
            (r"# zero bits|(high|low) # bits", 16),
            (r"\d and # bits", 32),
        )
    ]
    widths.append(Fact("ms", r"past # ms", (1 << known("../.ci/size_scripts.py", r"LATE = 2\*\*(\d+)"),)))
    return (*of_table(), *of_plan(), *of_program(), *of_elements(), *of_estimates(), *of_numbers(), *widths)
