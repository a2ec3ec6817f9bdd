"""The parts of docs/ENDURANCE.md."""
from functools import partial

from .pages import rounded, table
from .performance import place_of
from .results import read

ANSWERED = "each call is answered, and ends once it is hung up"
# The values of each scene on the page: the promise, the value, and its words.
SEEN = {
    "two_sites": (
        (ANSWERED, "answered", "calls"),
        ("each digit is taken once and in order", "digits_taken", "digits"),
        ("the network was bad", "lost", "datagrams lost"),
        ("the network was bad", "repeated", "repeated"),
    ),
    "churn": (
        (ANSWERED, "answered", "calls"),
        ("each leg has its row in the call records", "rows", "rows"),
        ("at rest as much is held as before the calls", "octets_before", "octets held before"),
        ("at rest as much is held as before the calls", "after", "after"),
    ),
    "flood": (
        ("the exchange took a flood", "datagrams", "datagrams"),
        (ANSWERED, "answered", "calls"),
        ("media lacks only where a full socket dropped it", "lacking", "frames of media lack"),
    ),
    "floods": (
        ("each flood comes, and has its effect", "datagrams", "datagrams"),
        ("media lacks only where a full socket dropped it", "lacking", "frames of media lack"),
    ),
    "fill": (
        ("what isn't authenticated holds little", "calls", "calls"),
        ("what isn't authenticated holds little", "frames", "frames"),
        ("what isn't authenticated holds little", "at_most", "KB resident at most"),
    ),
    "tokens": (
        ("NEWs without a token open no leg", "news", "NEWs"),
        ("NEWs without a token open no leg", "tokens_given", "tokens given"),
    ),
    "restart": (("old calls get INVAL", "restarts", "SIGKILLs"), ("old calls get INVAL", "legs_up", "legs up at them")),
    "silence": (),
    "faults": (
        ("a full disk: rows wait for it", "writes_that_failed", "failed writes"),
        ("no memory: requests were refused", "refused", "requests for memory refused"),
    ),
    "storms": (
        ("each digit is taken once and in order in each storm", "digits_taken", "digits"),
        ("each digit is taken once and in order in each storm", "lacking_digits", "lacking"),
    ),
    "bursts": (("trunk to trunk, no frame is lost but by full sockets", "sent", "frames, trunk to trunk"),),
}
# The storms of the page: their words, their values in a storm's name, and all `vnak_ms`.
STORMS = (
    ("no loss, no reordering, no bound", "0, window 64, path_kbit 0, queue_ms 200, retry_ms 1000", (0,)),
    ("no bound", "20, window 64, path_kbit 0, queue_ms 200, retry_ms 1000", (0, 60)),
    ("no bound, window 16: six digits on their way", "20, window 16, path_kbit 0, queue_ms 200, retry_ms 1000", (0,)),
    ("no bound, window 8: three", "20, window 8, path_kbit 0, queue_ms 200, retry_ms 1000", (0,)),
    ("512 kbit/s, queue 200 ms, `retry_ms` 1000", "20, window 64, path_kbit 512, queue_ms 200, retry_ms 1000", (0, 60)),
    ("1,024 kbit/s, queue 2 s, `retry_ms` 200", "20, window 64, path_kbit 1024, queue_ms 2000, retry_ms 200", (0, 200)),
    ("2,048 kbit/s, queue 200 ms, `retry_ms` 200", "20, window 64, path_kbit 2048, queue_ms 200, retry_ms 200", (0, 40)),
)


def length_of(seconds):
    """Returns a run's length in words."""
    return f"{seconds} s" if seconds < 120 else f"{round(seconds / 60)} min"


def scenes(folder):
    """Makes the table of what each scene has shown, and a line for each machine, with the days."""
    rows, dates = [], {}
    for name, seen in SEEN.items():
        found = read(folder, name)
        fact = found.fact
        said = [f"{found.figure(promise, value):,} {words}" for promise, value, words in seen]
        is_kept = {promise: values["is_kept"] for promise, values in found.rows.items() if "is_kept" in values}
        said += [f"broken: {promise}" for promise, kept in is_kept.items() if not kept]
        kept = len(is_kept) if all(is_kept.values()) else f"{sum(is_kept.values())} of {len(is_kept)}"
        rows.append((f"`{name}`", length_of(fact("seconds")), kept, "; ".join(said)))
        dates.setdefault(place_of(found), set()).add(fact("date"))
    machines = sorted(f"{', '.join(sorted(days))}: {place}" for place, days in dates.items())
    return "\n".join(machines) + "\n\n" + table(("Scene", "Length", "Promises kept", "What was seen"), rows)


def storms(folder):
    """Makes the table of a few storms."""
    found, rows = read(folder, "storms"), []
    for what, how, all_vnak_ms in STORMS:
        for place, vnak_ms in enumerate(all_vnak_ms):
            row = f"loss {how}, vnak_ms {vnak_ms}"
            digits, each, cut = (found.figure(row, name) for name in ("a second", "for each", "cut"))
            rows.append(("" if place else what, vnak_ms or "none", rounded(digits), rounded(each, 2), cut))
    return table(("Path", "`vnak_ms`", "Digits a second", "Datagrams a digit", "Calls cut"), rows)


def parts(folder):
    """Returns the parts of the page by their names."""
    return {it.__name__: partial(it, folder) for it in (scenes, storms)}
