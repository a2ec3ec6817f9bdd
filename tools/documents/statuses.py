"""The exit statuses that pages state, compared with those of the program."""
import functools
import re

from .pages import MANUALS, TOP, items_of, sentences_of
from .program import ran, ran_over
from .quantities import flat
from .transcripts import DATA

STATUS = re.compile(r"\b[Ss]tatus (\d+)\b|the status is (\d+)\b|with status (\d+)\b")
HEADED = re.compile(r"^\| (\d+) \|", re.M)
SKIPPED = 'format = 2\npeer = [{ name = "x", tokens = 1 }]\n'


@functools.cache
def facts():
    """Returns the statuses, each with the words of the sentence, row or item that may state it."""
    runs = (ran("check", str(DATA / "plan.toml")), ran("check", str(DATA / "none")), ran("check"))
    done, refused, unread = (it.returncode for it in runs)
    upgraded = ran_over(["plan", "upgrade"], SKIPPED).returncode
    killed = int(re.search(r'"\$status" -gt (\d+)', (TOP / "contrib/exchange_main-run").read_text(encoding="utf-8")).group(1)) + 9
    return (
        (r"only if the plan is valid", done),
        (r"end with status|memory or the output", refused),
        (r"did its work|\bdone\b|prints, with status|run` prints", done),
        (r"refused|a refusal|reject", refused),
        (r"arguments|usage", unread),
        (r"skipped key", upgraded),
        (r"\bkill\b", killed),
        (r"broken", int(re.search(r"exit\((\d) if broken", (TOP / "endurance/endurance").read_text(encoding="utf-8")).group(1))),
    )


def stated(documents, page):
    """Returns the statuses that a page states, each with its place and its sentence, row or item."""
    text = documents.text(page)
    if page in MANUALS:
        places = [it for it in items_of(text) if it.heading == "EXIT STATUS"]
        pieces = [(it.start, flat(text)[it.start : it.end]) for it in places]
        return [(at + it.start(1), it.group(1), said) for at, said in pieces for it in re.finditer(r"(?:It |; )(\d+)\b", said)]
    found = []
    for place in sentences_of(text):
        said = text[place.start : place.end]
        for it in STATUS.finditer(said):
            group = next(at for at in (1, 2, 3) if it.group(at))
            found.append((place.start + it.start(group), it.group(group), said))
        if place.heading == "## Exit status":
            found += [(place.start + it.start(1), it.group(1), said) for it in HEADED.finditer(said)]
    return found


def check(documents, page):
    """Returns the statuses of a page that the program doesn't have."""
    both = re.findall(r"status (\d) or (\d)", documents.text(page))
    faults = [f"the status {one} or {other}" for one, other in both if (one, other) != ("0", "1")]
    for _, status, said in stated(documents, page):
        known = {value for words, value in facts() if re.search(words, said, re.I)}
        if int(status) not in known:
            faults.append(f"the status {status}, but the program has {sorted(known) or 'none'}: {said.strip()[:100]}")
    return faults
