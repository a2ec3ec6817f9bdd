"""The codes of the protocol in docs/PROTOCOL.md: frame types, subclasses, elements and causes, as the sources have them."""
import functools
import re

from .pages import rows_of, section_of
from .sources import number_in, source

PAGE = "docs/PROTOCOL.md"
CODE = r"0x[0-9a-f]+|\d+"
# The frame types of RFC 5456 that no leg handles, so the sources have no constant of them ("Frame Types").
OTHER_TYPES = {"VIDEO": 3, "NULL": 5, "TEXT": 7, "IMAGE": 8, "HTML": 9, "COMFORT NOISE": 10}


@functools.cache
def constants(path, prefix):
    """Returns the constants of a source whose names begin alike, by the rest of the name with blanks."""
    found = re.findall(rf"pub const {prefix}(\w+): u8 = (\w+);", source(path))
    return {name.replace("_", " "): number_in(value) for name, value in found}


@functools.cache
def kinds():
    """Returns the codes of each part of the page: the words by which it begins there, and codes by name."""
    codes = "call_signals/src/codes.rt"
    formats = {
        name.upper(): number_in(bit)
        for name, bit in re.findall(r"Format::(\w+) => (0x\w+),", source("call_signals/src/format.rt"))
    }
    return {
        "types": constants(codes, "FRAME_") | OTHER_TYPES,
        "control": constants(codes, "CONTROL_"),
        "iax": constants(codes, "IAX_"),
        "elements": constants("info_elements/src/numbers.rt", ""),
        "formats": formats,
    }


def stated(documents):
    """Returns the codes of the page in prose and in tables, each as a code, a name and its part."""
    text, found = documents.text(PAGE), []
    section = section_of(text, '## Frame types and subclasses ("Frame Types")')
    for part, words in (("types", "Types"), ("control", "Control"), ("iax", "IAX")):
        for line in re.findall(rf"^(?:### )?{words}\b(.*(?:\n(?=[| ]).*)*)", section, re.M):
            found += [(code, name, part) for code, name in re.findall(rf"\b({CODE}) ([A-Z]+|[a-z]+(?: noise)?)\b", line)]
    for code, name in re.findall(r"(0x\w+)[ |`]+(?:G\.711 )?(GSM|mu-law|A-law)", section):
        found.append((code, name.replace("mu-", "U").replace("A-", "A"), "formats"))
    for row in rows_of(section):
        if len(row) == 2 and re.fullmatch(CODE, row[0].strip("`")):
            found.append((row[0].strip("`"), row[1].strip("`"), "any"))
    for row in rows_of(section_of(text, '## Information elements ("Information Elements")')):
        listed = re.findall(r"0x[0-9a-f]{2}", row[0])
        names = re.sub(r"\(.*?\)", "", row[1]).split(",")
        found += [(code, name.strip(), "elements") for code, name in zip(listed, names)]
    return found


def is_known(code, name, part):
    """Returns whether a name has this code in a part, or in any."""
    parts = ("types", "control", "iax", "formats") if part == "any" else (part,)
    return any(kinds()[it].get(name.upper()) == number_in(code) for it in parts)


def check_codes(documents):
    """Returns the codes of the page that aren't those of the sources, and those that it lacks."""
    found = stated(documents)
    faults = [f"the code of {name} isn't {code}" for code, name, part in found if not is_known(code, name, part)]
    names = {name.upper() for _, name, _ in found}
    faults += [
        f"the page lacks {name}"
        for part in ("control", "iax", "elements", "formats")
        for name in kinds()[part]
        if name not in names
    ]
    return faults


def check_causes(documents):
    """Returns the texts of causes that the sources don't have, and those that the page lacks."""
    section = section_of(documents.text(PAGE), '## Information elements ("Information Elements")')
    told = re.findall(r"\| *(\d+) `([^`]+)`", section) + re.findall(r"^\| `?(\d+)`? \| `([^`]+)` \|$", section, re.M)
    known = re.findall(r'(\d+) => Some\(b"([^"]*)"\)', source("call_signals/src/cause.rt"))
    told = set(told) | {pair for row in rows_of(section) for cell in row for pair in re.findall(r"^(\d+) `([^`]+)`$", cell)}
    faults = [f"no cause is {code} {text}" for code, text in told - set(known)]
    return faults + [f"the page lacks the cause {code} {text}" for code, text in set(known) - told]


# Codes in sentences, each with its name: "REJECT 42" isn't one of these.
MENTIONS = re.compile(
    rf"\b(0x[0-9a-f]{{2}}) ((?:MD5 |CALLED |CALLING |IAX )?[A-Z]{{3,}}[A-Z0-9]*)\b|\(element (0x[0-9a-f]{{2}})\)"
)


def check_mentions(documents, page):
    """Returns the codes before a name, in any page, that aren't those of the sources."""
    known = {(name, code) for part in kinds().values() for name, code in part.items()}
    faults = []
    for code, name, element in MENTIONS.findall(documents.text(page)):
        if name and (name, number_in(code)) not in known:
            faults.append(f"the code of {name} isn't {code}")
        elif element and "CHALLENGE" in kinds()["elements"] and number_in(element) not in kinds()["elements"].values():
            faults.append(f"no element {element}")
    return faults


def check_challenge(documents):
    """Returns a fault if docs/INCIDENTS.md names another element than the challenge's."""
    told = re.findall(r"AUTHREQ \(element (0x\w+)\)", documents.text("docs/INCIDENTS.md"))
    return [f"the challenge isn't the element {it}" for it in told if number_in(it) != kinds()["elements"]["CHALLENGE"]]
