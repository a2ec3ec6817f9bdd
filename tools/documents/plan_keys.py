"""The keys of the plan: those of the sources, of docs/PLAN.md, of exchange_main.plan(5) and of the samples of faults."""
import functools
import json
import re

from .pages import MANUALS, TOP, coded, first_cells, items_of, lines_of, rows_of, section_of
from .program import ran_over
from .quantities import flat
from .report import differences
from .sources import options, plan_keys, sources

PAGE, MANUAL = "docs/PLAN.md", "contrib/exchange_main.plan.5"
PEER = '[[peer]]\nname = "west"\naddress = "127.0.0.1"\nport = 5001\nworker = 0\nformats = ["ulaw"]\n'
PLAN = '[[worker]]\naddress = "127.0.0.1"\nport = 4569\n' + PEER


@functools.cache
def explained():
    """Returns the defaults that `explain` prints of a plan of version 4, and what it prints of a peer's others."""
    printed = ran_over(["explain"], f"format = 4\n{PLAN}").stdout
    return dict(re.findall(r"^ +(\w+) (\S+) \(default\)", printed, re.M))


def defaults():
    """Returns the default of each key that has one, as the program prints it or the sources have it."""
    found = {key.name: key.default for key in plan_keys().values() if key.default}
    return found | {name: value for name, value in explained().items() if name in plan_keys() and name != "passes"}


def check_table(documents):
    """Returns the faults of the table of keys: its keys, and their ranges and defaults."""
    page = documents.section(PAGE, "## The keys")
    faults = differences([it.strip("[]") for it in first_cells(page)], plan_keys())
    for row in rows_of(page):
        for name in (it.strip("[]") for it in coded(row[0])):
            key = plan_keys().get(name)
            if key is None or len(row) != 3:
                continue
            if (
                key.high
                and row[1] != "as above"
                and not re.search(rf"(?<![\d,]){key.low:,} to {key.high:,}(?![\d,])", row[1])
            ):
                faults.append(f"{name} is {key.low:,} to {key.high:,}")
            told = re.match(r"`?([\w-]+)`?", row[2])
            wanted = defaults().get(name)
            if wanted and (not told or told.group(1) != wanted):
                faults.append(f"the default of {name} is {wanted}")
            if not wanted and told and told.group(1) not in ("none", "absent", "secret", "the"):
                faults.append(f"{name} has no default {told.group(1)}")
            if not wanted and is_needed(name) != (row[2] == "none") and name not in ("worker", "peer", "route"):
                faults.append(f"{name} {'has no default' if is_needed(name) else 'may be absent'}")
    return faults


@functools.cache
def is_needed(name):
    """Returns whether the program refuses a plan without this key, by the name `Missing`."""
    plan = f'format = 4\n{PLAN}[[route]]\nprefix = "1"\npeer = "west"\n'
    without = re.sub(rf"^{name} = .*\n", "", plan, count=1, flags=re.M)
    return ran_over(["check"], without).stdout.startswith("refused Missing")


def items(documents):
    """Returns the items of keys of the manual page: each with its keys and its text."""
    manual = documents.text(MANUAL).split(".Sh EXAMPLES")[0]
    found = re.findall(r"^\.It Ic ([^\n]*)\n(.*?)(?=^\.It|^\.El)", manual, re.M | re.S)
    return [(re.findall(r"[a-z_]+", heads), " ".join(re.sub(r"^\.\w+ ", "", text, flags=re.M).split())) for heads, text in found]


def check_manual(documents):
    """Returns the faults of exchange_main.plan(5): its keys, and their ranges and defaults."""
    manual = documents.text(MANUAL)
    told = [name for names, _ in items(documents) for name in names] + re.findall(r"^\.Ic \[\[(\w+)\]\]", manual, re.M)
    faults = differences(told, plan_keys())
    for names, text in items(documents):
        said = text.replace(",", "")
        for key in (plan_keys()[it] for it in names if it in plan_keys()):
            if key.high and "sends from" not in said and f"{key.low} to {key.high}" not in said:
                faults.append(f"{key.name} is {key.low} to {key.high}")
            wanted = defaults().get(key.name)
            if wanted and not re.search(rf"\b{wanted} by default", said):
                faults.append(f"the default of {key.name} is {wanted}")
    return faults


PHRASE = re.compile(
    r"(?<![\w,-])(\d[\d,]*\d|\d|true|false) by default"
    r"|default (?:is|of) `?(\d[\d,]*\d|\d|true|false)\b`?(?! seconds?\b)(?![\d,]*\d)"
)


def stated_defaults(documents, page):
    """Returns the defaults that sentences of a page state, each with its place, and its sentence or row."""
    text = flat(documents.text(page)) if page in MANUALS else documents.text(page)
    places = items_of(documents.text(page)) if page in MANUALS else lines_of(text)
    found = []
    for place in places:
        for it in PHRASE.finditer(text[place.start : place.end]):
            group = 1 if it.group(1) else 2
            found.append((place.start + it.start(group), it.group(group), text[place.start : place.end]))
    return found


@functools.cache
def endurance_defaults():
    """Returns the defaults of the options of `endurance/endurance`."""
    text = (TOP / "endurance/endurance").read_text(encoding="utf-8")
    usual = re.search(r"USUAL = Storm\((.*)\)", (TOP / "endurance/storms.py").read_text(encoding="utf-8")).group(1)
    found = dict(re.findall(r'add_argument\("--([a-z-]+)",[^\n]*default=(\d+)', text))
    return found | {name.replace("_", "-"): value for name, value in re.findall(r"(\w+)=\[(\d+)\]", usual)}


def check_phrases(documents, page):
    """Returns the defaults in sentences that are none of a key, or of an option, that the sentence names."""
    faults = []
    for _, value, said in stated_defaults(documents, page):
        named = [it for it in defaults() if re.search(rf"(?<![\w-]){it}(?!\w)", said)]
        known = {defaults()[it] for it in named} | {
            it.default for it in options().values() if re.search(rf"(?:--|Fl Fl ){it.name}\b", said)
        }
        if re.search(r"versions? 1", said) and "record_limit" in said:
            known.add("4096")
        if "share trunk frames" in said:
            known.add(defaults()["trunk_ms"])
        known |= {default for name, default in endurance_defaults().items() if f"--{name}" in said}
        if value.replace(",", "") not in known:
            faults.append(f"the default {value}, but the sources have {', '.join(sorted(known)) or 'none'}: {said.strip()[:100]}")
    return faults


def without_names(line):
    """Returns a line with 0 in place of each number that isn't a bound, and with empty quotes."""
    kept = re.sub(
        r"(from \d+ to \d+|below \d+|than \d+|beyond \d+)",
        lambda it: it.group().translate(str.maketrans("0123456789", "abcdefghij")),
        line,
    )
    return re.sub(r"\d+", "0", re.sub(r'"(?:[^"\\]|\\.)*"', '""', kept))


@functools.cache
def printed_lines():
    """Returns the faults and warnings that scenes print and the sources have, without their names."""
    folder = TOP / "crates/exchange_main/scenes"
    printed = [line for it in sorted(folder.glob("*.stderr")) for line in it.read_text(encoding="utf-8").splitlines()]
    texts = re.findall(r'"((?:[^"\\]|\\.)*)"', sources("plan_faults").replace("b'\"'", ""))
    return "\n".join(map(without_names, printed + [it.replace('\\"', '"') for it in texts]))


def check_lines(documents):
    """Returns the faults and warnings of docs/PLAN.md that neither a scene prints nor a source has."""
    page, faults = documents.text(PAGE), []
    for heading, column in (("## Faults", 1), ("## Warnings", 0)):
        told = [it for row in rows_of(section_of(page, heading)) for it in coded(row[column])]
        faults += [f'nothing prints "{it}"' for it in told if without_names(it) not in printed_lines()]
        faults += [] if told else [f"{heading} has no table"]
    return faults


def check_sizes_of_texts(documents):
    """Returns the faults of the rows of texts: names, secrets and prefixes that the program doesn't take at these lengths."""
    faults = []
    for row in rows_of(documents.section(PAGE, "## The keys")):
        told = re.search(r"^(\d+) to (\d+) (?:ASCII|octets)", row[1]) if len(row) == 3 else None
        for name in coded(row[0]) if told else []:
            low, high = int(told.group(1)), int(told.group(2))
            if not (takes(name, low) and takes(name, high)) or takes(name, high + 1) or low and takes(name, low - 1):
                faults.append(f"the program takes other lengths of {name} than {low} to {high}")
    return faults


@functools.cache
def takes(name, length):
    """Returns whether the program takes a text of this length for a key."""
    lines = {
        "name": f'name = "{"w" * length}"',
        "prefix": f'prefix = "{"1" * length}"',
        "user": f'user = "{"u" * length}"',
        "secret": f'user = "u"\nsecret = "{"s" * length}"',
    }
    plan = f"format = 4\n{PLAN}"
    plan = plan.replace('name = "west"', lines["name"]) if name == "name" else plan
    plan += lines[name] + "\n" if name in ("user", "secret") else ""
    plan += f'[[route]]\n{lines[name]}\npeer = "west"\n' if name == "prefix" else ""
    return ran_over(["check"], plan).returncode == 0


def check_schema(documents):
    """Returns the keys that contrib/plan.schema.json lacks or invents."""
    schema, found = json.loads(documents.text("contrib/plan.schema.json")), set()

    def walk(value):
        """Adds the properties in a part of the schema."""
        if isinstance(value, dict):
            found.update(value.get("properties", {}) if isinstance(value.get("properties"), dict) else ())
            for it in value.values():
                walk(it)
        elif isinstance(value, list):
            for it in value:
                walk(it)

    walk(schema)
    return differences(found, plan_keys())
