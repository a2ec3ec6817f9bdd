"""The command line in docs/CLI.md, in the manual pages, in `--help` and wherever a page names an option."""
import functools
import re

from .foreign import OPTIONS
from .pages import MANUALS, TOP, coded, first_cells, rows_of, section_of
from .program import ran
from .report import differences
from .sources import columns, commands, options, orders

PAGE, MANUAL = "docs/CLI.md", "contrib/exchange_main.1"
# The options that every command has, and that of the order `stop`.
COMMON, GRACEFUL = {"help", "version"}, {"graceful"}


@functools.cache
def help_of(command):
    """Returns what the program prints about a command."""
    return ran("help", command).stdout


@functools.cache
def helped():
    """Returns the options that `--help` prints, each with the word for its value, its default and its choices."""
    found = {}
    for command in commands():
        for name, value, rest in re.findall(r"^ +--([a-z-]+)(?: <([^>]+)>)?(.*)$", help_of(command), re.M):
            default = re.search(r"\[default: ([^\]]+)\]", rest)
            choices = re.search(r"\[possible values: ([^\]]+)\]", rest)
            found[name] = (value, default.group(1) if default else "", tuple(choices.group(1).split(", ")) if choices else ())
    return found


def check_help(documents):
    """Returns the options of `--help` that aren't those of docs/CLI.md: by name, value, default and choices."""
    faults, found = [], {}
    for row in rows_of(documents.text(PAGE)):
        if len(row) == 3 and row[0].startswith("`--"):
            name, _, value = coded(row[0])[0].removeprefix("--").partition(" ")
            found[name] = (value, row[1].strip("`"), row[2])
    for name, (value, default, choices) in helped().items():
        if name in ("leg", "text"):
            continue
        shown = found.pop(name, None)
        if shown is None:
            faults.append(f"the table lacks --{name}")
            continue
        wanted = default or ("off" if not value else "none")
        faults += [] if shown[0] == value else [f"the value of --{name} is {value}"]
        faults += [] if shown[1] == wanted else [f"the default of --{name} is {wanted}"]
        faults += [f"--{name} can be {it}" for it in choices if choices != ("yes", "no") and f"`{it}`" not in shown[2]]
        faults += [f"--{name} can't be {it}" for it in choices_in(shown[2]) if len(choices) > 2 and it not in choices]
    return faults + [f"the program has no option --{it}" for it in found]


def choices_in(text):
    """Returns the words in code of a list of choices: `a`, `b` or `c`."""
    listed = re.search(r"(?:`[\w-]+`, )+`[\w-]+`(?:,? or `[\w-]+`)", text)
    return coded(listed.group()) if listed else []


def check_names(documents):
    """Returns the commands, options and orders that docs/CLI.md lacks or invents."""
    page = documents.text(PAGE)
    in_page = re.findall(r"`(?:[a-z]+ PLAN SCRIPT )?--([a-z-]+)", "\n".join(it for it in page.split("\n") if it.startswith("|")))
    faults = differences(set(in_page) - COMMON, options())
    table = page.split("\n## ")[0]
    faults += differences([it.split(" ")[0] for it in first_cells(table) if not it.startswith("--")], (*commands(), "help"))
    section = section_of(page, "## ctl")
    faults += differences([it.split(" ")[0] for it in first_cells(section)], orders())
    usage = re.search(r"exchange_main ctl SOCKET (.*)$", section, re.M)
    printed = re.search(r"<order>\.\.\. +(.*)$", help_of("ctl"), re.M)
    if not usage or not printed or usage.group(1) != printed.group(1):
        faults.append(f"the orders are {printed.group(1) if printed else 'unknown'}")
    return faults


def check_words(documents):
    """Returns the commands of docs/CLI.md whose words aren't those of `--help`."""
    faults = []
    for cell in first_cells(documents.text(PAGE).split("\n## ")[0]):
        words = re.match(r"(\w+) (PLAN|SOCKET)(?: (\w+))?", cell)
        if words and words.group(1) in commands():
            shown = [it.lower() for it in words.groups()[1:] if it]
            known = re.findall(r"<(\w+)>", re.search(r"Usage:(.*)", help_of(words.group(1))).group(1))
            faults += [] if shown == known else [f"{cell}: the words of {words.group(1)} are {' '.join(known)}"]
    return faults


def item_of(manual, name):
    """Returns the item of an option in a manual page, from its head to the next item."""
    found = re.search(rf"^\.It Fl Fl {name}\b.*?(?=^\.It|^\.El)", manual, re.M | re.S)
    return found.group() if found else ""


def check_manual(documents):
    """Returns the faults of exchange_main(1): commands, options, values, defaults, choices and columns."""
    manual = documents.text(MANUAL)
    synopsis, description = manual.split(".Sh DESCRIPTION")
    faults = differences(set(re.findall(r"Fl Fl ([a-z-]+)", manual)) - COMMON - GRACEFUL, options())
    faults += [f"the synopsis lacks --{it}" for it in options() if f"Fl Fl {it}" not in synopsis]
    named = re.sub(r"\.Cm (call|hangup|new|upgrade)\n", "", synopsis)
    faults += differences(re.findall(r"^\.Cm ([a-z]+)$", named, re.M), (*commands(), "help"))
    for name, option in options().items():
        if name in ("leg", "text"):
            values = re.findall(rf"Fl Fl {name}(?: Ar (\w+))?", manual)
            faults += [
                f"the value of --{name} is {option.value.lower() or 'none'}" for it in values if it != option.value.lower()
            ]
            continue
        item = item_of(description, name)
        value = "|".join(option.choices) if name in ("log-numbers", "trace-digits") else option.value.lower()
        heads = re.findall(
            rf"Fl Fl {name}\b ?(?:Ar|Cm)? ?([\w:| ]*)$", item.split("\n")[0] + "\n" + synopsis.replace(" Ns", ""), re.M
        )
        faults += [f"the value of --{name} is {value}" for it in heads if it.replace(" ", "") != value]
        flat = " ".join(re.sub(r"^\.(?:Cm|Ar|Fl Fl) ", "", item, flags=re.M).split())
        if (
            option.default
            and len(option.choices) != 2
            and not re.search(rf"\b{option.default} ?by default", flat.replace(" ;", "").replace("\n", " "))
        ):
            faults.append(f"the default of --{name} is {option.default}")
        if name == "log":
            faults += [f"--log can be {it}" for it in option.choices if not re.search(rf"\b{it}\b", flat)]
    return faults + columns_of_manual(manual)


def columns_of_manual(manual):
    """Returns the faults of the columns in the section ORDERS of exchange_main(1)."""
    section, faults = manual.split(".Sh ORDERS")[1].split(".Sh ")[0], []
    for order, names in columns().items():
        item = re.search(rf"^\.It Cm {order}$(.*?)(?=^\.It|^\.El)", section, re.M | re.S)
        listed = re.search(r"^\.Li (.*)$", item.group(1), re.M) if item else None
        told = tuple(it.strip(" .") for it in listed.group(1).split(",")) if listed else ()
        faults += [] if told == names else [f"the columns of {order} are {', '.join(names)}"]
    return faults


def check_columns(documents):
    """Returns the columns of tables in docs/OPERATING.md that `ctl` doesn't print."""
    known = {it for names in columns().values() for it in names}
    section = documents.section("docs/OPERATING.md", "## Watch it")
    told = [name for row in rows_of(section) if len(row) == 2 for name in coded(row[0])]
    return [f"no column {it}" for it in told if it not in known] + ([] if told else ["no column was found"])


def check_heads(documents, page):
    """Returns the head lines of tables in a page's blocks that `ctl` doesn't print so."""
    faults = []
    for line in re.findall(r"^    (?:name|number|accepted)  .*$", documents.text(page), re.M):
        if tuple(line.split()) not in columns().values():
            faults.append(f"no table has the columns {' '.join(line.split())}")
    return faults


@functools.cache
def other_options():
    """Returns the options of the repository's own scripts, and of the programs beside the exchange that pages name."""
    files = [*(TOP / ".ci").iterdir(), *(TOP / "bench").iterdir(), *(TOP / "endurance").iterdir(), *(TOP / "tools").rglob("*.py")]
    texts = [it.read_text(encoding="utf-8") for it in files if it.is_file()]
    own = {it for text in texts for it in re.findall(r"(?<![\w-])--([a-z][a-z-]*)", text)}
    own |= {
        it.replace("_", "-")
        for text in texts
        for names in re.findall(r'namedtuple\("Storm", "([^"]*)"', text)
        for it in names.split()
    }
    return own | OPTIONS


def check_mentions(documents, page):
    """Returns the options that a page names and no program has."""
    known = set(options()) | COMMON | GRACEFUL | other_options()
    text = documents.text(page)
    text = re.sub(r"^\.Dl curl.*$", "", text.replace("Fl Fl ", "--"), flags=re.M) if page in MANUALS else text
    told = re.findall(r"(?<![\w-])--([a-z][a-z-]*)", text)
    own = set(options()) | COMMON | GRACEFUL
    return [f"no option --{it}" for it in told if it not in (own if page in (PAGE, *MANUALS) else known)]
