"""Facts of the sources: constants, functions, options, keys of the plan with their ranges, statuses and names."""
import functools
import re
import subprocess
from dataclasses import dataclass

from .pages import TOP


@functools.cache
def source(path):
    """Returns the text of a source below `crates/`."""
    return (TOP / "crates" / path).read_text(encoding="utf-8")


@functools.cache
def sources(*crates):
    """Returns the texts of all sources of these crates."""
    files = [it for crate in crates for it in sorted((TOP / "crates" / crate / "src").rglob("*.rt"))]
    return "\n".join(it.read_text(encoding="utf-8") for it in files)


@functools.cache
def crates():
    """Returns the names of all crates."""
    return tuple(sorted(it.name for it in (TOP / "crates").iterdir() if (it / "src").is_dir()))


@functools.cache
def tracked():
    """Returns the files of the repository, those included that aren't committed yet."""
    words = ["git", "ls-files", "--cached", "--others", "--exclude-standard"]
    listed = subprocess.run(words, cwd=TOP, capture_output=True, text=True, check=True).stdout.split("\n")
    return tuple(it for it in dict.fromkeys(listed) if it and (TOP / it).is_file())


def function_of(text, name):
    """Returns the text of a function, from its name to the end of its body; that of a method to the end of its `impl`."""
    found = re.search(rf"\bfn {name}\b.*?\n}}", text, re.S)
    return found.group() if found else ""


def method_of(text, name):
    """Returns the text of a method, from its name to the end of its body."""
    found = re.search(rf"\n    (?:pub(?:\(crate\))? )?fn {name}\b.*?\n    }}\n", text, re.S)
    return found.group() if found else ""


def number_in(text):
    """Returns the number that an expression of the sources is: decimal, hexadecimal, octal, a shift or a product."""
    terms = [it.strip() for it in text.replace("_", "").split("*")]
    value = 1
    for term in terms:
        one, _, shift = term.partition("<<")
        value *= int(one, 0) << int(shift or "0")
    return value


@functools.cache
def constant(path, name):
    """Returns the number of a constant of a source below `crates/`."""
    found = re.search(rf"const {name}: \w+ = ([^;]+);", source(path))
    return number_in(found.group(1))


@dataclass(frozen=True)
class Option:
    """An option of the program: the word for its value, its default, and its choices or its range."""

    name: str
    value: str = ""
    default: str = ""
    choices: tuple = ()
    low: int = 0
    high: int = 0


def option_of(name, kind, words):
    """Returns an option by the text of its `Taken`."""
    texts = re.findall(r'"([^"]*)"', words)
    if kind == "OneOf":
        return Option(name, texts[0], texts[1], tuple(texts[2:]))
    if kind == "Number":
        low, high = re.findall(r"(\d[\d_]*)", words.split(",", 2)[2] if len(texts) < 2 else words.rsplit('"', 1)[1])
        return Option(name, texts[0], texts[1] if len(texts) > 1 else "", (), number_in(low), number_in(high))
    return Option(name, texts[0] if texts else "")


@functools.cache
def options():
    """Returns the options of the program's command line, by name."""
    rows = source("exchange_main/src/command_line.rt")
    found = re.findall(r'"([a-z-]+)",\s*Taken::(Value|OneOf|Number|Flag)\b(\(.*?\))?,\n', rows, re.S)
    return {name: option_of(name, kind, words) for name, kind, words in found}


@functools.cache
def commands():
    """Returns the commands of the program, without `help`."""
    rows = source("exchange_main/src/command_line.rt")
    return tuple(re.findall(r'\(\s*"(\w+)",', re.search(r"const COMMANDS.*?\];", rows, re.S).group()))


@functools.cache
def orders():
    """Returns the orders of `ctl`."""
    found = re.findall(
        r'^ *"(\w+)" => Some\(ControlOrder|word\.as_str\(\) == "(\w+)"', source("control_requests/src/client/order.rt"), re.M
    )
    return tuple(one or other for one, other in found)


@dataclass(frozen=True)
class Key:
    """A key of the plan: its default and the range of its number, as far as it has them."""

    name: str
    default: str = ""
    low: int = 0
    high: int = 0


@functools.cache
def plan_keys():
    """Returns the keys of the plan by name. Numbers have a range; numbers, truths and some others have a default."""
    names = dict(re.findall(r'Key::(\w+) => "(\w+)"', source("peer_plan/src/key.rt")))
    reading = sources("peer_plan")
    found = {name: Key(name) for name in names.values()}
    number = r"number_at\(\s*table,\s*Key::(\w+),\s*(?:Ok\(([\d_]+)\)|Ok\(\w+\)|Err\([^)]*\){1,2}),\s*([\d_]+),\s*([\d_]+),?\s*\)"
    for key, default, low, high in re.findall(number, reading):
        found[names[key]] = Key(names[key], default.replace("_", ""), number_in(low), number_in(high))
    for key, default in re.findall(r"(?:bool|flag|truth|switch)\w*\(\s*table,\s*Key::(\w+),\s*(?:Ok\()?(true|false)", reading):
        found[names[key]] = Key(names[key], default)
    return found


@functools.cache
def columns():
    """Returns the columns of the tables that `ctl` prints, by order."""
    tables = source("control_requests/src/client/tables.rt")
    found = re.findall(r"const (\w+): Kind = Kind \{.*?columns: &\[(.*?)\]", tables, re.S)
    return {name.lower(): tuple(re.findall(r'"(\w+)"', listed)) for name, listed in found}


@functools.cache
def status_codes():
    """Returns the numbers of the statuses of HTTP, by their names in the sources."""
    return {
        name: int(code)
        for name, code in re.findall(r"StatusCode::(\w+)(?:\(_\))? => (\d{3}),", source("control_requests/src/response.rt"))
    }


def names_in(text, function):
    """Returns the names that a function of a text gives."""
    return set(re.findall(r'=> "(\w+)"', function_of(text, function)))


@functools.cache
def http_refusals():
    """Returns the refusals of requests, each as a status and a name."""
    codes, desk = status_codes(), sources("service_api", "control_server")
    names = source("exchange_core/src/printed_names.rt")
    found = {(codes[status], name) for status, name in re.findall(r'StatusCode::(\w+)(?:\(\w+\))?,\s*"(\w+)"', desk)}
    found |= {(codes["Unprocessable"], it) for it in names_in(desk, "fault_name")}
    placing = names_in(names, "call_error_name") - {"BadNumber"}
    return found | {(codes["Conflict"], it) for it in placing | names_in(names, "order_error_name")}


def known_mode(path, pattern):
    """Returns the mode that a pattern finds in a source below `crates/`, in octal digits there."""
    return int(re.search(pattern, source(path)).group(1), 8)
