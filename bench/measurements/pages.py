"""Pages with parts that are made: each is between a line that names it and a line that ends it."""
import re

BEGIN = "<!-- made by pages: {} -->"
END = "<!-- end -->"
NAME = r"([^\n]*)"
PART = re.compile(rf"^{BEGIN.format(NAME)}\n(.*?)^{END}$", re.M | re.S)


class Unmade(Exception):
    """A page can't be made. The text says which, and why."""


def part_text(name, text):
    """Returns a part with its first and last line."""
    return f"{BEGIN.format(name)}\n{text}\n{END}"


def made(page, text, parts):
    """Returns a page's text with its parts made again. `parts` has for each name the function that makes the part. Raises
    `Unmade` if a part isn't closed, is unknown, is missing, or is there twice."""
    names = [match.group(1) for match in PART.finditer(text)]
    begins, ends = text.count(BEGIN.partition("{")[0]), text.count(END)
    if not len(names) == begins == ends:
        raise Unmade(f"{page}: {begins} parts begin, {ends} end, and {len(names)} have both lines in turn")
    for name in sorted({*names, *parts}):
        if names.count(name) != 1 or name not in parts:
            raise Unmade(f"{page}: the part {name!r} is there {names.count(name)} times, and should be {int(name in parts)}")
    return PART.sub(lambda match: part_text(match.group(1), parts[match.group(1)]()), text)


def differing(page, text, parts):
    """Returns the parts of a page that differ from what is made, each by the page's name and its own."""
    wanted = dict(PART.findall(made(page, text, parts)))
    return [f"{page}, {name}" for name, part in PART.findall(text) if part != wanted[name]]


# ---- tables and numbers


def table(head, rows):
    """Returns a table: a line of names, and lines of cells."""
    lines = ["| " + " | ".join(f"{it}" for it in cells) + " |" for cells in (head, *rows)]
    return "\n".join([lines[0], "|" + "---|" * len(head), *lines[1:]])


def rounded(number, digits=3):
    """Returns a number with this many digits, as people write it: with commas, and without an exponent."""
    if number == 0:
        return "0"
    decimals = max(0, digits - 1 - magnitude(number, digits))
    # Digits that are dropped before the point become zeros.
    return f"{round(number, digits - 1 - magnitude(number, digits)):,.{decimals}f}"


def magnitude(number, digits):
    """Returns the power of ten of a number's first digit, once it is rounded to this many digits."""
    return int(f"{abs(number):.{digits - 1}e}".partition("e")[2])


def with_error(figure):
    """Returns a mean and its error as two cells, with as many decimals as give the error two digits, but the mean four at most.
    An error that would be 0 is left out."""
    places = min(1 - magnitude(figure.error or 0, 2), 3 - magnitude(figure.mean, 4))
    if not figure.error or round(figure.error, places) == 0:
        return rounded(figure.mean), ""
    return f"{round(figure.mean, places):,.{max(0, places)}f}", f"{round(figure.error, places):,.{max(0, places)}f}"


def plus_minus(figure):
    """Returns a mean and its error in one cell."""
    return " ± ".join(filter(None, with_error(figure)))


def scaled(figure, factor):
    """Returns a figure in another unit."""
    return type(figure)(figure.mean * factor, None if figure.error is None else figure.error * factor)
