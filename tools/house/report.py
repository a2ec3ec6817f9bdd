"""The lines that the command prints: the table of counts, and the places behind them."""

HEADS = (
    "",
    "source",
    "specs",
    "proofs",
    "of laws",
    "ratio",
    "with laws",
    "clauses",
    "functions",
    "file",
    "body",
    "line",
    "parameters",
    "pairs",
)


def row_of(unit):
    """Returns the words of a unit's row."""
    in_crate = [f"{unit.lines['specs']}", f"{unit.lines['proofs']}", f"{unit.laws}"]
    in_crate += [f"{unit.proofs_to_source():.2f}", f"{unit.proofs_to_source(with_laws=True):.2f}", f"{unit.clauses}"]
    longest = [unit.longest_file, unit.longest_function, unit.longest_line, unit.parameters, unit.pairs]
    return [
        unit.name,
        f"{unit.lines['src']}",
        *(in_crate if unit.is_crate else ["-"] * len(in_crate)),
        f"{unit.functions}",
        *(f"{number}" for number in longest),
    ]


def aligned(rows):
    """Returns the lines of a table: names to the left, numbers to the right."""
    widths = [max(map(len, column)) for column in zip(*rows, strict=True)]
    lines = []
    for row in rows:
        numbers = [word.rjust(width) for word, width in zip(row[1:], widths[1:], strict=True)]
        lines.append("  ".join([row[0].ljust(widths[0]), *numbers]))
    return lines


def table_of(counts):
    """Returns the lines of the table of all units."""
    rows = [HEADS, *(row_of(unit) for unit in counts.units.values()), row_of(counts.in_all())]
    long = sum(counts.long_lines.values())
    sums = [
        f"{len(counts.crates())} crates",
        f"{len(counts.pairs)} pairs of places that say the same",
        f"{long} lines over 130 characters",
        f"{len(counts.long_functions)} functions over 40 lines",
        f"{len(counts.long_files)} files over 400",
    ]
    return [*aligned(rows), ", ".join(sums)]


def places_of(counts):
    """Returns a line for each pair, and for each place that is longer than the general bounds."""
    pairs = [
        f"pair: {pair.paths[0]}:{pair.at[0]} ~ {pair.paths[1]}:{pair.at[1]}, {pair.length} lines"
        + (f" (+{pair.runs - 1} more)" if pair.runs > 1 else "")
        for pair in counts.pairs
    ]
    functions = [f"function: {name}, {lines} lines" for name, lines in sorted(counts.long_functions.items())]
    files = [f"file: {path}, {lines} lines" for path, lines in sorted(counts.long_files.items())]
    lines = [f"lines: {path}, {number} over 130 characters" for path, number in sorted(counts.long_lines.items())]
    return [*pairs, *functions, *files, *lines]
