"""Pairs of places that say the same.

Two runs of lines say the same if one becomes the other by other names: they have six lines or more, and in any six lines that
follow each other there

- the text between the words is the same,
- each word (a name, a number or a text in quotes) stands for the same word of the other run at each place, and
- at least seven of ten words are the same.

Blank lines, lines without a word, comments, imports and lists of modules don't count as lines. White space at the beginning of a
line, and how much there is, doesn't matter. All code of the repository is compared: Rattle, its logic, Python, C and the shell.

A pair is two files, or a file and itself, that have such runs. However many they share, they are one pair.
"""
import re
from collections import defaultdict
from dataclasses import dataclass
from operator import eq

LEAST = 6
SAME_WORDS = 0.7
WORD = re.compile(r'"(?:[^"\\]|\\.)*"|[^\W\d][\w\'-]*|\d\w*')
COMMENTS = {"rattle": "//", "c": "//", "logic": "--", "python": "#", "shell": "#"}
IMPORT = re.compile(r"(?:(?:ghost |pub )?use|(?:pub )?mod|import|from|#include)\b")


@dataclass(frozen=True)
class Line:
    """A line that counts: its number, the text between its words, and its words."""

    number: int
    frame: str
    words: tuple


@dataclass(frozen=True)
class Pair:
    """Two places that say the same: the paths, the number of runs that they share, and the lines at which the longest begins."""

    paths: tuple
    runs: int
    at: tuple
    length: int


def lines_of(file):
    """Returns the lines of a file that count."""
    found, is_import = [], False
    for number, line in enumerate(file.lines, 1):
        text = " ".join(line.split())
        if is_import or IMPORT.match(text):
            # An import over several lines ends with its bracket.
            is_import = text.endswith(("(", "{", ",")) or (is_import and not re.search(r"[)}]", text))
            continue
        words = tuple(WORD.findall(text))
        if words and not text.startswith(COMMENTS[file.language]):
            found.append(Line(number, WORD.sub("$", text), words))
    return found


def words_at(lines, place):
    """Returns the words of six lines from a place on."""
    return [word for line in lines[place : place + LEAST] for word in line.words]


def pattern_of(words):
    """Returns for each word the number of other words before its first appearance."""
    places = {}
    return tuple(places.setdefault(word, len(places)) for word in words)


def groups_of(lines):
    """Returns the lists of places (path and index) from which on six lines are the same but for names."""
    framed = defaultdict(list)
    for path, own in lines.items():
        frames = [hash(line.frame) for line in own]
        for place in range(len(own) - LEAST + 1):
            framed[tuple(frames[place : place + LEAST])].append((path, place))
    groups = defaultdict(list)
    for frames, places in framed.items():
        if len(places) > 1:
            for path, place in places:
                groups[frames, pattern_of(words_at(lines[path], place))].append((path, place))
    return [places for places in groups.values() if len(places) > 1]


def are_alike(one, other):
    """Returns whether enough of the words of two places are the same."""
    return sum(map(eq, one, other)) >= SAME_WORDS * len(one)


def matches_in(lines):
    """Returns the pairs of places (path and index) from which on six lines say the same."""
    found = set()
    for places in groups_of(lines):
        words = [words_at(lines[path], place) for path, place in places]
        for later, (path, place) in enumerate(places):
            for earlier in range(later):
                beside, before = places[earlier]
                # Runs of one file don't overlap.
                if (beside != path or before + LEAST <= place) and are_alike(words[earlier], words[later]):
                    found.add(((beside, before), (path, place)))
    return found


def run_length(matches, one, other):
    """Returns the number of lines that say the same from two places on."""
    length = LEAST
    while ((one[0], one[1] + length - LEAST + 1), (other[0], other[1] + length - LEAST + 1)) in matches:
        length += 1
    return length


def pairs_of(files):
    """Returns the pairs of places that say the same, the longest runs first."""
    lines = {file.path: lines_of(file) for file in files if file.is_code()}
    matches = matches_in(lines)
    runs = defaultdict(list)
    for one, other in matches:
        if ((one[0], one[1] - 1), (other[0], other[1] - 1)) not in matches:
            at = (lines[one[0]][one[1]].number, lines[other[0]][other[1]].number)
            runs[one[0], other[0]].append((-run_length(matches, one, other), at))
    pairs = [Pair(paths, len(found), min(found)[1], -min(found)[0]) for paths, found in runs.items()]
    return sorted(pairs, key=lambda it: (-it.length, -it.runs, it.paths))
