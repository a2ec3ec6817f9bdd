"""Functions of a file: where they begin, how long their bodies are, and how many parameters they take.

A body's length is the number of lines between its braces. In Python it is the number of lines after the docstring. Rattle's
sources are in the layout of `rt fmt`: a body ends at the first line that has a closing brace at the indent of its head.
"""
import ast
import re
from dataclasses import dataclass

HEAD = re.compile(r"( *)(?:pub(?:\(\w+\))? )?(?:(?:const|unsafe|async|extern \"\w+\") )*fn (\w+)\b")
# A head in C or of the shell, whose brace may be on a later line.
BRACED_HEAD = re.compile(r"(?!struct\b|enum\b|union\b|typedef\b)(?:[a-z][\w *]*[ *])?(\w+)\(([^;{}]*)\{\n")


@dataclass(frozen=True)
class Function:
    """A function: its name, the line of its head, the lines of its body, and its parameters (with `self`)."""

    name: str
    line: int
    length: int
    parameters: int


def closing(text, at):
    """Returns the place of the bracket that closes the one at `at`. An arrow closes none."""
    depth = 0
    for place in range(at, len(text)):
        if text[place] in "([{<":
            depth += 1
        elif text[place] in ")]}" or (text[place] == ">" and text[place - 1] not in "-="):
            depth -= 1
            if depth == 0:
                return place
    return len(text)


def parameter_count(text):
    """Returns the number of parameters that the first list of parameters in a text has. Lists of types may precede it."""
    opening = re.search(r"[(<]", text)
    if not opening:
        return 0
    end = closing(text, opening.start())
    if text[opening.start()] == "<":
        return parameter_count(text[end + 1 :])
    inside = text[opening.start() + 1 : end]
    commas, place = [], 0
    while place < len(inside):
        if inside[place] == ",":
            commas.append(place)
        place = closing(inside, place) + 1 if inside[place] in "([{<" else place + 1
    last = inside[commas[-1] + 1 :] if commas else inside
    return len(commas) + bool(last.strip())


def rattle_body(lines, head, indent):
    """Returns the places of the lines that open and close the body of the function whose head is at a place. Both are the
    same if its braces are on one line; None if it has no body, as a function that a trait declares."""
    for place in range(head, len(lines)):
        line = lines[place]
        if not line.strip() or len(line) - len(line.lstrip()) > len(indent):
            continue
        if not line.startswith(indent) or (place > head and HEAD.match(line)):
            return None
        if line.endswith("{}"):
            return place, place
        if line.endswith("{"):
            return place, next((it for it in range(place, len(lines)) if lines[it] == f"{indent}}}"), place)
        if line.endswith(";"):
            return None
    return None


def rattle_functions(lines):
    """Returns the functions of a source of Rattle."""
    found = []
    for place, line in enumerate(lines):
        head = HEAD.match(line)
        if head:
            body = rattle_body(lines, place, head[1])
            length = max(0, body[1] - body[0] - 1) if body else 0
            parameters = parameter_count("\n".join([line[head.end() :], *lines[place + 1 : place + 40]]))
            found.append(Function(head[2], place + 1, length, parameters))
    return found


def python_functions(text):
    """Returns the functions of a Python program."""
    found = []
    for node in ast.walk(ast.parse(text)):
        if isinstance(node, (ast.FunctionDef, ast.AsyncFunctionDef)):
            body = node.body[1:] if ast.get_docstring(node, clean=False) is not None else node.body
            length = body[-1].end_lineno - body[0].lineno + 1 if body else 0
            words = node.args
            parameters = len([*words.posonlyargs, *words.args, *words.kwonlyargs]) + bool(words.vararg) + bool(words.kwarg)
            found.append(Function(node.name, node.lineno, length, parameters))
    return sorted(found, key=lambda it: it.line)


def braced_functions(text):
    """Returns the functions of a program in C or of the shell. Their bodies end at a line that is a brace alone."""
    found = []
    for head in re.finditer(rf"^{BRACED_HEAD.pattern}", text, re.M):
        end = text.find("\n}\n", head.end() - 1)
        length = text.count("\n", head.end(), end + 1) if end >= 0 else 0
        found.append(Function(head[1], text.count("\n", 0, head.start()) + 1, length, parameter_count(text[head.end(1) :])))
    return found


def functions_of(file):
    """Returns the functions of a file."""
    if file.language == "rattle":
        return rattle_functions(file.lines)
    if file.language == "python":
        return python_functions(file.text)
    return braced_functions(file.text) if file.language in ("c", "shell") else []


def clause_count(file):
    """Returns the number of clauses that the contracts of a source of Rattle promise: its `ensures`."""
    return len(re.findall(r"^ *ensures\b", file.text, re.M)) if file.language == "rattle" else 0
