"""Copies of a crate in which the prover tries bodies.

A function is proved from its own body and from the contracts of the functions that it calls. So one copy has many bodies. All
functions that aren't changed have no body there, and a hole for a proof, so that they aren't proved again: `rt ci` proves
them.
"""
import re
from functools import cache
from pathlib import Path, PurePosixPath

from .answers import HOLE, UNOFFERED, answers_text, only_answer_to, parts_of
from .copies import spoilt, with_edits
from .crates import sources_in
from .functions import module_of, modules_of_types, statements_in
from .pages import PageError

# The greatest number of bodies in one copy: each takes memory, and each check takes up to 95 seconds apart from its bodies.
MOST_BODIES = 128


class CrateCopy:
    """A copy of a crate with the functions that some bodies change. No text is changed twice: a function that can appear
    twice is changed in its second copy, so bodies don't meet. Without `keeps_answers`, changed functions have no written
    answers."""

    def __init__(self, crate, keeps_answers=True):
        self.crate = crate
        self.keeps_answers = keeps_answers
        self.functions = []

    def text_of(self, file):
        """Returns the text of a file of the crate, without changes."""
        if file not in self.crate.texts:
            raise PageError(f"{self.crate.name} has no file {file}")
        return self.crate.texts[file]

    def edits(self):
        """Returns all its edits."""
        return [edit for function in self.functions for edit in function.edits]

    def has_room_for(self, body):
        """Returns whether it takes this body, unless their texts meet."""
        if not self.functions:
            return True
        is_full = len(self.functions) == MOST_BODIES
        return not is_full and not any(it.is_tried_alone() for it in [body, *[function.body for function in self.functions]])

    def add(self, body):
        """Adds a body if it fits with the others. Returns whether it does."""
        if not self.has_room_for(body):
            return False
        function = spoilt(body, self.text_of)
        if any(function.path == other.path for other in self.functions):
            return False
        replacing = [edit for edit in self.edits() if edit.old]
        if any(edit.old and edit.meets(other) for edit in function.edits for other in replacing):
            return False
        self.functions.append(function)
        return True

    def write(self, folder):
        """Writes the copy into a folder."""
        for file, text in self.files().items():
            path = Path(folder) / file
            path.parent.mkdir(parents=True, exist_ok=True)
            path.write_text(text, encoding="utf-8")

    def files(self):
        """Returns the texts of the copy's files by their paths."""
        files = dict(self.crate.texts)
        for file in {edit.file for edit in self.edits()}:
            files[file] = with_edits(self.text_of(file), [edit for edit in self.edits() if edit.file == file])
        for function in self.functions:
            self.put_proof(files, function)
        self.leave_out_others(files)
        return files

    def put_proof(self, files, function):
        """Puts what the proof of a changed function has: its files, and the answers of its body."""
        if function.is_second():
            self.copy_proof(files, function)
        elif not self.keeps_answers:
            files.pop(answers_of(function.path), None)
        folder = proof_folder(function.path)
        if function.body.names_goals():
            file = answers_of(function.path)
            files[file] = self.chosen_answers(function, files.get(file, ""))
        elif function.body.changes_text() and f"{folder}/Proof.antt" not in files:
            # Because of the lemma that isn't proved no answers are offered.
            file = answers_of(function.path)
            files[file] = files.get(file, "") + UNOFFERED

    def copy_proof(self, files, function):
        """Copies the files of a function's proof for its second copy, with that one's name."""
        original = proof_folder(function.body.function)
        before = rf"\b{re.escape(dotted(function.body.function))}\b"
        for path in files_in(files, original):
            if self.keeps_answers or not path.endswith("/Answers.antt"):
                copied = proof_folder(function.path) + path.removeprefix(original)
                files[copied] = re.sub(before, dotted(function.path), files[path])

    def chosen_answers(self, function, written):
        """Returns the text of the answers for a changed function, whose proof has these written ones."""
        body = function.body
        if body.attempts == ():
            return ""
        if body.attempts is None and not body.tactic and body.goal in parts_of(written)[1]:
            return only_answer_to(body.goal, written)
        module = f"{self.crate.name}.proofs.{dotted(function.path)}"
        return answers_text(body, function.attribute, self.crate.name, module)

    def leave_out_others(self, files):
        """Leaves out the statements and the proof of each function that isn't changed."""
        sources = sources_in(files)
        modules = modules_of_types(sources)
        folders = folders_in(files)
        for file, text in sources.items():
            for statements in reversed(self.statements_in(file, text, modules)):
                if self.leaves_out(folders, file, statements, text):
                    text = text[: statements.start] + "unreachable!()" + text[statements.end :]
                    self.put_hole(files, statements.path)
            files[file] = text

    def statements_in(self, file, text, modules):
        """Returns the statements of the functions of a source of the copy. The crate keeps those of an unchanged one."""
        if text is self.crate.texts.get(file) and modules == self.crate.modules:
            return self.crate.statements[file]
        return statements_in(text, module_of(file), modules)

    def leaves_out(self, folders, file, statements, text):
        """Returns whether a function of the copy, which has these folders, isn't changed, and can do without its
        statements."""
        *owner, name = statements.path.split("::")
        if name in {function.path.split("::")[-1] for function in self.functions}:
            return False
        # A function with a closure that has a separate proof stays as it is.
        if proof_folder("::".join([*owner, "fn", name])) in folders:
            return False
        changed = [edit.new for edit in self.edits() if edit.file == file]
        return not any(new in text[statements.start : statements.end] for new in changed)

    def put_hole(self, files, path):
        """Puts a hole in place of the proof of a function."""
        folder = proof_folder(path)
        for name in ("Answers.antt", "Invariants.antt"):
            files.pop(f"{folder}/{name}", None)
        module = f"{self.crate.name}.proofs.{dotted(path)}"
        files[f"{folder}/Proof.antt"] = HOLE.format(module=module, name=path.split("::")[-1])


def dotted(path):
    """Returns the path of a function as the prover's files write it."""
    return path.replace("::", ".")


def proof_folder(path):
    """Returns the folder of a function's proof, below that of its crate."""
    return f"proofs/{path.replace('::', '/')}"


def answers_of(path):
    """Returns the file of the written answers of a function."""
    return f"{proof_folder(path)}/Answers.antt"


def files_in(files, folder):
    """Returns those of some files that are in a folder, without those of the folders in it."""
    return [file for file in files if file.rpartition("/")[0] == folder]


@cache
def folders_above(file):
    """Returns the folders that a file is in."""
    return {str(folder) for folder in PurePosixPath(file).parents}


def folders_in(files):
    """Returns the folders that have some of these files, and the folders that have those."""
    return set().union(*map(folders_above, files))
