"""Decides which of a crate's bodies a run tries."""
from dataclasses import dataclass

from .kept import KeptRefusals, Refusal
from .records import is_drawn, records_of, write_records
from .scheduling import Selection, tried

# The characters of a reason that are kept.
LONGEST = 140


@dataclass
class Choice:
    """The bodies of a crate that a run tries, those that this machine has refused before (each with its refusal), those that
    are recorded and not drawn, and the digests of all by their names."""

    to_try: Selection
    kept: list
    undrawn: list
    digests: dict


class Chooser:
    """Chooses by the refusals that this machine keeps, and by those that the repository records; among the latter it draws by
    a seed, if it has one."""

    def __init__(self, inputs, prover, seed=None):
        self.inputs = inputs
        self.prover = prover
        self.seed = seed

    def store(self, crate):
        """Returns what is kept of a crate."""
        return KeptRefusals(crate, self.prover)

    def choice(self, selection, takes_all=False):
        """Returns what a run does with the bodies of a selection. `takes_all` has all of them tried."""
        crate = selection.crate
        digests = self.inputs.digests(crate, selection.bodies)
        choice = Choice(Selection(crate, []), [], [], digests)
        store = self.store(crate)
        records = {} if self.seed is None else records_of(crate)
        for body in selection.bodies:
            refusal = store.get(digests[body.name])
            is_recorded = records.get(body.name) == digests[body.name]
            if takes_all:
                choice.to_try.bodies.append(body)
            elif refusal:
                choice.kept.append((body, refusal))
            elif is_recorded and not is_drawn(self.seed, crate, body):
                choice.undrawn.append(body)
            else:
                choice.to_try.bodies.append(body)
        return choice

    def tried(self, choice):
        """Tries the bodies of a choice, and keeps the refusals. Returns the results."""
        outcomes = tried(choice.to_try)
        refused = [it for it in outcomes if it.reason]
        refusals = {choice.digests[it.function.body.name]: Refusal(it.reason[:LONGEST], round(it.seconds, 1)) for it in refused}
        self.store(choice.to_try.crate).keep(refusals)
        return outcomes

    def record(self, selection):
        """Records the refusals that are kept of a crate, and keeps the records that still hold. Returns how many of its bodies
        are kept, and how many recorded."""
        crate = selection.crate
        digests = self.inputs.digests(crate, selection.bodies)
        store = self.store(crate)
        kept = {name for name, digest in digests.items() if store.get(digest)}
        records = records_of(crate)
        recorded = {name: digest for name, digest in digests.items() if name in kept or records.get(name) == digest}
        write_records(crate, recorded)
        return len(kept), len(recorded)
