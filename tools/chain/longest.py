"""Finds the chain of crates that bounds the time of a gate on any number of processors."""
from .watching import Task


def total(tasks, seconds):
    """Returns the seconds of some tasks."""
    return sum(seconds.get(task, 0.0) for task in tasks)


def longest_chain(crates, seconds):
    """Returns the tasks that have to be done one after another and take the longest together. A crate's proof, and that of
    its tests, wait for the proofs of the crates on which it depends."""
    proofs = {}

    def longer(chains):
        """Returns the longest of some chains."""
        return max(chains, key=lambda it: total(it, seconds), default=[])

    def below(crate):
        """Returns the chain for which a crate waits."""
        return longer([proof(it) for it in crate.dependencies])

    def proof(crate):
        """Returns the chain that ends with the proof of a crate."""
        if crate.name not in proofs:
            proofs[crate.name] = [*below(crate), Task(crate.name)]
        return proofs[crate.name]

    tests = [[*below(crate), Task(crate.name, True)] for crate in crates.values()]
    return [task for task in longer([*map(proof, crates.values()), *tests]) if task in seconds]
