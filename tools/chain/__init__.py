"""Prints what the proof of each crate takes, and the chain of crates that bounds a gate. `__main__` describes the command."""
