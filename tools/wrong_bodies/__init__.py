"""Checks that the prover refuses the wrong bodies of crates/*/must-fail. `__main__` describes the command."""
