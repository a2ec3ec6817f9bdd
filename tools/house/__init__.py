"""Counts what the repository has, and bounds it: __main__.py has the options."""
