"""Checks functions of a crate without the libraries below it: __main__.py has the options."""
