"""Compares the documents with the program, its sources and each other: __main__.py has the options."""
