"""The rules of this repository once more, as a program of Python's standard library alone.

README.md beside it says more. The folder has the modules of the package `lazbendix.reference`,
which looks for them here; at the top of the repository it is also the package `reference`. A
program takes its modules by one of the two names, and not by both: each name has modules of its
own.
"""
