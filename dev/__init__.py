"""What developers of this repository run, each a program of its own: `python3 -m dev.NAME` at its
top.

Those that say so want `PYTHONPATH=python`, where the package lazbendix is not installed.
"""
