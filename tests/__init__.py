"""Tests of the command lazbendix: `sh tests/run.sh` runs them."""
