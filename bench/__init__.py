"""What measures the program: `python3 -m bench.NAME` at the top of the repository."""
