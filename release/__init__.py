"""What makes, checks and tries the packages of a release: `python3 -m release.NAME` at the top of
the repository.
"""
