"""`python3 -m lazbendix` is the command `lazbendix`."""
import sys

from lazbendix.command import main

sys.exit(main(sys.argv[1:]))
