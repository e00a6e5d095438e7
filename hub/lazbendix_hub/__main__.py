"""`python3 -m lazbendix_hub` is the command `lazbendix-hub`."""
import sys

try:
    from lazbendix_hub.command import entry
except ImportError as fault:
    sys.exit(f"lazbendix-hub: {fault}")

entry()
