"""Tests of the hub: `sh hub/test.sh`."""
import logging

logging.getLogger("asyncio").setLevel(logging.ERROR)  # not each callback that takes 0.1 s
logging.getLogger("lazbendix").setLevel(logging.ERROR)
