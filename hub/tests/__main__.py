"""Runs the tests: all that can be, and says what cannot.

    python3 -m tests [-v] [-j N] [TEST ..]

A module of tests that wants a package which is not there is passed over, and named, as are the
tests that want mosquitto or chromium. A test is named as unittest does: tests.test_live. With -j so
many modules run at the same time, each in a process of its own; they wait more than they work.
"""
import argparse
import importlib
import os
import subprocess
import sys
import time
import unittest
from concurrent.futures import ThreadPoolExecutor

PACKAGES = ("paho", "aiohttp", "croniter", "yaml", "prometheus_client")
FOLDER = os.path.dirname(os.path.abspath(__file__))
# The modules that take longest, which begin first.
LONGEST = ("test_race", "test_process", "test_page", "test_live", "test_kills", "test_day",
           "test_assistant")


def main() -> int:
    """Runs them; the status."""
    words = argparse.ArgumentParser(prog="python3 -m tests")
    words.add_argument("-v", action="store_true", help="names each test")
    words.add_argument("-j", type=int, default=1, metavar="N", help="modules at the same time")
    words.add_argument("tests", nargs="*", metavar="TEST")
    asked = words.parse_args()
    if asked.tests and asked.j == 1:
        return run(asked.tests, asked.v)
    names = asked.tests or [f"tests.{name}" for name in modules()]
    if asked.j == 1:
        return run(names, asked.v)
    with ThreadPoolExecutor(asked.j) as pool:
        statuses = list(pool.map(lambda name: apart(name, asked.v), names))
    wrong = [name for name, status in zip(names, statuses) if status]
    print(f"hub: {len(names)} modules of tests, {len(wrong)} with failures: {' '.join(wrong)}")
    return 1 if wrong else 0


def modules() -> list[str]:
    """The modules of tests, those that take long first."""
    names = {file[:-3] for file in os.listdir(FOLDER)
             if file.startswith("test_") and file.endswith(".py")}
    return [*(name for name in LONGEST if name in names), *sorted(names - {*LONGEST})]


def apart(name: str, is_verbose: bool) -> int:
    """Runs a module in a process of its own, and shows what it says when it ends."""
    begin = time.monotonic()
    words = [sys.executable, "-W", "ignore::ResourceWarning", "-m", "tests", name]
    ran = subprocess.run([*words, *(["-v"] if is_verbose else [])], stdout=subprocess.PIPE,
                         stderr=subprocess.STDOUT, text=True, errors="replace")
    took = time.monotonic() - begin
    print(f"hub: {name}, {took:.0f} s:\n{ran.stdout.strip()}", flush=True)
    return ran.returncode


def run(names: list[str], is_verbose: bool) -> int:
    """Runs these tests here; the status."""
    loader, suite, unread = unittest.TestLoader(), unittest.TestSuite(), list[str]()
    for name in names:
        try:
            importlib.import_module(".".join(name.split(".")[:2]))
        except ModuleNotFoundError as error:
            if (error.name or "").partition(".")[0] not in PACKAGES:
                raise
            unread.append(f"{name} wants {error.name}")
            continue
        suite.addTest(loader.loadTestsFromName(name))
    for each in unread:
        print(f"hub: not run: {each}", flush=True)
    if unread and not suite.countTestCases():
        return 0
    result = unittest.TextTestRunner(verbosity=2 if is_verbose else 1).run(suite)
    for test, why in result.skipped:
        print(f"hub: not run: {test}: {why}", flush=True)
    return 0 if result.wasSuccessful() and result.testsRun else 1


if __name__ == "__main__":
    sys.exit(main())
