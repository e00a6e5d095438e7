"""The version, and what is installed here."""
import importlib.metadata
import importlib.util
import os
import platform
import shutil

from lazbendix.program import NoProgram, found_program, kept_call
from lazbendix.reference.calls import BytesSink, BytesSource, Call

# in a checkout, the version of the whole
VERSION = os.path.join(os.path.dirname(os.path.abspath(__file__)), "..", "..", "VERSION")
CHROMIUMS = ("chromium", "chromium-browser", "google-chrome")
DAY = b"""{"safehome": 2,
 "devices": [{"name": "lamp", "states": ["off", "on"], "start": "off", "down": [[2, 3]]}],
 "routines": [{"name": "light", "commands": [
  {"on": "lamp", "do": "set", "to": "on"}, {"on": "lamp", "do": "load"},
  {"on": "lamp", "do": "set", "to": "off", "when": {"is": 1}}]}],
 "windows": [{"at": "2021-04-26T07:00", "probes": 1,
  "runs": [{"routine": "light"}, {"routine": "light"}]}]}
"""


def version() -> str:
    """The version of the package."""
    if not os.path.isfile(VERSION):
        return importlib.metadata.version("lazbendix")
    with open(VERSION, encoding="utf-8") as file:
        return file.read().strip()


def library_place() -> str | None:
    """Where the library's shared object is, for makers of hubs; none where it is not."""
    try:
        from lazbendix._calls import LIBRARY
    except (ImportError, OSError):
        return None
    return str(LIBRARY._name)


def findings() -> list[tuple[str, bool | None, str]]:
    """What is looked for: its name, whether it is as it should be (none where nothing hangs on it),
    and words."""
    told: list[tuple[str, bool | None, str]] = [("lazbendix", True, version())]
    told.append(("Python", True, f"{platform.python_version()} on {platform.machine()}"))
    try:
        program = found_program()
        words = (
            program
            or "none: the reference plays; LAZBENDIX_PROGRAM may name one, or hub_main be on the "
            "path"
        )
        told.append(("proved program", True if program else None, words))
        told += plays_as_the_reference() if program else []
    except NoProgram as why:
        told.append(("proved program", False, str(why)))
    browser = next((found for name in CHROMIUMS if (found := shutil.which(name))), None)
    yaml = "for --yaml" if importlib.util.find_spec("yaml") else None
    wanted = [
        ("library", library_place(), "none: only makers of hubs want it (library/README.md)"),
        ("PyYAML", yaml, "none: --yaml wants it"),
        ("browser", browser, "none was found: any browser of today shows the page of `view`"),
    ]
    return told + [(name, True if found else None, found or why) for name, found, why in wanted]


def plays_as_the_reference() -> list[tuple[str, bool | None, str]]:
    """Whether the program plays a small day as the reference does."""
    told: list[tuple[str, bool | None, str]] = []
    modes: list[list[str]] = [[], ["--model", "psv"], ["--scheduler", "timeline"]]
    for mode in modes:
        words, sink = ["replay", "--trace", *mode], BytesSink()
        Call(words, BytesSource(DAY), sink)
        try:
            agrees = kept_call(words, DAY).output == sink.held
        except OSError as why:
            return [("a day is played", False, str(why))]
        if not agrees:
            return [
                ("a day is played", False, f"{' '.join(words)} is otherwise than by the reference")
            ]
    told.append(("a day is played", True, "three times, each as by the reference"))
    return told
