"""Scripts as people write them, made into the plain JSON that the program reads.

Comments from `//` to the end of their line and the member `$schema` of the day are made into
blanks, byte for byte, so that every place stays where it is. A text without these stays as it is,
also one that is no JSON. YAML is read where PyYAML is installed, and has no places.
"""
import json
import re
from typing import Any

from lazbendix.reference.calls import divided

TOKEN = re.compile(rb'"(?:[^"\\\n]|\\.)*"|//[^\n]*|[\[\]{}]', re.DOTALL)
SCHEMA = re.compile(
    rb'(?P<before>,\s*)?"\$schema"\s*:\s*"(?:[^"\\\n]|\\.)*"(?P<behind>\s*,)?', re.DOTALL
)
DIVIDER = re.compile(rb"(?m)^%%\r?$")


class NoYaml(Exception):
    """Why a text of YAML is not read."""


def blanks(data: bytes) -> bytes:
    """As many blanks; ends of lines stay."""
    return re.sub(rb"[^\r\n]", b" ", data)


def without_comments(data: bytes) -> bytes:
    """The text with blanks for its comments."""

    def kept(found: re.Match[bytes]) -> bytes:
        return blanks(found[0]) if found[0].startswith(b"//") else found[0]

    return TOKEN.sub(kept, data)


def without_schema(data: bytes) -> bytes:
    """The text with blanks for the first member `$schema` of its outermost object, and one comma
    beside it."""
    depth = 0
    for token in TOKEN.finditer(data):
        if token[0] in (b"{", b"["):
            depth += 1
        elif token[0] in (b"}", b"]"):
            depth -= 1
        elif depth == 1 and token[0] == b'"$schema"':
            before = re.search(rb",\s*\Z", data[: token.start()])
            found = SCHEMA.match(data, before.start() if before else token.start())
            if found:
                end = found.end("behind") if found["behind"] else found.end()
                begin = found.start() if not found["behind"] else token.start()
                return data[:begin] + blanks(data[begin:end]) + data[end:]
    return data


def plain_script(data: bytes) -> bytes:
    """The plain JSON of a script, of as many bytes."""
    return without_schema(without_comments(data)) if b"//" in data or b'"$schema"' in data else data


def plain_check(data: bytes) -> bytes:
    """The input of a check, a script, a line `%%` and a record. Where that line ends with a
    carriage return, those of the lines behind it are left out too."""
    found = DIVIDER.search(data)
    if found and found[0].endswith(b"\r"):
        data = data[: found.start()] + b"%%" + data[found.end() :].replace(b"\r\n", b"\n")
    script, _ = divided(data)
    return plain_script(script) + data[len(script) :]


def joined(script: bytes, record: bytes) -> bytes:
    """The input of a check, from a script and a record."""
    return plain_script(script) + b"\n%%\n" + record


def yaml_script(data: bytes) -> bytes:
    """The JSON of a script in YAML. Raises `NoYaml`."""
    try:
        import yaml
    except ImportError:
        raise NoYaml("YAML is read where PyYAML is installed, and it is not here") from None

    # (reads a script's words as JSON has them: `on` and `off` are texts, and so is a time)
    words = {
        letter: [
            (tag, test) for tag, test in resolvers if not tag.endswith((":timestamp", ":bool"))
        ]
        for letter, resolvers in yaml.SafeLoader.yaml_implicit_resolvers.items()
    }
    loader: Any = type("Loader", (yaml.SafeLoader,), {"yaml_implicit_resolvers": words})
    loader.add_implicit_resolver("tag:yaml.org,2002:bool", re.compile("true|false"), list("tf"))
    try:
        value: Any = yaml.load(data, loader)
        return json.dumps(value, indent=2, allow_nan=False).encode() + b"\n"
    except yaml.YAMLError as wrong:
        raise NoYaml(f"no YAML: {wrong}") from None
    except (TypeError, ValueError) as wrong:
        raise NoYaml(f"YAML that is no JSON: {wrong}") from None
