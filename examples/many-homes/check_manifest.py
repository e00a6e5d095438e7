#!/usr/bin/env python3
"""Shows that Kubernetes' own types know each member of the manifest, without a cluster.

    python3 examples/many-homes/check_manifest.py

It has kubectl read indexed_job.yaml into its types, change the image and print it again (`--local`): a member that they do not know,
or of another type, is lost on the way or refused. Each member has to come back as it went in, but for the image; and with one
name misspelt, one after the other, that one has to be lost. Whether a cluster would take the values it cannot tell. It wants
kubectl and PyYAML (Debian's python3-yaml is for /usr/bin/python3). Ends with 1 where something is otherwise.
"""
import argparse
import json
import os
import subprocess
import sys
from collections.abc import Iterator
from typing import Any

import yaml

MANIFEST = os.path.join(os.path.dirname(os.path.abspath(__file__)), "indexed_job.yaml")
IMAGE = "another:1"
FREE = ("apiVersion", "kind", "name", "cpu", "memory")  # members that are needed to read it, or of any name
COMMAND = ["kubectl", "set", "image", "--local", "-f", "-", f"play={IMAGE}", "-o", "json"]


def read_again(manifest: Any) -> Any:
    """The manifest as kubectl prints it, or none where it refuses it."""
    told = subprocess.run(COMMAND, input=json.dumps(manifest), capture_output=True, text=True)
    return json.loads(told.stdout) if told.returncode == 0 and told.stdout else None


def lost(before: Any, after: Any, path: str = "") -> Iterator[str]:
    """The paths of what does not come back as it went in."""
    if isinstance(before, dict) and isinstance(after, dict):
        for name, value in before.items():
            yield from lost(value, after.get(name), f"{path}/{name}")
    elif isinstance(before, list) and isinstance(after, list) and len(before) == len(after):
        for k, (value, other) in enumerate(zip(before, after)):
            yield from lost(value, other, f"{path}/{k}")
    elif before != after and not (path.endswith("/image") and after == IMAGE):
        yield path


def misspelt(value: Any, path: str = "") -> Iterator[tuple[str, Any]]:
    """The value with one name of a member misspelt, once for each name, and the path of it."""
    if isinstance(value, dict):
        for name, part in value.items():
            if name not in FREE:
                yield f"{path}/{name}x", {(f"{it}x" if it == name else it): other for it, other in value.items()}
            for where, other in misspelt(part, f"{path}/{name}"):
                yield where, {**value, name: other}
    elif isinstance(value, list):
        for k, part in enumerate(value):
            for where, other in misspelt(part, f"{path}/{k}"):
                yield where, value[:k] + [other] + value[k + 1 :]


def main() -> None:
    argparse.ArgumentParser(description=__doc__, formatter_class=argparse.RawDescriptionHelpFormatter).parse_args()
    with open(MANIFEST, encoding="utf-8") as stored:
        manifest = yaml.safe_load(stored)
    again = read_again(manifest)
    gone = list(lost(manifest, again)) if again else ["all of it"]
    count = 0
    for path, other in misspelt(manifest):
        count += 1
        told = read_again(other)
        if told is not None and path not in list(lost(other, told)):
            gone.append(f"{path}, which is misspelt, is not lost")
    print("\n".join(f"otherwise: {path}" for path in gone) or f"each member is known; {count} misspelt ones are not")
    sys.exit(bool(gone))


if __name__ == "__main__":
    main()
