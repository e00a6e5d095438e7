"""Rust for x86-64 and aarch64 out of Debian's packages, unpacked in a folder; nothing is installed.

    python3 -m release.rust FOLDER

Leaves there a rustc and a rustdoc for both. They are Debian's rustc-web, because its rustc is older
than the crate wants. Ends with 1 where apt-get brings none.
"""
import os
import re
import sys

from release.machines import MACHINES, Debian, NotMade, run

COMPILER, LIBRARY = "rustc-web", "libstd-rust-web-dev"
PROGRAMS = "rustc", "rustdoc"
BELOW = re.compile(r"^(?:libstd-rust-web-\S+|libllvm\d+)$", re.M)  # what Debian's base has not


def version_of(debian: Debian) -> str:
    """The version of the library for Rust's programs that is there."""
    return next(version for name, version, _ in debian.packages() if name == LIBRARY)


def rust(room: str) -> None:
    """Has compiler and libraries there. Raises `NotMade`."""
    here, other = (Debian(machine, room) for machine in MACHINES.values())
    without = "recommends suggests conflicts breaks replaces enhances".split()
    words = ["depends", "--recurse", *[f"--no-{it}" for it in without], COMPILER]
    said = here.apt("apt-cache", *words)
    here.fetch(COMPILER, *dict.fromkeys(BELOW.findall(said)))
    other.fetch(LIBRARY)
    if version_of(here) != version_of(other):
        raise NotMade(f"{LIBRARY} is {version_of(here)}, and {version_of(other)} for aarch64")
    libraries = f"usr/lib/rustlib/{other.machine.target}"
    if not os.path.lexists(f"{here.root}/{libraries}"):
        os.symlink(f"{other.root}/{libraries}", f"{here.root}/{libraries}")
    compiler = f"{here.root}/usr/lib/{here.machine.gnu}"
    for name in PROGRAMS:
        with open(f"{room}/{name}", "w", encoding="utf-8") as file:
            file.write("#!/bin/sh\n")
            file.write(f'LD_LIBRARY_PATH="{compiler}" exec "{here.root}/usr/bin/{name}" "$@"\n')
        os.chmod(f"{room}/{name}", 0o755)
        run([f"{room}/{name}", "--version"])


if __name__ == "__main__":
    try:
        rust(os.path.realpath(sys.argv[1]))
    except (IndexError, NotMade) as why:
        sys.exit(f"release: {why}" if isinstance(why, NotMade) else __doc__)
