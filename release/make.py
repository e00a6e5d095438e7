"""Makes the packages of a release, from a proved tree, each twice: they have to be the same bytes.

    python3 -m release.make FOLDER --log LOG [--trial]
    python3 -m release.make FOLDER --unproved
    python3 -m release.make FOLDER --built

LOG is what `rt ci --anew` printed in this tree; `python3 -m dev.proved_libraries` then set the
marks by which rattle takes what the gate left. Into FOLDER come, for x86-64 and aarch64,

    lazbendix-VERSION-MACHINE-linux.tar.gz      all, to unpack anywhere
    lazbendix_VERSION_MACHINE.deb               the Debian package
    lazbendix-VERSION-py3-none-..MACHINE.whl    the wheel, for glibc and musl
    lazbendix-VERSION.crate                     the crate, with the library for both machines
    Containerfile                               a container of the Debian package
    RELEASE NOTICES certificate lazbendix.spdx.json SHA256SUMS

The version is that of the file VERSION, and a part of CHANGELOG.md has its name. Without a licence
(LICENSE at the top) nothing is made that could be published: --trial makes packages that say
`trial` in their version. --unproved makes them of an unproved build, for who works on them: they
say `unproved`. --built makes those for x86-64 of what the gate and library/build.sh left, with no
static program and no certificate, to try them behind the gate: they say `trial`.

--once makes them once; --parts FOLDER keeps what was compiled, and takes it from there, so that it
is compiled once; --debian FOLDER keeps Debian's packages.

Ends with 1 and a line `release: ..` where something is missing or does not belong together.
"""
import argparse
import datetime
import filecmp
import os
import re
import shutil
import subprocess
import sys
import tempfile
from concurrent.futures import ThreadPoolExecutor

from release import certificate
from release.certificate import Refused
from release.machines import MACHINES, ROOT, Debian, NotMade, Parts, sum_of, version
from release.packages import Release, make_all

LICENCES = ("LICENSE", "LICENCE", "LICENSE.md", "LICENSE.txt", "COPYING")


def git(*words: str) -> str:
    ran = subprocess.run(["git", *words], cwd=ROOT, capture_output=True, text=True)
    if ran.returncode:
        raise Refused(f"git {' '.join(words)}: {ran.stderr.strip()}")
    return ran.stdout.strip()


def reader() -> argparse.ArgumentParser:
    words = argparse.ArgumentParser(
        description=__doc__, formatter_class=argparse.RawTextHelpFormatter
    )
    words.add_argument("folder")
    for name in ("log", "parts", "debian"):
        words.add_argument(f"--{name}")
    for name in ("trial", "unproved", "built", "once"):
        words.add_argument(f"--{name}", action="store_true")
    return words


def release_of(given: argparse.Namespace, room: str) -> Release:
    """What the release is about. Raises `Refused` where it may not be."""
    if [given.unproved, given.built, given.log is not None].count(True) != 1:
        raise Refused("name the gate's log by --log, or say --unproved or --built")
    of = version()
    if not re.fullmatch(r"[0-9]+\.[0-9]+\.[0-9]+", of):
        raise Refused(f"VERSION says '{of}', and not a number as 1.2.3")
    with open(f"{ROOT}/CHANGELOG.md", encoding="utf-8") as file:
        if f"## {of}\n" not in file.read():
            raise Refused(f"CHANGELOG.md has no part '## {of}'")
    licence = next((it for name in LICENCES if os.path.isfile(it := f"{ROOT}/{name}")), None)
    if licence is None and not (given.trial or given.unproved or given.built):
        raise Refused(
            "no licence is chosen, and the owner has to, in a file LICENSE at the top; "
            "--trial makes packages that are not to be published"
        )
    commit = git("rev-parse", "HEAD")
    moment = int(git("log", "-1", "--format=%ct"))
    if given.log is not None:
        if changed := git("status", "--porcelain"):
            raise Refused(f"files are changed or new since commit {commit[:12]}: {changed}")
        if not os.path.isfile(given.log):
            raise Refused(f"there is no log at {given.log} (rt ci --anew >{given.log} 2>&1)")
        proved = git("log", "-1", "--format=%ct %H", "--", "crates", "crates.txt", "HANDLES")
        if os.path.getmtime(given.log) < int(proved.split()[0]):
            changed = proved.split()[1][:12]
            raise Refused(f"the gate's log is older than commit {changed}, which changes crates")
    mark = "unproved" if given.unproved else "trial" if given.trial or given.built else ""
    files = git("ls-files").split("\n")
    return Release(of, mark, commit, moment, os.path.realpath(given.folder), room, licence, files)


def papers_of(
    release: Release, log: str | None, parts: Parts, debian: list[tuple[str, ...]]
) -> dict[str, str]:
    """RELEASE, the certificate, and the list of what is in it."""
    when = datetime.datetime.fromtimestamp(release.moment, datetime.UTC).strftime(
        "%Y-%m-%dT%H:%M:%SZ"
    )
    proved = "each crate proved; certificate has their checksums, and release/verify.sh checks them"
    lines = [f"lazbendix {release.marked('-')}", f"commit {release.commit} of {when}"]
    lines += [f"proof: {'NONE is certified' if log is None else proved}"]
    lines += [f"kit: {certificate.kit_of(parts.kit)['kit']}"]
    if release.licence is None:
        lines += ["licence: NONE is chosen. For trial alone, and not to be handed on."]
    musl = ""
    if debian:
        paper = f"{parts.debian}/debian-amd64/root/usr/share/doc/musl/copyright"
        with open(paper, encoding="utf-8") as it:
            musl = it.read()
    return {
        "NOTICES": certificate.notices(parts, musl),
        "RELEASE": "\n".join(lines) + "\n",
        "certificate": certificate.certificate(
            release.marked("-"), release.commit, log, parts, debian
        ),
        "lazbendix.spdx.json": certificate.spdx(
            release.marked("-"), release.commit, when, release.licence, parts, debian
        ),
    }


def plays(program: list[str]) -> bool:
    """Whether a program plays the first example as it stands."""
    with open(f"{ROOT}/examples/one-light.json", "rb") as script:
        ran = subprocess.run([*program, "replay"], stdin=script, capture_output=True)
    with open(f"{ROOT}/examples/one-light.record", "rb") as record:
        return bool(ran.stdout == record.read())


def tried(parts: dict[str, str]) -> None:
    """Has each program play a day, that of the other machine by qemu."""
    for name, at in parts.items():
        qemu = f"qemu-{name}-static"
        before = [] if name == os.uname().machine else [qemu] if shutil.which(qemu) else None
        if before is None:
            print(f"release: {qemu} is not there: the program for {name} was not tried")
        elif not plays([*before, f"{at}/hub_main-static"]):
            raise Refused(
                f"the program for {name} does not play examples/one-light.json as it stands"
            )


def compiled(given: argparse.Namespace, parts: Parts, commit: str) -> dict[str, str]:
    """Compiles for each machine, or takes what is there; returns the folders. Raises `Refused`
    where what is there is not of this commit, and a proof of it is claimed."""
    if given.built:
        return {"x86_64": parts.take_built()}
    verdicts = f"{parts.room}/verdicts"
    of = f"{commit} {'unproved' if given.unproved else 'proved'}"
    if not os.path.isfile(verdicts):
        # (rattle keeps its work beside a crate, so what is proved is made in turn)
        with ThreadPoolExecutor(2 if given.unproved else 1) as pool:
            if given.unproved:
                caught = [parts.module_of_program, parts.module_of_library]
                for module in [pool.submit(it) for it in caught]:
                    module.result()
            list(pool.map(parts.make, MACHINES.values()))
        with open(verdicts, "w", encoding="utf-8") as file:
            file.write(f"{of}\n")
            file.writelines(f"{name}\t{line}\n" for name, line in parts.verdicts.items())
    with open(verdicts, encoding="utf-8") as file:
        if file.readline().rstrip("\n") != of and not given.unproved:
            raise Refused(f"what {parts.room} has was not compiled of the proved commit {commit}")
        parts.verdicts = dict(line.rstrip("\n").split("\t") for line in file)
    return {name: f"{parts.room}/{name}" for name in MACHINES}


def made_once(given: argparse.Namespace, log: str | None, room: str, folder: str) -> list[str]:
    """Compiles, and makes every package in a folder; returns their names."""
    release = release_of(given, f"{room}/packing")
    release.folder = folder
    if log is not None:  # (before anything is compiled)
        certificate.proofs_of(log, Parts(f"{room}/none", room, True))
    parts = Parts(given.parts or f"{room}/parts", given.debian or f"{room}/debian", given.unproved)
    found = compiled(given, parts, release.commit)
    tried(found)
    debian: list[tuple[str, ...]] = [
        (name, of, machine.debian, digest)
        for machine in MACHINES.values()
        for name, of, digest in Debian(machine, parts.debian).packages()
    ]
    release.papers = papers_of(release, log, parts, [] if given.built else debian)
    made = make_all(release, found)
    with open(f"{folder}/SHA256SUMS", "w", encoding="utf-8") as file:
        file.writelines(f"{sum_of(it)}  {os.path.basename(it)}\n" for it in sorted(made))
    return [*made, f"{folder}/SHA256SUMS"]


def main() -> None:
    given = reader().parse_args()
    log = os.path.realpath(given.log) if given.log else None
    with tempfile.TemporaryDirectory(prefix="release-") as room:
        release_of(given, room)  # (refuses, where it has to, before anything is made)
        made = made_once(given, log, f"{room}/first", f"{room}/first/made")
        if not given.once:
            given.debian = given.debian or f"{room}/first/debian"
            again = made_once(given, log, f"{room}/second", f"{room}/second/made")
            for one, other in zip(made, again):
                if not filecmp.cmp(one, other, shallow=False):
                    raise Refused(f"made twice, {os.path.basename(one)} is not the same")
        os.makedirs(given.folder, exist_ok=True)
        for path in made:
            shutil.copy(path, given.folder)
            print(f"{os.path.getsize(path):>9} {os.path.basename(path)}")


if __name__ == "__main__":
    try:
        main()
    except (Refused, NotMade) as why:
        sys.exit(f"release: {why}")
