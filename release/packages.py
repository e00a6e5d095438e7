"""The packages of a release: archive, Debian package, wheel and crate.

Each is the same bytes whenever it is made of the same parts and commit.
"""
import base64
import csv
import datetime
import email.utils
import gzip
import hashlib
import io
import os
import shutil
import subprocess
import tarfile
import tomllib
import zipfile
from dataclasses import dataclass, field

from release.machines import HERE, MACHINES, PROGRAM, ROOT, Machine, NotMade, run

SHORT = "Plays days of a smart home through a proved hub, and shows what came of them"
MAINTAINER = "Lazbendix <lazbendix@localhost>"  # the owner's to set
WHEELS = "manylinux_2_17_{0}.manylinux2014_{0}.musllinux_1_1_{0}"
SHARES = {  # where a shell looks for completions
    "bash": "bash-completion/completions/lazbendix",
    "zsh": "zsh/vendor-completions/_lazbendix",
    "fish": "fish/vendor_completions.d/lazbendix.fish",
}


@dataclass
class Release:
    """What a release is about."""

    version: str
    mark: str  # "", "trial" or "unproved"
    commit: str
    moment: int  # of the commit, s since 1970
    folder: str  # where the packages go
    room: str
    licence: str | None
    files: list[str] = field(default_factory=list)  # of the repository, by their paths
    papers: dict[str, str] = field(
        default_factory=dict
    )  # RELEASE, certificate and SBOM: their texts

    def marked(self, sign: str) -> str:
        """The version with the mark of what is not to be published."""
        return self.version + (f"{sign}{self.mark}" if self.mark else "")

    @property
    def major(self) -> str:
        return self.version.split(".")[0]


# -- Folders that become packages


def put(text: str, to: str, mode: int = 0o644) -> None:
    """Writes a text."""
    os.makedirs(os.path.dirname(to), exist_ok=True)
    with open(to, "w", encoding="utf-8") as file:
        file.write(text)
    os.chmod(to, mode)


def put_file(path: str, to: str, mode: int = 0o644) -> None:
    """Copies a file."""
    os.makedirs(os.path.dirname(to), exist_ok=True)
    shutil.copyfile(path, to)
    os.chmod(to, mode)


def filled(name: str, **words: str) -> str:
    """A text of this folder with its @WORDS@ filled in."""
    with open(f"{HERE}/{name}", encoding="utf-8") as file:
        text = file.read()
    for word, by in words.items():
        text = text.replace(f"@{word}@", by)
    return text


def put_package(release: Release, to: str) -> None:
    """The Python package, with the reference in it."""
    for path in release.files:
        if path.startswith("python/lazbendix/") and not path.startswith(
            "python/lazbendix/reference/"
        ):
            put_file(f"{ROOT}/{path}", f"{to}/{path.removeprefix('python/')}")
        elif path.startswith("reference/") and path.endswith(".py"):
            put_file(f"{ROOT}/{path}", f"{to}/lazbendix/{path}")


def put_library(release: Release, parts: str, lib: str, up: str, to: str) -> None:
    """The library: archive, shared object, header, and what pkg-config and CMake read. `lib` is its
    folder below `to`, from which `up` leads to where include/ is."""
    soname = f"liblazbendix.so.{release.major}"
    put_file(f"{parts}/{soname}", f"{to}/{lib}/liblazbendix.so.{release.version}")
    os.symlink(f"liblazbendix.so.{release.version}", f"{to}/{lib}/{soname}")
    os.symlink(soname, f"{to}/{lib}/liblazbendix.so")
    put_file(f"{parts}/liblazbendix.a", f"{to}/{lib}/liblazbendix.a")
    include = os.path.normpath(f"{to}/{lib}/{up}/include")
    put_file(f"{ROOT}/library/lazbendix.h", f"{include}/lazbendix.h")
    words = {"VERSION": release.version, "MAJOR": release.major}
    pc = filled("lazbendix.pc.in", UP=f"../{up}", LIBDIR="${pcfiledir}/..", **words)
    put(pc, f"{to}/{lib}/pkgconfig/lazbendix.pc")
    for name in ("lazbendixConfig.cmake", "lazbendixConfigVersion.cmake"):
        put(filled(f"{name}.in", UP=f"../../{up}", **words), f"{to}/{lib}/cmake/lazbendix/{name}")


def told(release: Release, *words: str) -> str:
    """What the command lazbendix of the repository says, without the program."""
    how = {"PATH": "/usr/bin:/bin", "PYTHONPATH": f"{ROOT}/python", "PYTHONDONTWRITEBYTECODE": "1"}
    how |= {"LC_ALL": "C.UTF-8", "COLUMNS": "80"}
    said = subprocess.run(
        ["python3", "-m", "lazbendix", *words], env=how, capture_output=True, text=True
    )
    if said.returncode:
        raise NotMade(f"lazbendix {' '.join(words)}: {said.stderr}")
    return said.stdout


def put_words(release: Release, share: str) -> None:
    """The man page, packed, and the completions of shells."""
    page = told(release, "man").encode()
    os.makedirs(f"{share}/man/man1", exist_ok=True)
    with open(f"{share}/man/man1/lazbendix.1.gz", "wb") as file:
        file.write(gzip.compress(page, 9, mtime=0))
    for shell, place in SHARES.items():
        put(told(release, "completions", shell), f"{share}/{place}")


def put_papers(release: Release, to: str) -> None:
    """What tells of the release itself."""
    for name, text in release.papers.items():
        put(text, f"{to}/{name}")
    if release.licence:
        put_file(release.licence, f"{to}/{os.path.basename(release.licence)}")


# -- The archive


def make_archive(release: Release, machine: Machine, parts: str) -> str:
    """Makes the archive, and returns its name."""
    name = f"lazbendix-{release.marked('-')}-{machine.name}-linux"
    to = f"{release.room}/{name}"
    put_file(f"{parts}/{PROGRAM}-static", f"{to}/bin/{PROGRAM}", 0o755)
    put_file(f"{parts}/{PROGRAM}", f"{to}/bin/{PROGRAM}-glibc", 0o755)
    put_library(release, parts, "lib", "..", to)
    put_words(release, f"{to}/share")
    kept = ("README.md", "CHANGELOG.md", "VERSION", "lazbendix")
    folders = ("docs/", "examples/", "reference/", "python/", "library/", "bench/", "release/")
    for path in release.files:
        if (
            path in kept
            or path.startswith(folders)
            or path.startswith("crates/")
            and path.endswith("README.md")
        ):
            mode = 0o755 if os.access(f"{ROOT}/{path}", os.X_OK) else 0o644
            put_file(f"{ROOT}/{path}", f"{to}/{path}", mode)
    put_papers(release, to)
    lines = []
    for at, folders_in, names in os.walk(to):
        folders_in.sort()
        for file in sorted(names):
            path = f"{at}/{file}"
            if not os.path.islink(path):
                with open(path, "rb") as it:
                    lines.append(
                        f"{hashlib.sha256(it.read()).hexdigest()}  {os.path.relpath(path, to)}\n"
                    )
    put("".join(sorted(lines, key=lambda line: line.split("  ")[1])), f"{to}/SHA256SUMS")
    made = f"{release.folder}/{name}.tar.gz"
    held = io.BytesIO()
    with tarfile.open(fileobj=held, mode="w", format=tarfile.USTAR_FORMAT) as tar:
        add(tar, to, name, release.moment)
    with open(made, "wb") as out:
        out.write(gzip.compress(held.getvalue(), 9, mtime=0))
    return made


def add(tar: tarfile.TarFile, path: str, name: str, moment: int) -> None:
    """Adds a file, or a folder with all in it, by name."""
    info = tar.gettarinfo(path, name)
    info.mtime, info.uid, info.gid, info.uname, info.gname = moment, 0, 0, "", ""
    info.mode = 0o755 if info.isdir() or info.mode & 0o100 else 0o644
    if info.isreg():
        with open(path, "rb") as file:
            tar.addfile(info, file)
        return
    tar.addfile(info)
    if info.isdir():
        for it in sorted(os.listdir(path)):
            add(tar, f"{path}/{it}", f"{name}/{it}", moment)


# -- The Debian package

LAUNCHER = """#!/usr/bin/python3
import sys

from lazbendix.command import main

sys.exit(main(sys.argv[1:]))
"""
POSTINST = """#!/bin/sh
set -e
if [ "$1" = configure ] && command -v py3compile >/dev/null; then
    py3compile -p lazbendix || true
fi
"""
# (what is as it is meant to be, to lintian)
OVERRIDES = """# the very program that the gate proved, built and ran
lazbendix: unstripped-binary-or-object [usr/libexec/lazbendix/hub_main]
# one package has the command, the library and what compilers read
lazbendix: package-name-doesnt-match-sonames *
lazbendix: link-to-shared-library-in-wrong-package *
"""
PRERM = """#!/bin/sh
set -e
if command -v py3clean >/dev/null; then py3clean -p lazbendix || true; fi
"""


def changes_of(release: Release, version: str) -> bytes:
    """The changelog that Debian's tools read, packed."""
    moment = datetime.datetime.fromtimestamp(release.moment, datetime.UTC)
    text = f"""lazbendix ({version}) unstable; urgency=medium

  * What is new stands in CHANGELOG.md beside this file.

 -- {MAINTAINER}  {email.utils.format_datetime(moment)}
"""
    return gzip.compress(text.encode(), 9, mtime=0)


def make_deb(release: Release, machine: Machine, parts: str) -> str:
    """Makes the Debian package, and returns its name."""
    version = release.marked("~")
    to = f"{release.room}/deb-{machine.debian}"
    python = "usr/lib/python3/dist-packages"
    put(LAUNCHER, f"{to}/usr/bin/lazbendix", 0o755)
    put_file(f"{parts}/{PROGRAM}", f"{to}/usr/libexec/lazbendix/{PROGRAM}", 0o755)
    put_package(release, f"{to}/{python}")
    os.makedirs(f"{to}/{python}/lazbendix/bin")
    os.symlink(
        f"../../../../../libexec/lazbendix/{PROGRAM}", f"{to}/{python}/lazbendix/bin/{PROGRAM}"
    )
    os.symlink(
        f"../../../{machine.gnu}/liblazbendix.so.{release.major}",
        f"{to}/{python}/lazbendix/liblazbendix.so",
    )
    about = f"{to}/{python}/lazbendix-{release.marked('+')}.dist-info"
    put(metadata(release), f"{about}/METADATA")
    put("Debian\n", f"{about}/INSTALLER")
    put_library(release, parts, f"usr/lib/{machine.gnu}", "../..", to)
    put_words(release, f"{to}/usr/share")
    doc = f"{to}/usr/share/doc/lazbendix"
    put_papers(release, doc)
    put(copyright_of(release), f"{doc}/copyright")
    with open(f"{doc}/changelog.gz", "wb") as file:
        file.write(changes_of(release, version))
    put(OVERRIDES, f"{to}/usr/share/lintian/overrides/lazbendix")
    for path in release.files:
        if path in ("README.md", "CHANGELOG.md") or path.startswith(("docs/", "examples/")):
            put_file(f"{ROOT}/{path}", f"{doc}/{path}")
    size = sum(
        os.path.getsize(f"{at}/{name}")
        for at, _, names in os.walk(to)
        for name in names
        if not os.path.islink(f"{at}/{name}")
    )
    sums = [f"{file_sum(f'{to}/{path}', 'md5')}  {path}\n" for path in files_below(to)]
    control = f"""Package: lazbendix
Version: {version}
Architecture: {machine.debian}
Maintainer: {MAINTAINER}
Installed-Size: {(size + 1023) // 1024}
Depends: libc6 (>= 2.34), python3 (>= 3.10)
Suggests: python3-yaml
Section: misc
Priority: optional
Description: smart-home hub core, proved, and a player of days
 {SHORT}.
 It has the command lazbendix, the proved program that it calls, and the proved
 library for hubs in C, C++, Rust and Python, with header, pkg-config and CMake.
"""
    put(control, f"{to}/DEBIAN/control")
    put("".join(sums), f"{to}/DEBIAN/md5sums")
    put(POSTINST, f"{to}/DEBIAN/postinst", 0o755)
    put(PRERM, f"{to}/DEBIAN/prerm", 0o755)
    put("activate-noawait ldconfig\n", f"{to}/DEBIAN/triggers")
    major, minor = release.version.split(".")[:2]
    put(
        f"liblazbendix {major} lazbendix (>= {major}.{minor})\n",
        f"{to}/DEBIAN/shlibs",
    )
    for at, folders, _ in os.walk(to):
        for it in [at, *(f"{at}/{name}" for name in folders)]:
            if not os.path.islink(it):
                os.chmod(it, 0o755)
    made = f"{release.folder}/lazbendix_{version}_{machine.debian}.deb"
    run(
        ["dpkg-deb", "--root-owner-group", "-Zxz", "--build", to, made],
        env={**os.environ, "SOURCE_DATE_EPOCH": str(release.moment), "LC_ALL": "C"},
    )
    return made


def files_below(top: str) -> list[str]:
    """Each file below a folder that is no link, sorted, by its path from there."""
    found = [
        os.path.relpath(f"{at}/{name}", top)
        for at, _, names in os.walk(top)
        for name in names
        if not os.path.islink(f"{at}/{name}")
    ]
    return sorted(found)


def file_sum(path: str, kind: str = "sha256") -> str:
    with open(path, "rb") as file:
        return hashlib.file_digest(file, kind).hexdigest()


def copyright_of(release: Release) -> str:
    if release.licence:
        with open(release.licence, encoding="utf-8") as file:
            return file.read()
    told = "No licence is chosen: the owner has to."
    return f"{told} This package is for trial, and not to be handed on.\n"


# -- The wheel


def metadata(release: Release) -> str:
    """What an installer reads of the package."""
    with open(f"{ROOT}/python/pyproject.toml", "rb") as file:
        project = tomllib.load(file)["project"]
    lines = ["Metadata-Version: 2.1", "Name: lazbendix", f"Version: {release.marked('+')}"]
    lines += [
        f"Summary: {project['description']}",
        f"Requires-Python: {project['requires-python']}",
    ]
    for extra, needs in project.get("optional-dependencies", {}).items():
        lines += [f"Provides-Extra: {extra}"]
        lines += [f'Requires-Dist: {it}; extra == "{extra}"' for it in needs]
    return "\n".join(lines) + "\n"


def make_wheel(release: Release, machine: Machine, parts: str) -> str:
    """Makes the wheel, for glibc and musl, and returns its name."""
    version, tags = release.marked("+"), f"py3-none-{WHEELS.format(machine.name)}"
    to = f"{release.room}/wheel-{machine.name}"
    put_package(release, to)
    put_file(f"{parts}/{PROGRAM}-static", f"{to}/lazbendix/bin/{PROGRAM}", 0o755)
    put_file(f"{parts}/liblazbendix.so", f"{to}/lazbendix/liblazbendix.so", 0o755)
    about = f"lazbendix-{version}.dist-info"
    put(metadata(release), f"{to}/{about}/METADATA")
    each = "".join(f"Tag: py3-none-{it}\n" for it in tags.removeprefix("py3-none-").split("."))
    put(
        f"Wheel-Version: 1.0\nGenerator: lazbendix\nRoot-Is-Purelib: false\n{each}",
        f"{to}/{about}/WHEEL",
    )
    put(
        "[console_scripts]\nlazbendix = lazbendix.command:entry\n", f"{to}/{about}/entry_points.txt"
    )
    put_papers(release, f"{to}/{about}/sboms")
    rows = io.StringIO()
    writer = csv.writer(rows, lineterminator="\n")
    for path in files_below(to):
        with open(f"{to}/{path}", "rb") as file:
            digest = (
                base64.urlsafe_b64encode(hashlib.sha256(file.read()).digest()).rstrip(b"=").decode()
            )
        writer.writerow([path, f"sha256={digest}", os.path.getsize(f"{to}/{path}")])
    writer.writerow([f"{about}/RECORD", "", ""])
    put(rows.getvalue(), f"{to}/{about}/RECORD")
    made = f"{release.folder}/lazbendix-{version}-{tags}.whl"
    with zipfile.ZipFile(made, "w", zipfile.ZIP_DEFLATED, compresslevel=9) as out:
        for path in files_below(to):
            info = zipfile.ZipInfo(path, (1980, 1, 1, 0, 0, 0))
            info.compress_type, info.create_system = zipfile.ZIP_DEFLATED, 3
            info.external_attr = (
                0o100755 if os.access(f"{to}/{path}", os.X_OK) else 0o100644
            ) << 16
            with open(f"{to}/{path}", "rb") as file:
                out.writestr(info, file.read(), compresslevel=9)
    return made


# -- The crate


def make_crate(release: Release, parts: dict[str, str]) -> str:
    """Makes the crate, which has the archive for each machine, and returns its name."""
    to = f"{release.room}/crate"
    for path in release.files:
        if path.startswith("library/rust/") and not path.endswith(".gitignore"):
            put_file(f"{ROOT}/{path}", f"{to}/{path.removeprefix('library/rust/')}")
    with open(f"{to}/Cargo.toml", encoding="utf-8") as file:
        text = file.read()
    stated = f'version = "{release.version}"'
    if stated not in text:
        raise NotMade(f"library/rust/Cargo.toml does not say {stated}, as VERSION does")
    text = text.replace(stated, f'version = "{release.marked("-")}"')
    if release.licence:
        text = text.replace(
            "publish = false\n", f'license-file = "{os.path.basename(release.licence)}"\n'
        )
    put(text, f"{to}/Cargo.toml")
    for name, at in parts.items():
        put_file(f"{at}/liblazbendix.a", f"{to}/native/{name}/liblazbendix.a")
    put_papers(release, to)
    cargo = ["cargo", "package", "--offline", "--allow-dirty", "--no-verify", "--quiet"]
    run([*cargo, "--target-dir", f"{release.room}/target"], to)
    name = f"lazbendix-{release.marked('-')}.crate"
    made = f"{release.folder}/{name}"
    shutil.copyfile(f"{release.room}/target/package/{name}", made)
    return made


def make_all(release: Release, parts: dict[str, str]) -> list[str]:
    """Makes every package, and returns their names."""
    os.makedirs(release.folder, exist_ok=True)
    made = []
    for name, at in parts.items():
        machine = MACHINES[name]
        made += [make_archive(release, machine, at), make_deb(release, machine, at)]
        made += [make_wheel(release, machine, at)]
    if shutil.which("cargo") is None and len(parts) < len(MACHINES):
        print("release: cargo is not there: there is no crate")
    else:
        made.append(make_crate(release, parts))
    for name, text in release.papers.items():
        put(text, f"{release.folder}/{name}")
        made.append(f"{release.folder}/{name}")
    put_file(f"{HERE}/Containerfile", f"{release.folder}/Containerfile")
    made.append(f"{release.folder}/Containerfile")
    return made
