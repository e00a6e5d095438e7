"""What the packages are made of, for each machine: program and library, compiled and linked.

A proved tree is compiled by `rattle build`, which proves the top crate once more over the proved
libraries below it, for the target that it is told, and has the kit's clang compile the module that
it proved. An unproved one is that of dev/unproved_build.py: the module of `rt try`, with a check
before each step that a proof would have to show. All is linked by the kit's linker. What the kit
has for x86-64 alone (start files, C library) comes from Debian's packages of the other machine,
which `apt-get download` fetches into a folder; nothing is installed.
"""
import hashlib
import os
import re
import shutil
import subprocess
from collections.abc import Callable
from typing import Any, NamedTuple

from dev import unproved_build

HERE = os.path.dirname(os.path.realpath(__file__))
ROOT = os.path.dirname(HERE)
PROGRAM, LIBRARY = "hub_main", "lazbendix_c"
OF_GLIBC = ("libc6", "libc6-dev", "libgcc-12-dev", "libgcc-s1")
OF_MUSL = ("musl", "musl-dev")
HARDENED = ["-z", "relro", "-z", "now", "-z", "noexecstack"]


class NotMade(Exception):
    """Why something was not made."""


class Machine(NamedTuple):
    """A machine by the names that others have for it."""

    name: str  # Rust's and Linux's
    debian: str
    cpu: str  # that of the static program, which tests no processor
    clang: list[str]
    layout: str
    futex: int  # the number of Linux's call

    @property
    def gnu(self) -> str:
        return f"{self.name}-linux-gnu"

    @property
    def musl(self) -> str:
        return f"{self.name}-linux-musl"

    @property
    def target(self) -> str:
        return f"{self.name}-unknown-linux-gnu"


LITTLE = "e-m:e-p270:32:32-p271:32:32-p272:64:64-"
MACHINES = {
    "x86_64": Machine("x86_64", "amd64", "x86-64", ["-march=x86-64"], "", 202),
    "aarch64": Machine(
        "aarch64",
        "arm64",
        "generic",
        ["-march=armv8-a"],
        f"{LITTLE}i8:8:32-i16:16:32-i64:64-i128:128-n32:64-S128-Fn32",
        98,
    ),
}


def run(words: list[str], at: str | None = None, **how: Any) -> str:
    """Runs a command, and returns what it said. Raises `NotMade` where it fails."""
    kept: dict[str, Any] = {"stdout": subprocess.PIPE, "stderr": subprocess.STDOUT}
    ran = subprocess.run(words, cwd=at, stdin=subprocess.DEVNULL, errors="replace", **kept, **how)
    if ran.returncode:
        raise NotMade(f"{' '.join(words)} ended with {ran.returncode}\n{ran.stdout}")
    return str(ran.stdout)


def sum_of(path: str) -> str:
    """The checksum of a file."""
    with open(path, "rb") as file:
        return hashlib.file_digest(file, "sha256").hexdigest()


# -- Debian's packages of a machine


class Debian:
    """Packages of Debian for a machine, unpacked in a folder, beside each other."""

    def __init__(self, machine: Machine, room: str) -> None:
        self.machine, self.room = machine, f"{room}/debian-{machine.debian}"
        self.root = f"{self.room}/root"
        os.makedirs(self.room, exist_ok=True)

    def fetch(self, *names: str) -> None:
        """Has each package there, unpacked."""
        lacking = [name for name in names if not self.found(name)]
        if not lacking:
            return
        self.apt("apt-get", "-q", "download", *lacking)
        for name in lacking:
            run(["dpkg-deb", "-x", f"{self.room}/{self.found(name)}", self.root])

    def apt(self, program: str, *words: str) -> str:
        """Runs a program of apt for this machine, over lists that stand in the folder."""
        for part in ("lists/partial", "cache/archives/partial"):
            os.makedirs(f"{self.room}/{part}", exist_ok=True)
        options = {
            "APT::Architecture": self.machine.debian,
            "APT::Architectures": self.machine.debian,
            "Dir::State::lists": f"{self.room}/lists",
            "Dir::Cache": f"{self.room}/cache",
            "Dir::State::status": "/dev/null",
            "APT::Sandbox::User": "root",
            "Acquire::Languages": "none",
        }
        given = [word for it in options.items() for word in ("-o", "=".join(it))]
        if not any("_Packages" in it for it in os.listdir(f"{self.room}/lists")):
            run(["apt-get", *given, "-q", "update"])
        return run([program, *given, *words], self.room)

    def found(self, name: str) -> str | None:
        """The file of a package, where it is there."""
        mine = f"_{self.machine.debian}.deb"
        named = (
            it for it in os.listdir(self.room) if it.startswith(f"{name}_") and it.endswith(mine)
        )
        return next(named, None)

    def packages(self) -> list[tuple[str, str, str]]:
        """Each package that is there: its name, version and checksum."""
        found = []
        for file in sorted(it for it in os.listdir(self.room) if it.endswith(".deb")):
            name, version, _ = file.split("_")
            found.append((name, version.replace("%3a", ":"), sum_of(f"{self.room}/{file}")))
        return found


# -- The parts


class Parts:
    """Makes the parts of the packages in a folder, for one machine after the other."""

    def __init__(self, room: str, debian: str, unproved: bool) -> None:
        self.room, self.debian, self.unproved = room, debian, unproved
        self.kit: str = unproved_build.KIT
        self.verdicts: dict[str, str] = {}  # of each compilation, the last line of rattle
        os.makedirs(room, exist_ok=True)

    def make(self, machine: Machine) -> str:
        """Makes the parts for a machine, and returns their folder."""
        at = f"{self.room}/{machine.name}"
        os.makedirs(f"{at}/work", exist_ok=True)
        debian = Debian(machine, self.debian)
        debian.fetch(*OF_GLIBC, *OF_MUSL)
        tools = self.tools(machine, debian, f"{at}/toolchain")
        self.make_program(machine, debian, tools, at)
        self.make_library(machine, debian, tools, at)
        return at

    def tools(self, machine: Machine, debian: Debian, at: str) -> str:
        """The folder of tools that rattle and rattle-link want, with the machine's C library."""
        if machine.name == "x86_64":
            return f"{self.kit}/toolchain"
        shutil.rmtree(at, ignore_errors=True)
        os.makedirs(f"{at}/lib")
        os.symlink(f"{self.kit}/toolchain/bin", f"{at}/bin")
        places = (f"usr/lib/{machine.gnu}", f"lib/{machine.gnu}", f"usr/lib/gcc/{machine.gnu}/12")
        loader = f"ld-linux-{machine.name}.so.1"
        for name in (
            "Scrt1.o",
            "crti.o",
            "crtn.o",
            "crtbeginS.o",
            "crtendS.o",
            "libgcc.a",
            loader,
            "libc.so.6",
            "libc_nonshared.a",
            "libm.so.6",
            "libgcc_s.so.1",
        ):
            found = next(
                (
                    f"{debian.root}/{it}/{name}"
                    for it in places
                    if os.path.exists(f"{debian.root}/{it}/{name}")
                ),
                None,
            )
            if found is None:
                raise NotMade(f"Debian's packages for {machine.debian} have no {name}")
            os.symlink(found, f"{at}/lib/{name}")
        return at

    def clang(self, words: list[str]) -> None:
        run([f"{self.kit}/toolchain/bin/clang", "--no-default-config", *words])

    def linker(self, words: list[str]) -> None:
        run([f"{self.kit}/toolchain/bin/ld.lld", *words])

    def of_system(self, machine: Machine, debian: Debian, at: str, *defined: str) -> str:
        """Compiles system.c for a machine, by the headers of glibc, or of musl where that is
        defined."""
        made = f"{at}/work/system{''.join(defined)}.o"
        if "LAZBENDIX_MUSL" in defined:
            headers = [f"{debian.root}/usr/include/{machine.musl}"]
        else:
            headers = [f"{debian.root}/usr/lib/gcc/{machine.gnu}/12/include"]
            headers += [f"{debian.root}/usr/include/{machine.gnu}", f"{debian.root}/usr/include"]
        if not os.path.isdir(headers[-1]) or "linux" not in os.listdir(
            f"{debian.root}/usr/include"
        ):
            debian.fetch("linux-libc-dev")
        words = [
            f"--target={machine.target}",
            "-nostdinc",
            "-O2",
            "-fPIC",
            "-Wall",
            "-Wextra",
            "-Werror",
        ]
        words += [word for it in headers for word in ("-isystem", it)]
        words += [f"-D{it}" for it in defined]
        self.clang([*words, *machine.clang, "-c", f"{HERE}/system.c", "-o", made])
        return made

    # -- The program

    def make_program(self, machine: Machine, debian: Debian, tools: str, at: str) -> None:
        """Makes hub_main over glibc, and hub_main-static over musl."""
        glibc = self.object_of(PROGRAM, machine, tools, at, "")
        plain = glibc
        if machine.name == "x86_64" and not self.unproved:
            # (with x86-64-v2 the program asks glibc for the processor, which musl cannot tell)
            plain = self.object_of(PROGRAM, machine, tools, at, machine.cpu)
        beside = [f"{self.kit}/c/libos_c.a", f"{self.kit}/c/liblibc_c.a"]
        if machine.name != "x86_64":
            beside = [self.of_system(machine, debian, at)]
        link = [f"{self.kit}/bin/rattle-link", "--target", machine.target, "--toolchain", tools]
        run([*link, "-o", f"{at}/{PROGRAM}", glibc, *beside])
        musl = f"{debian.root}/usr/lib/{machine.musl}"
        words = [
            "-static",
            "-pie",
            "--no-dynamic-linker",
            "--wrap=main",
            "--gc-sections",
            "--strip-all",
        ]
        words += [*HARDENED, "-z", "stack-size=8388608", "-o", f"{at}/{PROGRAM}-static"]
        words += [f"{musl}/rcrt1.o", f"{musl}/crti.o", plain]
        words += [self.of_system(machine, debian, at, "LAZBENDIX_MUSL"), f"{musl}/libc.a"]
        words += [f"{tools}/lib/libgcc.a", f"{musl}/crtn.o"]
        self.linker(words)

    def object_of(self, name: str, machine: Machine, tools: str, at: str, cpu: str) -> str:
        """Compiles the program's crate."""
        made = f"{at}/work/{name}{cpu}.o"
        if self.unproved:
            self.compiled(self.module_of_program(), machine, tools, made, "-fPIE")
        else:
            self.proved(name, machine, tools, made, cpu)
        return made

    def proved(self, name: str, machine: Machine, tools: str, made: str, cpu: str) -> None:
        """Has rattle prove a crate over the libraries below it, and compile what it proved."""
        crate = unproved_build.crate_of(name)
        lacking = [it.name for it in crate.below() if not it.is_built()]
        if lacking:
            raise NotMade(
                f"not proved: {' '.join(lacking)} (rt ci --anew, then proved_libraries.py)"
            )
        words = crate.words(["--jobs", "2"], False)
        words += ["--toolchain", tools, "--backend", "llvm", "--target", machine.target]
        words += ["--cpu", cpu] if cpu else []
        words += ["--incremental", "out/incremental", "-o", made]
        os.makedirs(f"{crate.folder}/out", exist_ok=True)
        said = run([f"{self.kit}/bin/rattle", "build", *words], crate.folder)
        lines = re.findall(r"^logic=proved .*$", said, re.M)
        if not lines or not os.path.isfile(made):
            raise NotMade(f"{name} was not proved for {machine.target}\n{said}")
        self.verdicts[f"{name} {machine.target}{f' {cpu}' if cpu else ''}"] = lines[-1]

    # -- The library

    def make_library(self, machine: Machine, debian: Debian, tools: str, at: str) -> None:
        """Makes liblazbendix.a, liblazbendix.so.MAJOR over glibc, and liblazbendix.so, which asks
        for no C library by name and so goes with glibc and with musl."""
        work = f"{at}/work/library"
        shutil.rmtree(work, ignore_errors=True)
        os.makedirs(work)
        if self.unproved:
            self.compiled(self.module_of_library(), machine, tools, f"{work}/library.o", "-fPIC")
        else:
            self.proved(LIBRARY, machine, tools, f"{work}/proved.a", "")
            run([f"{self.kit}/toolchain/bin/llvm-ar", "x", "proved.a"], work)
            os.remove(f"{work}/proved.a")
        if machine.name == "x86_64":
            run([f"{self.kit}/toolchain/bin/llvm-ar", "x", f"{self.kit}/c/liblibc_c.a"], work)
        else:
            shutil.copy(
                self.of_system(machine, debian, at, "LAZBENDIX_HEAP_ALONE"), f"{work}/heap.o"
            )
        objects = sorted(it for it in os.listdir(work) if it.endswith(".o"))
        archive = f"{at}/liblazbendix.a"
        if os.path.exists(archive):
            os.remove(archive)
        run([f"{self.kit}/toolchain/bin/llvm-ar", "rcsD", archive, *objects], work)
        self.link_shared(tools, at)

    def link_shared(self, tools: str, at: str) -> None:
        """Links the shared objects of the archive that is there."""
        major = version().split(".")[0]
        shown = f"{at}/work/shown.map"
        with open(shown, "w", encoding="utf-8") as out:
            out.write(f"LAZBENDIX_{major} {{ global: lazbendix_*; local: *; }};\n")
        words = ["-shared", "--soname", f"liblazbendix.so.{major}", "--version-script", shown]
        words += [
            "--gc-sections",
            "--hash-style=gnu",
            "--build-id=sha1",
            "--strip-all",
            *HARDENED,
        ]
        whole = ["--whole-archive", f"{at}/liblazbendix.a", "--no-whole-archive"]
        glibc = [f"{tools}/lib/libc.so.6", f"{tools}/lib/libc_nonshared.a"]
        self.linker(
            [*words, "--no-undefined", *whole, *glibc, "-o", f"{at}/liblazbendix.so.{major}"]
        )
        self.linker([*words, *whole, "-o", f"{at}/liblazbendix.so"])

    # -- What the gate left

    def take_built(self) -> str:
        """Takes the program that the gate left, and the library of library/build.sh, for x86-64,
        and returns their folder. There is no static program: the other stands in its place."""
        at = f"{self.room}/x86_64"
        os.makedirs(f"{at}/work", exist_ok=True)
        left = f"{ROOT}/crates/{PROGRAM}/out/{PROGRAM}", f"{ROOT}/library/out/liblazbendix.a"
        for path in left:
            if not os.path.isfile(path):
                raise NotMade(f"there is no {path} (rt ci, then library/build.sh)")
        for path, name in zip((left[0], *left), (f"{PROGRAM}-static", PROGRAM, "liblazbendix.a")):
            shutil.copy(path, f"{at}/{name}")
        self.link_shared(f"{self.kit}/toolchain", at)
        return at

    # -- What is not proved

    def module_of_program(self) -> str:
        """The module of the program, with checks, as text."""
        return self.caught(
            PROGRAM,
            lambda own: unproved_build.catch_module(
                unproved_build.crate_of(PROGRAM),
                ["src/main.rt"],
                unproved_build.crate_of(PROGRAM).folder,
                own,
            ),
        )

    def module_of_library(self) -> str:
        """The module of the library, with checks, as text, its calls seen from outside."""
        crate = unproved_build.crate_of(LIBRARY)
        calls = unproved_build.calls_of(f"{crate.folder}/src")

        def catch(own: str) -> None:
            shutil.copytree(f"{crate.folder}/src", f"{own}/src")
            with open(f"{own}/src/lib.rt", encoding="utf-8") as it:
                text = it.read() + unproved_build.main_of(calls)
            os.remove(f"{own}/src/lib.rt")
            with open(f"{own}/src/main.rt", "w", encoding="utf-8") as it:
                it.write(text)
            unproved_build.catch_module(crate, ["src/main.rt"], own, own)

        module = self.caught(LIBRARY, catch)
        shown = module.replace(".ll", "-shown.ll")
        if not os.path.exists(shown):
            unproved_build.show(calls, module, shown)
        return shown

    def caught(self, name: str, catch: Callable[[str], None]) -> str:
        own = f"{self.room}/unproved-{name}"
        module = f"{own}/module.ll"
        if not os.path.exists(module):
            shutil.rmtree(own, ignore_errors=True)
            os.makedirs(own)
            catch(own)
            words = [
                unproved_build.X64,
                "-S",
                "-emit-llvm",
                "-Xclang",
                "-disable-llvm-passes",
                "-x",
                "ir",
            ]
            self.clang([*words, f"{own}/module.bc", "-o", module])
        return module

    def compiled(self, module: str, machine: Machine, tools: str, made: str, position: str) -> None:
        """Compiles a module of x86-64 for a machine."""
        if machine.layout:
            other = f"{made}.ll"
            with open(module, encoding="utf-8") as lines, open(other, "w", encoding="utf-8") as out:
                out.writelines(moved(line, machine) for line in lines)
            module = other
        flags = [it for it in unproved_build.COMPILED if not it.startswith("-march=")]
        words = [f"--target={machine.target}", f"--sysroot={tools}", *machine.clang, *flags]
        self.clang([*words, module, "-o", made, position])


FUTEX = re.compile(r'(call i64 @"\+threads::(?:syscall|wake)"\(i64 )202,')


def moved(line: str, machine: Machine) -> str:
    """A line of a module of x86-64, for another machine: its layout, target and processor, and the
    number of Linux's call to wait and wake."""
    if line.startswith("target datalayout"):
        return f'target datalayout = "{machine.layout}"\n'
    if line.startswith("target triple"):
        return f'target triple = "{machine.target}"\n'
    if line.startswith("attributes"):
        return re.sub(r' "target-cpu"="[^"]*"', "", line)
    return FUTEX.sub(rf"\g<1>{machine.futex},", line) if "+threads::" in line else line


def version() -> str:
    """The version of all."""
    with open(f"{ROOT}/VERSION", encoding="utf-8") as file:
        return file.read().strip()
