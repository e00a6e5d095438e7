"""Shows what is refused: forged and partial logs of the gate, altered certificates and sources.

    python3 -m unittest release.test_certificate
"""
import json
import os
import subprocess
import sys
import tempfile
import unittest

from release import certificate
from release.certificate import Refused
from release.machines import HERE, ROOT, sum_of

LOGIC = "dac8208d650f15bf" + "0" * 48
OK = f"rt: ok; handles allowed: none; {certificate.ANEW}"
VERDICT = "logic=proved functions=1 sum=dac8208d650f15bf native=nat"


def log_of(
    crates: list[str], verdict: str = VERDICT, ok: str = OK, last: str = "9 passed, 0 failed"
) -> str:
    """A log as the gate writes it, of crates of one function each."""
    parts = [f"== {it}\nfn {it}::call: proved\n{verdict}\nrt: {it} proved\n" for it in crates]
    return "".join(parts) + f"{ok}\n{last}\n"


class Logs(unittest.TestCase):
    """What read_log takes."""

    def setUp(self) -> None:
        self.room = tempfile.TemporaryDirectory()
        self.addCleanup(self.room.cleanup)

    def read(self, text: str, crates: list[str]) -> dict[str, certificate.Proof]:
        path = f"{self.room.name}/log"
        with open(path, "w", encoding="utf-8") as file:
            file.write(text)
        return certificate.read_log(path, crates, LOGIC)

    def refused(self, text: str, why: str) -> None:
        with self.assertRaisesRegex(Refused, why):
            self.read(text, ["one", "two"])

    def test_a_whole_log_is_taken(self) -> None:
        proofs = self.read(log_of(["one", "two"]), ["one", "two"])
        self.assertEqual(
            [(it, proof.functions) for it, proof in proofs.items()], [("one", 1), ("two", 1)]
        )

    def test_one_line_is_refused(self) -> None:
        self.refused("99 passed, 0 failed\n", "rt ci --anew")

    def test_an_empty_log_is_refused(self) -> None:
        self.refused("", "not that of a gate that passed")

    def test_a_failed_gate_is_refused(self) -> None:
        self.refused(
            log_of(["one", "two"], last="9 passed, 1 failed"), "not that of a gate that passed"
        )

    def test_two_lines_are_refused(self) -> None:
        self.refused(f"{OK}\n99 passed, 0 failed\n", "no verdict of one, two")

    def test_a_crate_that_lacks_is_refused(self) -> None:
        self.refused(log_of(["one"]), "no verdict of two")

    def test_a_kept_crate_is_refused(self) -> None:
        self.refused(log_of(["one", "two"], ok="rt: ok; one was kept"), "rt ci --anew")

    def test_a_crate_that_is_not_proved_is_refused(self) -> None:
        self.refused(
            log_of(["one", "two"], "logic=not-proved functions=1 sum=dac8208d650f15bf x"),
            "0 verdicts of one",
        )

    def test_a_function_that_is_not_proved_is_refused(self) -> None:
        self.refused(
            log_of(["one", "two"]).replace("fn two::call: proved", "fn two::call: not proved"),
            "says of two: fn two::call: not proved",
        )

    def test_another_logic_is_refused(self) -> None:
        self.refused(
            log_of(["one", "two"], VERDICT.replace("dac8", "0000")), "logic 0000208d650f15bf"
        )

    def test_a_count_without_names_is_refused(self) -> None:
        self.refused(
            log_of(["one", "two"]).replace("fn two::call: proved\n", ""), "names 0 functions of two"
        )

    def test_links_of_long_names(self) -> None:
        """As rattle has them: the path up to 64 letters, and else the name's checksum."""
        self.assertEqual(certificate.link_of("a::fn::b+FnOnce::call"), "a-fn-b+FnOnce-call")
        long = "lock_leasing::touches::fn::first_holder::first_before+FnOnce::call_once"
        digest = "7ac29d1c9906f9af8cb0158d81840bffd42c6a88c0f7ed6c039e687fa98a583a"
        self.assertEqual(certificate.link_of(long), f"fn-{digest}")

    def test_too_few_that_passed_is_refused(self) -> None:
        self.refused(log_of(["one", "two"], last="1 passed, 0 failed"), "there are 2 crates")


class Libraries(unittest.TestCase):
    """What code_sum takes of a library that the gate left."""

    def setUp(self) -> None:
        room = tempfile.TemporaryDirectory()
        self.addCleanup(room.cleanup)
        self.root = room.name
        self.at = f"{self.root}/crates/one/out/rlib/one.rlib"
        os.makedirs(f"{self.at}/toolchain")
        self.put("format", f"crate one\nlogic {LOGIC}\n")
        self.put("toolchain/checked.json", '["part/Rattle-one-proofs.TheLinks.one-call", 1]\n')
        self.put("toolchain/mir.json", json.dumps([["one::call", {}], ["one::Has::it+decl", {}]]))

    def put(self, name: str, text: str) -> None:
        with open(f"{self.at}/{name}", "w", encoding="utf-8") as file:
            file.write(text)

    def refused(self, named: list[str], why: str) -> None:
        proof = certificate.Proof(VERDICT, len(named), LOGIC, [], named)
        with self.assertRaisesRegex(Refused, why):
            certificate.code_sum("one", proof, LOGIC, self.root)

    def test_the_functions_of_the_log_are_those_of_the_library(self) -> None:
        proof = certificate.Proof(VERDICT, 1, LOGIC, [], ["one::call"])
        made = certificate.code_sum("one", proof, LOGIC, self.root)
        self.assertEqual(made, sum_of(f"{self.at}/toolchain/mir.json"))
        self.refused(["one::call", "one::more"], "the log names one::more")
        self.refused([], "the library of one has one::call, and the log does not name it")

    def test_a_library_of_another_logic_is_refused(self) -> None:
        self.put("format", f"crate one\nlogic {'0' * 64}\n")
        self.refused(["one::call"], "of another crate or logic")


class Releases(unittest.TestCase):
    """What make.py and verify.sh refuse, in a clone."""

    def setUp(self) -> None:
        self.room = tempfile.TemporaryDirectory()
        self.addCleanup(self.room.cleanup)
        self.tree = f"{self.room.name}/tree"
        subprocess.run(["git", "clone", "-q", ROOT, self.tree], check=True)

    def refused(self, why: str, *words: str) -> None:
        made = f"{self.room.name}/made"
        ran = subprocess.run(
            [sys.executable, "-m", "release.make", made, *words],
            cwd=self.tree,
            capture_output=True,
            text=True,
        )
        self.assertEqual(ran.returncode, 1, ran.stdout)
        self.assertIn(why, ran.stderr)
        self.assertFalse(os.path.exists(made))

    def test_forged_logs_are_refused(self) -> None:
        log = f"{self.room.name}/log"
        crates = certificate.crates_of(self.tree)
        with open(log, "w", encoding="utf-8") as file:
            file.write("99 passed, 0 failed\n")
        self.refused("rt ci --anew", "--log", log, "--trial")
        with open(log, "w", encoding="utf-8") as file:
            file.write(log_of(crates, last="99 passed, 0 failed"))
        self.refused("the gate left no library of", "--log", log, "--trial")
        if not any(
            os.path.exists(f"{self.tree}/{it}")
            for it in ("LICENSE", "LICENCE", "LICENSE.md", "COPYING")
        ):
            self.refused("no licence is chosen", "--log", log)
        self.refused("or say --unproved", "--trial")

    def test_an_old_log_is_refused(self) -> None:
        log = f"{self.room.name}/log"
        with open(log, "w", encoding="utf-8") as file:
            file.write(log_of(certificate.crates_of(self.tree), last="99 passed, 0 failed"))
        os.utime(log, (1, 1))
        self.refused("the gate's log is older than commit", "--log", log, "--trial")

    def test_an_altered_tree_is_refused(self) -> None:
        log = f"{self.room.name}/log"
        with open(f"{self.tree}/HANDLES", "a", encoding="utf-8") as file:
            file.write("\n")
        with open(log, "w", encoding="utf-8") as file:
            file.write("99 passed, 0 failed\n")
        self.refused("files are changed or new", "--log", log, "--trial")

    def test_an_archive_has_no_sources(self) -> None:
        path = f"{self.room.name}/certificate"
        with open(path, "w", encoding="utf-8") as file:
            file.write("lazbendix-certificate 1\ncommit 12ab\nstate proved\n")
        words = [f"{HERE}/verify.sh", path, self.room.name]
        ran = subprocess.run(words, capture_output=True, text=True)
        self.assertEqual(ran.returncode, 1)
        self.assertIn("has no sources: check out commit 12ab", ran.stderr)

    def test_altered_certificates_are_refused(self) -> None:
        path = f"{self.room.name}/certificate"
        crates = certificate.crates_of(self.tree)
        lines = ["lazbendix-certificate 1", "version 1.2.3", "commit x", "state proved"]
        lines += [f"logic {LOGIC}", f"handles {certificate.handles_of(self.tree)}"]
        lines += [f"tree crates.txt {sum_of(f'{self.tree}/crates.txt')}"]
        for it in crates:
            lines += [
                f"crate {it} sources={certificate.sources_sum(it, self.tree)} code=- functions=1",
                f"verdict {it} {VERDICT}",
            ]
        whole = "\n".join(lines) + "\n"

        def verified(text: str) -> int:
            with open(path, "w", encoding="utf-8") as file:
                file.write(text)
            # (without the kit, which this certificate does not name)
            how = {"PATH": "/usr/bin:/bin"}
            return subprocess.run(
                [f"{HERE}/verify.sh", path, self.tree], env=how, capture_output=True
            ).returncode

        self.assertEqual(verified(whole), 0)
        self.assertEqual(verified(whole.replace("state proved", "state UNPROVED")), 2)
        self.assertEqual(verified("99 passed, 0 failed\n"), 1)
        first = crates[0]
        self.assertEqual(verified(whole.replace(f"verdict {first} {VERDICT}\n", "")), 1)
        self.assertEqual(
            verified(
                "".join(it for it in whole.splitlines(True) if not it.startswith(f"crate {first} "))
            ),
            1,
        )
        self.assertEqual(
            verified(whole.replace(certificate.sources_sum(first, self.tree), "0" * 64)), 1
        )
        with open(f"{self.tree}/crates/{first}/src/lib.rt", "a", encoding="utf-8") as file:
            file.write("// altered\n")
        self.assertEqual(verified(whole), 1)


if __name__ == "__main__":
    unittest.main()
