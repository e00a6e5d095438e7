"""The slips that people make in a script, each explained by `lazbendix replay` itself. The refusals
are those of docs/FORMATS.md, and the lines and columns are counted here, by hand or by where the
slip was put."""
import contextlib
import io
import json
import os
import tempfile
import unittest

from lazbendix import command
from lazbendix.explain import explained, explanation
from lazbendix.plain import plain_check, plain_script, yaml_script
from lazbendix.reference.json_text import read_json
from tests.places import HAS_PROGRAM, PROGRAM, called, example, example_bytes

SCRIPT = """{
  "safehome": 1,
  "devices": [
    {"name": "hall_lamp", "states": ["off", "on"], "start": "off"},
    {"name": "heat", "low": 10, "high": 30, "start": 18},
    {"name": "door", "states": ["open", "shut"], "start": "shut"}
  ],
  "routines": [
    {"name": "wake", "commands": [
      {"on": "hall_lamp", "do": "set", "to": "on"},
      {"on": "heat", "do": "set", "to": 21, "must": false}
    ]},
    {"name": "leave", "commands": [{"on": "hall_lamp", "do": "set", "to": "off"}]},
    {"name": "arrive", "commands": [
      {"on": "heat", "do": "load"},
      {"on": "hall_lamp", "do": "set", "to": "on"}
    ]}
  ],
  "windows": [
    {"at": "2021-04-26T07:00:00", "turns": [1], "runs": [{"routine": "wake"}, {"routine": "leave"}]},
    {"at": "2021-04-26T18:00:00", "turns": [1], "probes": 1, "runs": [{"routine": "arrive"}, {"routine": "wake", "follows": 1}]}
  ]
}
"""  # noqa: E501
VERSION_2 = '"safehome": 1', '"safehome": 2'
LOAD = '{"on": "hall_lamp", "do": "set", "to": "on"}\n    ]}\n  ],'
GUARDED = '{"on": "hall_lamp", "do": "set", "to": "on", "when": {"below": 5}}\n    ]}\n  ],'

# Of each slip: its name; what is replaced, one after another, where ‸ marks the place that is to be
# named; the refusal; words.
SLIPS = [
    (
        "wrong device name",
        [
            (
                '"on": "hall_lamp", "do": "set", "to": "off"',
                '"on": ‸"hal_lamp", "do": "set", "to": "off"',
            )
        ],
        "unknown name command 2.1",
        'did you mean "hall_lamp"?',
    ),
    (
        "missing comma",
        [('"states": ["off", "on"]', '"states": ["off" ‸"on"]')],
        "not json",
        "a comma",
    ),
    (
        "trailing comma",
        [('"follows": 1}]}', '"follows": 1}],‸}')],
        "not json",
        "no comma stands behind the last one",
    ),
    ("value out of range", [('"to": 21', '"to": ‸35')], "bad state command 1.2", "10 to 30"),
    (
        "misspelt key",
        [('"leave", "commands"', '"leave", ‸"comands"')],
        "shape routine 2",
        'did you mean "commands"?',
    ),
    (
        "number as string",
        [('"to": 21', '"to": ‸"21"')],
        "bad state command 1.2",
        "without the quotes",
    ),
    ("empty file", [(SCRIPT, "‸")], "not json", "the text ends here"),
    (
        "empty commands",
        [('[{"on": "hall_lamp", "do": "set", "to": "off"}]', "‸[]")],
        "shape routine 2",
        "at least one command",
    ),
    (
        "follows a later run",
        [('"follows": 1', '"follows": ‸2')],
        "bad follow run 2.2",
        "cannot follow run 2",
    ),
    (
        "two devices of one name",
        [('"name": "heat"', '"name": ‸"hall_lamp"')],
        "double name device 2",
        "stands already",
    ),
    (
        "times that do not rise",
        [('"2021-04-26T18:00:00"', '‸"2021-04-26T06:00:00"')],
        "bad time window 2",
        "2021-04-26T07:00:00",
    ),
    (
        "unknown word of do",
        [('"do": "load"', '"do": ‸"read"')],
        "shape command 3.1",
        "set, check, load, store",
    ),
    (
        "capitals and a blank",
        [('"name": "door"', '"name": ‸"Front Door"')],
        "bad name device 3",
        '"front-door" is one',
    ),
    ("a fraction", [('"to": 21', '"to": ‸21.5')], "shape command 1.2", "no fractions"),
    (
        "must as a string",
        [('"must": false', '"must": ‸"false"')],
        "shape command 1.2",
        "without the quotes",
    ),
    (
        "a time with Z",
        [("T07:00:00", "T07:00:00Z"), ('"at": "2021-04-26T07', '"at": ‸"2021-04-26T07')],
        "bad time window 1",
        "leave out the Z",
    ),
    (
        "when in version 1",
        [(LOAD, GUARDED.replace('"when"', '‸"when"'))],
        "shape command 3.2",
        '"safehome": 2',
    ),
    ("no version", [('{\n  "safehome": 1,\n', "‸{\n")], "shape top", '"safehome" is missing'),
    (
        "when above",
        [VERSION_2, (LOAD, GUARDED.replace('"below"', '‸"above"'))],
        "shape command 3.2",
        'never with "above"',
    ),
    (
        "a state in capitals",
        [('"to": "off"', '"to": ‸"OFF"')],
        "bad state command 2.1",
        'did you mean "off"?',
    ),
    ("single quotes", [('"to": "off"', "\"to\": ‸'off'")], "not json", "double quotes"),
    ("true for a state", [('"to": "off"', '"to": ‸true')], "shape command 2.1", "a state's name"),
    (
        "a byte order mark",
        [('{\n  "safehome"', '‸\ufeff{\n  "safehome"')],
        "not json",
        "byte order mark",
    ),
    (
        "a device without start",
        [
            (
                '{"name": "door", "states": ["open", "shut"], "start": "shut"}',
                '‸{"name": "door", "states": ["open", "shut"]}',
            )
        ],
        "shape device 3",
        '"start" is missing',
    ),
    (
        "if for when",
        [VERSION_2, (LOAD, GUARDED.replace('"when"', '‸"if"'))],
        "shape command 3.2",
        'did you mean "when"?',
    ),
    (
        "a routine that is not there",
        [('{"routine": "arrive"}', '{"routine": ‸"arive"}')],
        "unknown name run 2.1",
        'did you mean "arrive"?',
    ),
    (
        "too many probes",
        [('"probes": 1', '"probes": ‸101')],
        "too many probes 101 of 100",
        "at most 100",
    ),
    (
        "two states of one name",
        [('["open", "shut"]', '["shut", ‸"shut"]')],
        "double name device 3",
        "an earlier state",
    ),
    (
        "a time without a date",
        [('"2021-04-26T07:00:00"', '‸"07:00"')],
        "bad time window 1",
        "the date is missing",
    ),
    (
        "a hash as a comment",
        [('"safehome": 1,', '"safehome": 1, ‸# mine')],
        "not json",
        "JSON has no comments",
    ),
    (
        "a comment in /* */",
        [('"safehome": 1,', '"safehome": 1, ‸/* mine */')],
        "not json",
        "from // to the end",
    ),
    (
        "a title",
        [('"safehome": 1,', '"safehome": 1, ‸"title": "Monday",')],
        "shape top",
        "stand outside",
    ),
    (
        "a turn above the runs",
        [('"turns": [1], "probes"', '"turns": [‸3], "probes"')],
        "bad turn turn 2.1",
        "no run 3",
    ),
    (
        "a file that was cut",
        [(SCRIPT[SCRIPT.index('  "windows"') :], "‸")],
        "not json",
        "the text ends here",
    ),
]
SEVEN = [
    ('"name": "door"', '"name": "Door"'),
    ('"start": 18', '"start": 8'),
    ('"do": "load"', '"do": "lod"'),
    ('"must": false', '"must": 0'),
    ('"to": "off"', '"to": "of"'),
    ("T18:00", "T05:00"),
    ('"arrive"}', '"arive"}'),
]
PLAYED = [
    ("a comment", '"safehome": 1,', '"safehome": 1, // mine, with "quotes" and {'),
    (
        "a schema in front",
        '"safehome": 1,',
        '"$schema": "../docs/script.schema.json",\n  "safehome": 1,',
    ),
    ("a schema behind", "  ]\n}\n", '  ],\n  "$schema": "https://example.org/x//y"\n}\n'),
    ("a member twice", '"start": 18', '"start": 17, "start": 18'),
    ("lines that end in CRLF", "\n", "\r\n"),
]


def slipped(changes: list[tuple[str, str]]) -> tuple[str, int, int]:
    """The script with its changes, and the line and the column that are marked, from 1."""
    text = SCRIPT
    for old, new in changes:
        assert text.count(old) >= 1, old
        text = text.replace(old, new, 1)
    before, _, behind = text.partition("‸")
    return before + behind, before.count("\n") + 1, len(before.rpartition("\n")[2]) + 1


class Slips(unittest.TestCase):
    def setUp(self) -> None:
        self.folder = tempfile.TemporaryDirectory()
        self.addCleanup(self.folder.cleanup)
        self.file = os.path.join(self.folder.name, "day.json")
        before = os.environ.get("LAZBENDIX_PROGRAM")
        if HAS_PROGRAM and before is None:
            os.environ["LAZBENDIX_PROGRAM"] = PROGRAM
            self.addCleanup(os.environ.pop, "LAZBENDIX_PROGRAM")

    def replay(self, text: str, *words: str) -> tuple[int, str]:
        """The status of the replay, and what it says on standard error."""
        with open(self.file, "w", encoding="utf-8", newline="") as file:
            file.write(text)
        with contextlib.redirect_stderr(io.StringIO()) as said:
            status = command.main(["replay", *words, self.file])
        lines = said.getvalue().splitlines(keepends=True)
        return status, "".join(line for line in lines if "the reference plays" not in line)

    def test_each_slip_is_explained(self) -> None:
        for name, changes, refusal, words in SLIPS:
            with self.subTest(slip=name):
                text, line, column = slipped(changes)
                status, told = self.replay(text)
                lines = told.split("\n")
                self.assertEqual((status, lines[0]), (1, f"script: {refusal}"))
                self.assertEqual(lines[1], f"{self.file}:{line}:{column}: error: script: {refusal}")
                self.assertIn(words, told)

    def test_one_slip_is_one_error(self) -> None:
        hanging = (
            "two devices of one name",
            "two states of one name",
            "misspelt key",
        )  # others hang on what is gone
        for name, changes, _, _ in SLIPS:
            if name not in hanging:
                with self.subTest(slip=name):
                    self.assertEqual(len(explained(slipped(changes)[0].encode())[0]), 1)

    def test_seven_at_once(self) -> None:
        status, told = self.replay(slipped(SEVEN)[0])
        self.assertEqual((status, told.count(": error: ")), (1, 7))
        self.assertIn("7 mistakes; the program refuses it for the first", told)

    def test_yaml(self) -> None:
        text = "safehome: 1\ndevices: []\nroutines: []\nwindows: []\n"
        status, told = self.replay(text)
        self.assertEqual(status, 1)
        self.assertIn(f"{self.file}:1:1: error: script: not json", told)
        self.assertIn("--yaml", told)

    def test_what_is_played(self) -> None:
        """What the program refuses, and the command takes out; and what is legal."""
        wanted = called("replay", data=SCRIPT.encode()).stdout
        self.assertIn(b"total windows 2", wanted)
        for name, old, new in PLAYED:
            with self.subTest(written=name):
                made = SCRIPT.replace(old, new) if old == "\n" else SCRIPT.replace(old, new, 1)
                call = called("replay", data=made.encode())
                self.assertEqual((call.returncode, call.stdout), (0, wanted))

    def test_a_mistake_behind_comments(self) -> None:
        """Its place is the one in the file, and its line is shown as it was written."""
        text = SCRIPT.replace(
            '"safehome": 1,', '"safehome": 1, // größer\n  // no "device" {'
        ).replace('"to": 21, "must": false}', '"to": 99, "must": false} // hot')
        status, told = self.replay(text)
        self.assertIn(f"{self.file}:12:41: error: script: bad state command 1.2", told)
        self.assertIn('"to": 99, "must": false} // hot', told)


class Plain(unittest.TestCase):
    def test_a_plain_script_stays_as_it_is(self) -> None:
        for name in sorted(os.listdir(os.path.dirname(example("one-light.json")))):
            if name.endswith(".json"):
                data = example_bytes(name)
                self.assertEqual(plain_script(data), data)

    def test_texts_that_look_like_comments(self) -> None:
        for text in (
            '{"a": "http://x"}',
            '{"a": "\\"//"}',
            '["//", "$schema"]',
            '{"a": {"$schema": "x"}}',
        ):
            self.assertEqual(plain_script(text.encode()), text.encode())

    def test_as_many_bytes(self) -> None:
        for text, value in (
            ('{"$schema": "x", "a": 1 // ä\n}', {"a": 1}),
            ('{"a": 1, "$schema": "//"}', {"a": 1}),
            ('{"$schema": "x"}', {}),
            ("[1, // x\r\n2] // y", [1, 2]),
        ):
            made = plain_script(text.encode())
            self.assertEqual((len(made), read_json(made)), (len(text.encode()), value))

    def test_the_divider_of_a_check(self) -> None:
        data = b"{}\r\n%%\r\nhome\r\n"
        self.assertEqual(plain_check(data), b"{}\r\n%%\nhome\n")
        self.assertEqual(plain_check(b"{}\n%%\nhome\r\n"), b"{}\n%%\nhome\r\n")

    def test_yaml(self) -> None:
        try:
            import yaml  # noqa: F401
        except ImportError:
            self.skipTest("PyYAML is not there")
        text = (
            b"safehome: 1\ndevices:\n- {name: lamp, states: [off, on], start: off}\nroutines: []\n"
            b"windows:\n- {at: 2021-04-26T07:00:00, runs: []}\n"
        )
        value = json.loads(yaml_script(text))
        self.assertEqual(
            value["devices"], [{"name": "lamp", "states": ["off", "on"], "start": "off"}]
        )
        self.assertEqual(value["windows"][0]["at"], "2021-04-26T07:00:00")
        self.assertEqual(called("replay", "--yaml", data=text).returncode, 0)
        self.assertIn(b"no YAML", called("replay", "--yaml", data=b"a: [").stderr)


class Notes(unittest.TestCase):
    LENDER = {"name": "long", "commands": [{"on": "oven", "do": "set", "to": "on", "takes": 900}]}
    BORROWER = {"name": "short", "commands": [{"on": "oven", "do": "set", "to": "on"}]}

    def script(self, runs: list[dict[str, object]]) -> bytes:
        devices = [{"name": "oven", "states": ["off", "on"], "start": "off"}]
        window = {"at": "2021-04-26T07:00", "turns": [1], "runs": runs}
        return json.dumps(
            {
                "safehome": 1,
                "devices": devices,
                "routines": [self.LENDER, self.BORROWER],
                "windows": [window],
            }
        ).encode()

    def kinds(self, data: bytes, scheduler: str = "fcfs") -> list[str]:
        return [hint.kind for hint in explained(data, scheduler)[1]]

    def test_leases_are_for_the_schedulers_that_make_them(self) -> None:
        data = self.script([{"routine": "long"}, {"routine": "short"}])
        self.assertNotIn("long command", self.kinds(data))
        self.assertIn("long command", self.kinds(data, "jit"))

    def test_no_lease_of_a_run_that_is_followed(self) -> None:
        days: list[list[dict[str, object]]] = [
            [{"routine": "short"}, {"routine": "long", "follows": 1}],
            [
                {"routine": "short"},
                {"routine": "short", "follows": 1},
                {"routine": "long", "follows": 2},
            ],
        ]
        for runs in days:
            self.assertNotIn("long command", self.kinds(self.script(runs), "jit"))

    def test_notes_stand_in_the_order_of_lines_and_name_each_place(self) -> None:
        for name in ("failing", "leaving", "overwritten", "morning", "thermometer"):
            _, hints = explained(example_bytes(f"{name}.json"), "jit")
            self.assertEqual([hint.at for hint in hints], sorted(hint.at for hint in hints))
        script = SCRIPT.replace('"turns": [1], ', "")
        told, _ = explanation("day", script.encode())
        second = script[: script.index('[{"routine": "arrive"}')]
        place = f"{second.count(chr(10)) + 1}:{len(second.rpartition(chr(10))[2]) + 1}"
        self.assertIn("note: no turns", told)
        self.assertIn(f"(also at {place})", told)

    def test_json(self) -> None:
        call = called("explain", "--json", data=SCRIPT.replace('"to": 21', '"to": 99').encode())
        facts = json.loads(call.stdout)
        self.assertEqual(
            (call.returncode, facts["read"], facts["refusal"]), (1, False, "bad state command 1.2")
        )
        mistake = facts["mistakes"][0]
        self.assertEqual((mistake["line"], mistake["column"], mistake["endColumn"]), (11, 41, 43))


if __name__ == "__main__":
    unittest.main()
