"""Groups and toggles: what is written for a group is done with each of its devices, and a toggle
asks, in the run, where its first device stands."""
import asyncio
import json
import unittest

from lazbendix_hub.command import step_text
from lazbendix_hub.house import refusal
from lazbendix_hub.reading import read_home
from tests.stage import Stage, read, until

HOME = """
limit: 5s
devices:
  lamp: {kind: dimmer}
  shelf: {kind: dimmer}
  pump: {kind: plug, maker: tasmota}
  blinds: {kind: blinds, limit: 20s}
  door: {kind: lock, limit: 1s}
  heat: {kind: climate}
  window: {kind: contact}
groups:
  lights: [shelf, lamp]
  all: [pump, lamp, blinds]
routines:
  off: {do: [{set: lights, to: off}, {set: pump, to: off}]}
  press: {do: [{toggle: lamp, to: 40%}]}
  water: {do: [{toggle: pump}]}
  lights: {do: [{toggle: lights}]}
  all: {do: [{check: window, to: shut}, {toggle: all}]}
  lock: {do: [{toggle: lamp}, {toggle: door, optional: true}]}
  both: {do: [{set: lamp, to: off}, {toggle: lamp, to: 9}, {toggle: pump}, {check: lamp, to: 9}]}
"""

# A text of HOME, what stands there instead, the line of the mistake, and a part of what is told.
MISTAKES = [
    ("lights: [shelf, lamp]", "lights: [shelf, lmap]", 12, "do you mean `lamp`?"),
    ("lights: [shelf, lamp]", "lights: [shelf, shelf]", 12, "`shelf` is in the group `lights` t"),
    ("lights: [shelf, lamp]", "lights: []", 12, "`lights` is to be a list of devices"),
    ("lights: [shelf, lamp]", "lights: lamp", 12, "and is `lamp`"),
    ("  lights: [shelf, lamp]", "  lamp: [shelf]", 12, "`lamp` is the name of a device already"),
    ("  lights: [shelf, lamp]", "  Lights: [shelf]", 12, "`Lights` is no name of a group"),
    ("groups:", "gruops:", 11, "do you mean `groups`?"),
    ("set: lights, to: off", "set: lihgts, to: off", 15, "do you mean `lights`?"),
    ("set: lights, to: off", "set: all, to: 40%", 15, "`pump` has no value `40%`"),
    ("toggle: pump}]}", "toggle: heat}]}", 17, "`heat` has no two values to toggle between"),
    ("toggle: pump}]}", "toggle: window}]}", 17, "`window` only tells, and is never set"),
    ("toggle: lamp, to: 40%", "toggle: lamp, to: off", 16, "from 0 to another value"),
    ("toggle: lamp, to: 40%", "toggle: lamp, set: lamp", 16, "a command has one of"),
    ("[{toggle: pump}]}", "[{toggle: pump}], when: [{device: lights, to: on}]}", 17,
     "`lights` is a group, and one device is wanted"),
    ("water: {do: [{toggle: pump}]}", "water: {do: [" + "{toggle: all}, " * 10 + "]}", 17,
     "at most 64 commands"),
]


class Read(unittest.TestCase):
    def test_mistakes(self) -> None:
        self.assertEqual(refusal(read(HOME)), "")
        for old, new, line, part in MISTAKES:
            with self.subTest(new=new):
                self.assertIn(old, HOME)
                home, found = read_home(HOME.replace(old, new, 1))
                self.assertIsNone(home)
                self.assertTrue(any(each.line == line and part in each.text for each in found),
                                [str(each) for each in found])

    def test_what_the_core_gets(self) -> None:
        home = read(HOME)
        script = json.loads(home.script({}))
        self.assertEqual(script["safehome"], 2)
        commands = {each["name"]: each["commands"] for each in script["routines"]}
        self.assertEqual(
            [(each["on"], each["do"], each.get("to"), each.get("when")) for each in
             commands["water"]],
            [("pump", "load", None, None), ("pump", "set", "off", {"is": 1}),
             ("pump", "set", "on", {"below": 1})])
        self.assertEqual(
            [(each["on"], each["do"], each.get("to"), each.get("when")) for each in
             commands["lights"]],
            [("shelf", "load", None, None), ("shelf", "set", 0, None),
             ("shelf", "set", 254, {"below": 1}), ("lamp", "set", 0, None),
             ("lamp", "set", 254, {"below": 1})])
        words = [step_text(step, home.routines[6], home) for step in (1, 2, 3)]
        self.assertEqual(words, ["set lamp to 0", "toggle lamp between 0 and 9",
                                 "toggle pump between off and on"])
        plain = read(HOME[:HOME.index("  press:")])
        self.assertEqual(json.loads(plain.script({}))["safehome"], 1)


class Play(unittest.IsolatedAsyncioTestCase):
    def value(self, stage: Stage, name: str) -> str:
        """The word at which the home has the device, where it is there, too."""
        home, there, is_up = stage.stands()[name]
        self.assertEqual((there, is_up), (home, True), name)
        return home

    async def test_presses(self) -> None:
        async with Stage(HOME) as stage:
            for count, wanted in ((1, "102"), (1, "0"), (2, "0"), (3, "102"), (4, "102")):
                told = await stage.run(*["press"] * count)  # at the same time
                self.assertEqual([each.outcome for each in told], ["committed"] * count)
                self.assertEqual(self.value(stage, "lamp"), wanted, count)
            for count, wanted in ((1, "on"), (2, "on"), (3, "off")):
                await stage.run(*["water"] * count)
                self.assertEqual(self.value(stage, "pump"), wanted, count)
            stage.devices["lamp"].turn(0)  # a hand
            await until(lambda: stage.live.counts["turned"] == 1)
            await stage.run("press")
            self.assertEqual(self.value(stage, "lamp"), "102")
            self.assertRegex(stage.check(), "windows with 18 runs agree")

    async def test_a_group(self) -> None:
        async with Stage(HOME) as stage:
            stage.devices["lamp"].turn(77)  # the group is as its first device is: shelf
            stage.devices["window"].turn(1)
            await until(lambda: stage.live.counts["turned"] == 2)
            for wanted in ("254", "0"):
                await stage.run("lights")
                self.assertEqual({self.value(stage, each) for each in ("lamp", "shelf")}, {wanted})
            await stage.run("lights", "off", "all")
            self.assertEqual([self.value(stage, each) for each in
                              ("lamp", "shelf", "pump", "blinds")], ["254", "0", "on", "100"])
            await stage.run("all")
            self.assertEqual([self.value(stage, each) for each in ("lamp", "pump", "blinds")],
                             ["0", "off", "0"])
            stage.devices["window"].turn(0)
            await until(lambda: stage.live.counts["turned"] == 3)
            told, = await stage.run("all")
            self.assertEqual(told.cause, "window is not shut, as step 1 asks")
            self.assertIn("runs agree", stage.check())

    async def test_one_that_is_gone(self) -> None:
        async with Stage(HOME) as stage:
            stage.devices["door"].is_broken = True
            told, = await stage.run("lock")
            self.assertEqual(told.outcome, "committed")
            self.assertEqual(self.value(stage, "lamp"), "254")
            stage.devices["lamp"].leave()
            await asyncio.sleep(0.1)
            told, = await stage.run("both")
            self.assertEqual((told.outcome, told.cause_kind), ("aborted", "no-answer"))
            self.assertIn("lamp did not answer (step 1)", told.cause)
            stage.devices["lamp"].come()
            stage.devices["door"].is_broken = False
            await until(lambda: not stage.live.down, 20)
            await stage.quiet()
            told, = await stage.run("both")
            self.assertEqual((told.outcome, self.value(stage, "lamp")), ("committed", "9"))
            self.assertEqual((await stage.run("lock"))[0].outcome, "committed")
            self.assertIn("runs agree", stage.check())


if __name__ == "__main__":
    unittest.main()
