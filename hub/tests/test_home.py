"""home.yaml: every mistake by its line, with the nearest name; and any bytes at all."""
import random
import unittest

from lazbendix_hub.home import DeviceTrigger, SunTrigger, TopicTrigger
from lazbendix_hub.house import refusal
from lazbendix_hub.reading import read_home
from lazbendix_hub.yamls import seconds_of
from tests.stage import HOME, read

FINE = """
place: {latitude: 52.5, longitude: 13.4}
devices:
  lamp: {kind: dimmer, label: 'The "big" <lamp>'}
  hall: {kind: motion}
  inside: {kind: thermometer}
  heat: {kind: climate}
routines:
  on:
    do:
      - {set: lamp, to: 40%}
      - {set: heat, to: 21.5}
    when:
      - {device: hall, to: motion}
      - {sun: sunset, offset: -30m}
      - {cron: "30 6 * * 1-5"}
      - {topic: zigbee2mqtt/button, property: action, payload: single}
      - {device: inside, below: 18}
  off:
    do: [{set: lamp, to: off}]
    when: [{device: hall, to: clear, after: 5m}, {routine: on, after: 10 min}]
"""

# A line of FINE, what stands there instead, the line of the mistake, and a part of what is told.
MISTAKES = [
    ("lamp: {kind: dimmer,", "lamp: {kind: dimer,", 4, "do you mean `dimmer`?"),
    ("lamp: {kind: dimmer,", "lamp: {knd: dimmer,", 4, "device `lamp` has no `kind`"),
    ("  lamp: {kind", "  Lamp: {kind", 4, "`Lamp` is no name of a device"),
    ("heat: {kind: climate}", "heat: {kind: climate, low: 30, high: 5}", 7, "no whole steps"),
    ("heat: {kind: climate}", "heat: {kind: climate, limit: soon}", 7, "a time as `90s`"),
    ("heat: {kind: climate}", "heat: {kind: climate, colour: red}", 7, "key of device `heat`"),
    ("heat: {kind: climate}", "heat: {kind: climate, topic: a/#}", 7, "a topic without"),
    ("heat: {kind: climate}", "heat: {kind: climate, maker: tasmota}", 7, "over Tasmota"),
    ("heat: {kind: climate}", "heat: {kind: climate, maker: tasmoto}", 7, "mean `tasmota`?"),
    ("heat: {kind: climate}", "heat: [kind, climate]", 7, "is to be a table, and is a list"),
    ("heat: {kind: climate}", "lamp: {kind: climate}", 7, "the first is in line 4"),
    ("heat: {kind: climate}", "heat: {kind: dimmer, topic: lamp}", 7, "the same thing as `lamp`"),
    ("- {set: lamp, to: 40%}", "- {set: lapm, to: 40%}", 11, "do you mean `lamp`?"),
    ("- {set: lamp, to: 40%}", "- {set: lamp, to: 400%}", 11, "has no value `400%`"),
    ("- {set: lamp, to: 40%}", "- {set: lamp}", 11, "a command has no `to`"),
    ("- {set: lamp, to: 40%}", "- {put: lamp, to: 1}", 11, "a command has one of"),
    ("- {set: lamp, to: 40%}", "- {set: inside, to: 20}", 11, "only tells, and is never set"),
    ("- {set: lamp, to: 40%}", "- {set: lamp, to: 4, optional: maybe}", 11, "true or false"),
    ("- {set: heat, to: 21.5}", "- {set: heat, to: 21.3}", 12, "in steps of 0.5"),
    ("to: motion}", "to: moving}", 14, "it has one of clear, motion"),
    ("to: motion}", "above: 3}", 14, "has no value `3`"),
    ("{device: hall, to: motion}", "{device: hal, to: motion}", 14, "do you mean `hall`?"),
    ("{device: hall, to: motion}", "{device: hall}", 14, "one of `to`, `above` and `below`"),
    ("{sun: sunset, offset: -30m}", "{sun: noon}", 15, "sunrise or sunset"),
    ("offset: -30m", "offset: -9h", 15, "at most six hours"),
    ("30 6 * * 1-5", "30 26 * * 1-5", 16, "a time of five fields"),
    ("30 6 * * 1-5", "30 6 * *", 16, "a time of five fields"),
    ("below: 18}", "below: 180}", 18, "has no value"),
    ("{routine: on, after: 10 min}", "{routine: onn, after: 1m}", 21, "do you mean `on`?"),
    ("{routine: on, after: 10 min}", "{routine: on}", 21, "has `after`"),
    ("place: {latitude: 52.5, longitude: 13.4}", "", 15, "want `place:"),
    ("place: {latitude: 52.5, longitude: 13.4}", "place: {latitude: 95, longitude: 1}", 2, "-90"),
    ("place: {latitude: 52.5, longitude: 13.4}", "plaec: 3", 2, "do you mean `place`?"),
    ("place: {latitude: 52.5, longitude: 13.4}", "page: {host: 0.0.0.0}", 2, "wants a `token`"),
    ("place: {latitude: 52.5, longitude: 13.4}", "page: {port: 99999}", 2, "from 0 to 65535"),
    ("place: {latitude: 52.5, longitude: 13.4}", "broker: {password_file: /none/x}", 2, "No such"),
    ("routines:", "routine:", 8, "do you mean `routines`?"),
    ("devices:", "devices: &a", 21, ""),
    ("do: [{set: lamp, to: off}]", "do: []", 20, "1 to 64 commands"),
    ("do: [{set: lamp, to: off}]", "do: [{set: lamp, to: off}", 21, "no YAML"),
]


DO = "routines: {a: {do: [{set: d, to: on}]}}\n"
# A whole text, the line of the mistake, and a part of what is told.
WHOLE = [
    (f"devices: {{}}\n{DO}", 1, "there is no device"),
    ("devices: {d: {kind: plug}}\nroutines: {}\n", 2, "there is no routine"),
    (DO, 1, "the file has no `devices`"),
    ("devices: {d: {kind: plug}}\n", 1, "the file has no `routines`"),
    (f"devices:\n  d: {{kind: choice, property: p, values: {{a: [1], b: B}}}}\n{DO}", 2,
     "`a` is to be a word, and is a list"),
    (f"devices:\n  d: {{kind: choice, property: p, values: {{a: A}}}}\n{DO}", 2,
     "there are 1 values, and have to be 2 to 256"),
    (f"devices:\n  d: {{kind: choice, values: {{a: A, b: B}}}}\n{DO}", 2, "has no `property`"),
    (f"devices:\n  d: {{kind: colour, values: {{a: [1, 2], b: [0.1, 0.2]}}}}\n{DO}", 2,
     "`a` is to be a point of colour"),
    (f"devices:\n  d: {{kind: plug, label: ''}}\n{DO}", 2, "`label` of device `d` is to be a text"),
    (f"devices:\n  d: {{kind: plug, label: {'x' * 401}}}\n{DO}", 2, "400 printable characters"),
    ("devices: {d: {kind: plug}}\nroutines:\n  a: {do: [{set: d, to: on}], when: noon}\n", 3,
     "`when` of routine `a` is to be a list of triggers"),
    ("devices: {d: {kind: plug}}\nroutines:\n  a: {do: [{set: d, to: on}], when: [{at: 7}]}\n", 3,
     "a trigger has one of topic, entity, cron, sun, device, routine"),
    ("home-assistant: {token: x}\ndevices: {d: {kind: plug}}\nroutines:\n"
     "  a: {do: [{set: d, to: on}], when: [{entity: Button}]}\n", 4, "an entity as input_button"),
    ("devices: {d: {kind: plug}}\nroutines:\n"
     "  a: {do: [{set: d, to: on}], when: [{entity: a.b}]}\n", 3, "an entity wants"),
    ("[a]: 3\n", 1, "a key that is no word"), ("", 1, "the file is empty"),
    ("\n" + "[" * 21 + "]" * 21, 2, "more than 20 deep"), ("a: 1\nb: \x07\n", 2, "does not take"),
    ("# " + "x" * 1_000_000, 1, "more than 1000000 bytes"),
    ("devices:\n" + "".join(f"  d{at}: {{kind: plug}}\n" for at in range(257)) + "routines:\n"
     + "".join(f"  r{at}: {{do: [{{set: d{at}, to: on}}]}}\n" for at in range(257)), 1,
     "routines use 257 devices, and may use 256"),
    ("devices: {d: {kind: plug}}\nroutines:\n" + "".join(
        f"  r{at}: {{do: [{{set: d, to: on}}]}}\n" for at in range(1025)), 3,
     "there are 1025 routines, and may be 1024")]


class Homes(unittest.TestCase):
    def test_fine(self) -> None:
        home = read(FINE)
        self.assertEqual([device.name for device in home.devices[: home.core_count]],
                         ["lamp", "heat"])  # sensors that no routine checks are outside of the core
        on, off = home.routines
        self.assertEqual([command.value for command in on.commands], [102, 33])
        self.assertIsInstance(on.triggers[1], SunTrigger)
        self.assertIsInstance(on.triggers[3], TopicTrigger)
        first = off.triggers[0]
        assert isinstance(first, DeviceTrigger)
        self.assertEqual((home.devices[first.device].name, first.after), ("hall", 300))
        for text in (FINE, HOME):
            self.assertEqual(refusal(read(text)), "")

    def test_each_mistake_has_its_line(self) -> None:
        for old, new, line, part in MISTAKES:
            with self.subTest(new=new):
                self.assertIn(old, FINE)
                home, found = read_home(FINE.replace(old, new, 1))
                if not part:
                    continue
                self.assertIsNone(home)
                self.assertTrue(any(each.line == line and part in each.text for each in found),
                                [str(each) for each in found])

    def test_mistakes_of_whole_files(self) -> None:
        for text, line, part in WHOLE:
            with self.subTest(part=part):
                home, found = read_home(text)
                self.assertIsNone(home)
                self.assertTrue(any(each.line == line and part in each.text for each in found),
                                [str(each) for each in found])

    def test_aliases(self) -> None:
        _, found = read_home("a: &x [1]\nb: [*x, *x]\n")
        self.assertEqual((found[0].line, "aliases" in found[0].text), (2, True))

    def test_any_text(self) -> None:
        draw = random.Random(4)
        pieces = ["{", "}", "[", "]", ":", " ", "\n", "  ", "-", "'", '"', "lamp", "kind", "to",
                  "\t", "#", "*", "&", "!", "|", ">", "%", "@", "é", "\x00", "\x07", "\ud800",
                  "1e999", "nan", ".inf", "0x", "null", "~", "<<", "? ", "on"]
        for _ in range(600):
            text = list(FINE if draw.random() < 0.8 else "")
            for _ in range(draw.randint(1, 6)):
                at = draw.randint(0, len(text))
                text[at:at + draw.choice((0, 0, 1, 5))] = draw.choice(pieces)
            home, found = read_home("".join(text))
            self.assertEqual(home is None, bool(found))
            if home is not None:
                self.assertEqual(refusal(home), "")
        for each in ("[" * 100_000, "{a: " * 100_000, "x" * 2_000_000, "", "~", "- 1", "3"):
            self.assertIsNone(read_home(each)[0])

    def test_seconds(self) -> None:
        for text, seconds in (("90", 90), ("5m", 300), ("5 min", 300), ("1.5h", 5400),
                              ("20ms", 0.02)):
            self.assertAlmostEqual(seconds_of(text) or 0, seconds)
        for text in ("", "m", "5 x", "nan", "inf", "1e999s", "-"):
            self.assertIsNone(seconds_of(text))


if __name__ == "__main__":
    unittest.main()
