"""Kinds of devices: values, words and payloads. It wants no package."""
import unittest

from lazbendix_hub.kinds import COLOURS, SWITCHES, BadWord, Dimmer, Kind, Named, Palette, Steps

KINDS: tuple[Kind, ...] = (
    Dimmer(), Dimmer(1, "Dimmer", "POWER", 100, False), Palette(COLOURS), Named("state", SWITCHES),
    Steps("occupied_heating_setpoint", 5, 30, 0.5), Steps("position", 0, 100, 1, 2),
    Named("state", {"unlocked": ["UNLOCK", "UNLOCKED"], "locked": ["LOCK", "LOCKED"]}),
    Named("contact", {"open": [False], "shut": [True]}, None, True))


class Kinds(unittest.TestCase):
    def test_each_value_is_found_again(self) -> None:
        for kind in KINDS:
            for value in range(kind.low, min(kind.high, 400) + 1):
                self.assertEqual(kind.value(kind.payload(value)), value)
                self.assertEqual(kind.of_word(kind.word(value)), value, kind.word(value))

    def test_tolerance(self) -> None:
        lamp, blinds, heat = Dimmer(1), Steps("position", 0, 100, 1, 2), Steps("t", 5, 30, 0.5)
        self.assertTrue(lamp.is_near(119, 120))
        self.assertFalse(lamp.is_near(0, 1))  # off is not nearly on
        self.assertTrue(blinds.is_near(98, 100))
        self.assertFalse(blinds.is_near(97, 100))
        self.assertEqual((heat.of_word("21.5"), heat.word(33)), (33, "21.5"))
        palette = Palette({"warm": (0.46, 0.41), "red": (0.68, 0.31)})
        self.assertEqual(palette.value({"color": {"x": 0.463, "y": 0.406}}), 0)
        self.assertIsNone(palette.value({"color": {"x": 0.3, "y": 0.3}}))

    def test_words(self) -> None:
        lamp = Dimmer()
        for word, value in (("on", 254), ("off", 0), ("0%", 0), ("100%", 254), ("1%", 3), ("7", 7)):
            self.assertEqual(lamp.of_word(word), value)
        for word in ("255", "-1", "1.5", "101%", "nan", "%", "", "inf"):
            self.assertRaises(BadWord, lamp.of_word, word)

    def test_any_payload(self) -> None:
        hostile: tuple[dict[str, object], ...] = (
            {"state": []}, {"brightness": "7"}, {"brightness": 1e400}, {"position": None},
            {"brightness": 10**400}, {"color": 3}, {"color": {"x": {}, "y": 1}}, {"contact": 1},
            {"POWER": True}, {"state": {"state": 1}}, {"occupied_heating_setpoint": True},
            {"brightness": float("nan")})
        for told in hostile:
            for kind in KINDS:
                self.assertIsNone(kind.value(told), told)
        self.assertEqual(Steps("p", 0, 100).value({"p": -1e300}), 0)
        self.assertIsNone(Named("s", {"a": [True], "b": ["x"]}).value({"s": 1}))

    def test_toggles(self) -> None:
        found = [kind.toggled() for kind in KINDS]
        self.assertEqual(found, [(254, 1), (100, 1), None, (1, 1), None, None, (1, 1), None])
        blinds = Steps("position", 0, 100, 1, 2, {"open": 100, "shut": 0})
        self.assertEqual(blinds.toggled(), (100, 3))  # up to its tolerance it counts as shut


if __name__ == "__main__":
    unittest.main()
