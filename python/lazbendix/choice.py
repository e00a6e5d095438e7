"""Which part of a day is shown."""
from typing import NamedTuple

from lazbendix.records import Day, Unread
from lazbendix.reference.script import Script


class Choice(NamedTuple):
    """The windows and runs that are asked for; all where nothing is."""

    windows: tuple[int, int] | None = None  # the first and the last one, from 1
    run: int | None = None
    device: str | None = None
    aborted: bool = False

    @property
    def narrows(self) -> bool:
        """Whether only some runs of a window are asked for."""
        return self.run is not None or self.device is not None or self.aborted

    def check(self, script: Script) -> None:
        """Raises `Unread` where the script has no such window or device."""
        count = len(script.windows)
        if self.windows and self.windows[1] > count:
            told = "1 window" if count == 1 else f"{count} windows"
            raise Unread(f"the day has {told}, and none with the number {self.windows[1]}")
        if self.device is not None and self.device not in [
            device.name for device in script.devices
        ]:
            raise Unread(f'the script has no device "{self.device}"')

    def numbers(self, script: Script, day: Day) -> list[int]:
        """The windows that are shown, from 0, of those that the record tells. Raises `Unread`."""
        self.check(script)
        first, last = self.windows or (1, len(script.windows))
        told = range(first - 1, min(last, len(day.windows)))
        return [number for number in told if not self.narrows or self.runs(script, day, number)]

    def runs(self, script: Script, day: Day, number: int) -> list[int]:
        """The runs of a window that are shown."""
        runs = range(1, len(script.windows[number].runs) + 1)
        return [run for run in runs if self.takes(script, day, number, run)]

    def takes(self, script: Script, day: Day, number: int, run: int) -> bool:
        """Whether a run is shown."""
        if self.run not in (None, run):
            return False
        if self.aborted and day.windows[number].ends.get(run) is None:
            return False
        commands = script.routines[script.windows[number].runs[run - 1].routine].commands
        names = [script.devices[command.device].name for command in commands]
        return self.device is None or self.device in names
