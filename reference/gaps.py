"""The gaps of a line: which of its items stand before a run that the timeline places, and how they
come there.

An item must stand before each one behind it from which it is not apart. A set of items is told by
their places in the line as it stands. It is closed where it has, with each item, all that must
stand before it.
"""
from __future__ import annotations

from typing import TYPE_CHECKING

from .serial import Item, Ran

if TYPE_CHECKING:
    from .history import History


class Gap:
    """Where a run comes into the line of a history, planned from this moment on."""

    def __init__(self, history: History, run: int, moment: int) -> None:
        self.history, self.run, self.moment = history, run, moment
        self.line = list(history.line)
        needed = {place for place, item in enumerate(self.line) if self.needs(item)}
        self.chosen = self.closed(needed | set(range(self.first_live())))
        while misfits := self.misfits():
            self.chosen = self.closed(self.chosen | misfits)

    @property
    def before(self) -> list[Item]:
        """The items that stand before the run, in their order."""
        return [item for place, item in enumerate(self.line) if place in self.chosen]

    @property
    def behind(self) -> list[Item]:
        return [item for place, item in enumerate(self.line) if place not in self.chosen]

    def devices(self, item: Item) -> set[int]:
        return (
            set(self.history.runs[item.run].footprint) if isinstance(item, Ran) else {item.device}
        )

    def follows(self, item: Item, other: Item) -> bool:
        return (
            isinstance(item, Ran)
            and isinstance(other, Ran)
            and self.history.runs[item.run].follows == other.run
        )

    def are_apart(self, item: Item, other: Item) -> bool:
        """Whether two neighbours may change places: no device is used by both, and neither follows
        the other.
        """
        shared = self.devices(item) & self.devices(other)
        return not (shared or self.follows(item, other) or self.follows(other, item))

    def closed(self, places: set[int]) -> set[int]:
        """The least closed set with these places. What an item brings in stands before it, so once
        from the end on is enough.
        """
        chosen: set[int] = set()
        for place in reversed(range(len(self.line))):
            if place in places or any(
                not self.are_apart(self.line[place], self.line[later]) for later in chosen
            ):
                chosen.add(place)
        return chosen

    def first_live(self) -> int:
        """The place of the first live run, or the end."""
        lives = [
            place
            for place, item in enumerate(self.line)
            if isinstance(item, Ran) and self.history.is_live(item.run)
        ]
        return min(lives, default=len(self.line))

    def needs(self, item: Item) -> bool:
        """Whether the item stands before the run whatever is planned: it has used a device of the
        run, or may do so next.
        """
        own = set(self.history.runs[self.run].footprint)
        if not isinstance(item, Ran):
            return item.device in own
        following = self.history.next_command(item.run)
        is_next = (
            self.history.is_live(item.run) and following is not None and following.device in own
        )
        is_followed = (
            self.history.is_committed(item.run) and self.history.runs[self.run].follows == item.run
        )
        return is_next or is_followed or not own.isdisjoint(self.history.sees_up[item.run])

    def misfits(self) -> set[int]:
        """The places of the live runs, outside of the set, that are to begin on a device before the
        run is done there.
        """
        plan = self.history.planned_times(self.run, self.before, self.moment)
        places = set()
        for place, item in enumerate(self.line):
            if (
                place not in self.chosen
                and isinstance(item, Ran)
                and self.history.is_live(item.run)
            ):
                planned = self.history.plans[item.run]
                shared = [
                    device
                    for device in plan
                    if device in planned and not self.history.has_skipped(item.run, device)
                ]
                if any(planned[device][0] < plan[device][1] for device in shared):
                    places.add(place)
        return places
