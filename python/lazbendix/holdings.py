"""Who has a device, and who has it on lease, behind an entry of a window's history, as far as the
history tells it."""
from typing import NamedTuple

from lazbendix.records import QuickHub
from lazbendix.reference.hub import Hub


class Lease(NamedTuple):
    """A run, the borrower, stands before runs that were placed before it, and is to use the device
    before they do."""

    device: int
    borrower: int
    lenders: tuple[int, ...]
    deadline: int  # ms


def holders(hub: Hub, quick: QuickHub, device: int) -> list[int]:
    """The runs that have touched the device and hold it. The weak model knows no holding."""
    if hub.is_weak:
        return []
    users = quick.live_users(device)
    return [run for run in users if hub.has_touched(run, device) and hub.holds(run, device)]


def leases_on(hub: Hub, quick: QuickHub, device: int) -> list[Lease]:
    """The leases of the device that may be revoked. The weak model knows none, and first come first
    served makes none."""
    history = hub.history
    if hub.is_weak or history.mode.scheduler == "fcfs":
        return []
    users = [run for run in quick.live_users(device) if history.is_open(run, device)]
    leases = []
    for place, run in enumerate(users):
        lenders = tuple(x for x in users[place + 1 :] if history.placed[x] < history.placed[run])
        if lenders:
            leases.append(Lease(device, run, lenders, hub.deadline(run, device)))
    return leases
