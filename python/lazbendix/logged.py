"""The bytes of calls that changed a home. One after another they are a log, of which `Hub.reopen`
opens it again. docs/CALL-LOG.md has the format, and says which calls are kept."""
from lazbendix import logged_calls
from lazbendix.logged_calls import LAYOUT, CallKind, LoggedCall
from lazbendix.told import Answer

CALL_SIZE = LAYOUT.size


def began(at: str, probes: int = 0) -> bytes:
    """A window was begun at this time, as `begin_window` takes it."""
    return logged_calls.began(at, probes).to_bytes()


def added(routine: int, follows: int = 0) -> bytes:
    """A run was added, or joined the window."""
    return logged_calls.added(routine, follows).to_bytes()


def opened(number: int) -> bytes:
    """The window of this number was opened."""
    return LoggedCall(CallKind.WINDOW, value=number).to_bytes()


def took(run: int, now: int) -> bytes:
    """The run made a step: it did not wait, and the window has it."""
    return LoggedCall(CallKind.TAKE, value=run, second=now).to_bytes()


def gave(device: int, ticket: int, answer: Answer, now: int) -> bytes:
    """The device told this to the call with this ticket."""
    return logged_calls.gave(device, ticket, answer, now).to_bytes()


def probed(device: int) -> bytes:
    """A probe was sent."""
    return LoggedCall(CallKind.PROBE, device=device).to_bytes()


def closed() -> bytes:
    """The window was closed."""
    return LoggedCall(CallKind.CLOSE_WINDOW).to_bytes()


def restood(device: int, value: int) -> bytes:
    """The device was found up at this value, between two windows."""
    return LoggedCall(CallKind.RESTAND, device=device, value=value).to_bytes()


def lost(device: int) -> bytes:
    """The device was found down, between two windows."""
    return LoggedCall(CallKind.LOSE, device=device).to_bytes()
