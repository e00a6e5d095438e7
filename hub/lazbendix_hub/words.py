"""What the core tells, in words: for whom a run waits, and why it was taken back."""
from __future__ import annotations

from lazbendix import Cause, Entry, Waits, Why

from lazbendix_hub.home import Home


def waits_text(turn: Waits, home: Home, names: dict[int, str]) -> str:
    """For what a run waits, and for which other one. `names` has the routines of the runs."""
    run = f"{names.get(turn.run, 'a run')} (run {turn.run})"
    device = home.devices[turn.device].label if turn.device < home.core_count else "a device"
    match turn.why:
        case Why.FOLLOWS | Why.STRICT:
            return f"waits for the end of {run}"
        case Why.DENIED:
            return f"waits for {device}, which {run} has"
        case Why.BEHIND:
            return f"waits for {device}, behind {run}"
        case Why.DIRTY:
            return f"waits for {device}, which {run} may still take back"
        case Why.BUSY:
            return f"waits for an answer of {device}"
    return "waits"


def cause_text(entry: Entry, home: Home, routine: int) -> str:
    """Why a run is taken back."""
    commands = home.routines[routine].commands
    device = home.devices[entry.device].label if entry.device < home.core_count else "a device"
    step, at = "a step", device
    if entry.command < len(commands):
        step = f"step {commands[entry.command].step}"
        at = home.devices[commands[entry.command].device].label
    match entry.cause:
        case Cause.MUST_DOWN:
            return f"{at} did not answer ({step}), and the routine needs it"
        case Cause.REFUTED:
            command = commands[entry.command]
            wanted = home.devices[command.device].kind.word(command.value)
            return f"{at} is not {wanted}, as {step} asks"
        case Cause.LOST:
            return f"{device} failed while the routine was using it"
        case Cause.REVOKED:
            return f"{device} was taken back for run {entry.lender}, since its time was over"
        case Cause.DOWN_AT_END:
            return f"{device} was down at the end"
    return ""


def cause_kind(entry: Entry) -> str:
    """The cause as one word, for figures and filters."""
    return {Cause.MUST_DOWN: "no-answer", Cause.REFUTED: "check", Cause.LOST: "lost",
            Cause.REVOKED: "overdue", Cause.DOWN_AT_END: "down-at-end"}.get(entry.cause, "")
