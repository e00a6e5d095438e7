"""A home whose calls are kept in a log, so that a new process makes it again."""
import zlib
from contextlib import contextmanager
from dataclasses import dataclass, field, replace
from functools import partial
from typing import Any, Callable, Collection, Iterator, NoReturn

from lazbendix._calls import LIBRARY
from lazbendix.call_log import CallLog, Head, LogFault, LogRefused, Record, head_of
from lazbendix.hubs import Hub
from lazbendix.logged_calls import (
    CallKind,
    LoggedCall,
    added,
    answer_of,
    began,
    entries_bytes,
    gave,
    number_bytes,
    plain_time,
    time_number,
    time_text,
    turn_bytes,
)
from lazbendix.told import (
    Answer,
    Dead,
    Entry,
    EntryKind,
    Go,
    Model,
    Moved,
    NoRun,
    Over,
    Refused,
    Scheduler,
    Stand,
    Status,
    Task,
    Turn,
    Waits,
)

DRIVES = (Task.DRIVE, Task.RESTORE)
CHANGES = frozenset(
    "begin_window add_run window take give probe close_window restand lose".split()
)
ENDS = (EntryKind.COMMITTED, EntryKind.ABORTED)


@dataclass(frozen=True)
class Report:
    """Something to hand on. Reports are numbered from 1 in the order of the calls; one that is
    handed out once more has its number again."""

    number: int


@dataclass(frozen=True)
class Triggered(Report):
    """A trigger was taken: it is in the queue, and a kill does not lose it."""

    trigger: int
    routine: int


@dataclass(frozen=True)
class Ended(Report):
    """A run has ended; `trigger` is 0 where the run is that of none."""

    trigger: int
    run: int
    end: Entry


@dataclass(frozen=True)
class Closed(Report):
    """A window was closed. `at` is the time of one that was begun; of each of its runs there is the
    trigger, 0 for none, and the routine, none where it is only in the script."""

    window: int
    at: str
    triggers: tuple[int, ...]
    routines: tuple[int | None, ...]
    text: str


@dataclass(frozen=True)
class Stood(Report):
    """Between two windows the home was told of a device: how it stands from then on."""

    device: int
    stand: Stand


@dataclass(frozen=True)
class LetOut:
    """What may leave the home: calls of devices to make, and reports to hand on."""

    calls: tuple[Go, ...]
    reports: tuple[Report, ...]


@dataclass
class Runs:
    """The runs of a window, as far as they were added."""

    at: str
    triggers: list[int] = field(default_factory=list)
    routines: list[int | None] = field(default_factory=list)


class LoggedHub(Hub):
    """A home whose calls go to a log: `CallLog.hub` opens it.

    Make the calls of devices that `let_out` hands out, and no others, and report what it hands out,
    and nothing else: it syncs the log before a device is driven and before anything is reported.
    Call it again when what it handed out before was made or begun, and reported. After a kill the
    home is as it was at the last sync or later, and a report that was perhaps not handed on is
    handed out once more: whoever hears of it knows the triggers by their numbers.

    All calls may raise `LogRefused` with FAILED, where the disk refused a write or a sync: then
    nothing may be let out any more. End the process, or open log and home anew.
    """

    def __init__(
        self,
        log: CallLog,
        script: bytes,
        model: Model,
        scheduler: Scheduler,
        other_version: bool,
    ) -> None:
        self._is_ahead = False
        super().__init__(script, model, scheduler)
        try:
            self._log, self._script, self._mode = log, script, (model, scheduler)
            self._devices = self.counts().devices
            self._forget()
            records = log.start(self._head(), other_version)
            self.is_new = not records
            self._make_again(records)
        except BaseException:
            self.close()
            raise

    @classmethod
    def reopen(cls, *_: Any, **__: Any) -> NoReturn:
        """A home with a log is opened by its log."""
        raise TypeError("CallLog.hub opens a home with a log")

    def __enter__(self) -> "LoggedHub":
        return self

    def _head(self) -> Head:
        return head_of(self._script, *self._mode, LIBRARY.lazbendix_version())

    def _forget(self) -> None:
        """All that follows from the calls of the log, and is not in the library."""
        self.moment = 0  # of the last call; moments go on from it
        self.last_time: str | None = None  # of the window begun last
        self.begun: int | None = None  # a window that was begun, and not opened
        self.opened: int | None = None  # the window that is open
        self.queue: dict[int, int] = {}  # by trigger its routine, where no window has its run
        self.down: set[int] = set()  # the devices that are counted down
        self.former: tuple[Go, ...] = ()  # the calls that were out when the log was opened
        self._windows: dict[int, Runs] = {}
        self._triggers = self._tickets = self._base = self._answers = 0
        self._next_trigger = 0  # whose run is added next
        self._ready: dict[int, Go] = {}
        self._reports: list[Report] = []
        self._made = self._handed = self._noted = 0  # reports
        self._again: Record | None = None  # the record that is made again

    # The log.

    @contextmanager
    def _logging(self) -> Iterator[None]:
        """A call that changes the home, with its record and its reports. Where the call was made
        and something hinders these, the home is ahead of the log, and must not go on."""
        with self._lock:
            self._log.may_go_on()
            try:
                yield
            except BaseException as error:
                if self._is_ahead:
                    self._log.fail(error)
                raise
            self._is_ahead = False

    def _call(self, name: str, *words: Any) -> None:
        self._is_ahead |= name in CHANGES
        try:
            super()._call(name, *words)
        except Refused:
            self._is_ahead &= name not in CHANGES  # a call that is refused changes nothing
            raise

    def _keep(self, call: LoggedCall, answered: bytes = b"") -> None:
        self._answers = zlib.crc32(answered, self._answers)
        if self._again is None:
            self._log.append(call, self._answers)
        elif self._again != (call, self._answers):
            raise LogRefused(LogFault.DIFFERS, f"{self._again.call} is {call} now")

    def _report(self, make: Callable[[int], Report]) -> None:
        """Reports that were handed on in a former life are not made again."""
        self._made += 1
        if self._made > self._handed:
            self._reports.append(make(self._made))

    def _note(self, made: tuple[Entry, ...]) -> None:
        for entry in made:
            if entry.kind is EntryKind.FELL:
                self.down.add(entry.device)
            elif entry.kind is EntryKind.ROSE:
                self.down.discard(entry.device)
            elif entry.kind in ENDS:
                trigger = self._runs().triggers[entry.run - 1]
                self._report(partial(Ended, trigger=trigger, run=entry.run, end=entry))

    def _runs(self) -> Runs:
        """Those of the window that is open, or else begun."""
        number = self.begun if self.opened is None else self.opened
        assert number is not None
        return self._windows[number]

    def let_out(self) -> LetOut:
        """What may leave the home now. Syncs the log where a device is to be driven, or something
        to be reported: once for all of it. Raises `LogRefused` with FAILED, and lets nothing out.
        """
        with self._lock:
            self._log.may_go_on()
            if self._noted < self._handed:
                self._noted = self._handed
                self._log.append(LoggedCall(CallKind.REPORTED, first=self._noted), 0)
            out = LetOut(tuple(self._ready.values()), tuple(self._reports))
            self._ready, self._reports = {}, []
            self._handed = self._made
        if out.reports or any(go.task in DRIVES for go in out.calls):
            self._log.sync()
        return out

    def call_again(self, not_twice: Collection[int] = ()) -> None:
        """Lets out once more the calls that were out when the log was opened (`former`). Those that
        drive a device of `not_twice` are answered `Dead`.

        Such a call of the former life may still be on its way, and must not arrive after a later
        one. Call this when the time limit of a call is over, or where the way to each device keeps
        the order over a restart.
        """
        for go in self.former:
            if go.device in not_twice and go.task in DRIVES:
                self.give(go.device, go.ticket, Dead(), self.moment)
            else:
                self._ready[go.device] = go
        self.former = ()

    # Triggers.

    def runs(self) -> dict[int, int]:
        """By run of the window that is open, or else begun, its trigger, 0 for none."""
        if self.opened is None and self.begun is None:
            return {}
        return dict(enumerate(self._runs().triggers, 1))

    def trigger(self, routine: int) -> int:
        """Takes a trigger into the queue, and answers its number. ABSENT."""
        with self._logging():
            if not 0 <= routine < self.counts().routines:
                raise Refused(Status.ABSENT, "trigger")
            self._take_trigger(self._triggers + 1, routine)
            return self._triggers

    def _take_trigger(self, trigger: int, routine: int) -> None:
        self._triggers = max(self._triggers, trigger)
        self.queue[trigger] = routine
        self._keep(LoggedCall(CallKind.TRIGGERED, value=routine, first=trigger))
        self._report(partial(Triggered, trigger=trigger, routine=routine))

    def add_run_of(self, trigger: int, follows: int = 0) -> int:
        """`add_run` of a trigger that is in the queue, which then leaves it."""
        with self._logging():
            if trigger not in self.queue:
                raise ValueError(f"trigger {trigger} is not in the queue")
            run = super().add_run(self.queue[trigger], follows)
            self._keep(LoggedCall(CallKind.RUN_OF, first=trigger))
            self._next_trigger = trigger
            self._run_added(run, self.queue[trigger], follows)
            return run

    # The calls of a hub. Each is made, and then appended.

    def begin_window(self, at: str, probes: int = 0) -> int:
        with self._logging():
            number = super().begin_window(at, probes)
            at = plain_time(at)
            if number == 0:
                self._windows.clear()
            self.last_time, self.begun = at, number
            self._windows[number] = Runs(at)
            self._keep(began(at, probes), number_bytes(number))
            return number

    def add_run(self, routine: int, follows: int = 0) -> int:
        with self._logging():
            run = super().add_run(routine, follows)
            self._run_added(run, routine, follows)
            return run

    def _run_added(self, run: int, routine: int, follows: int) -> None:
        trigger, self._next_trigger = self._next_trigger, 0
        self.queue.pop(trigger, None)
        self._runs().triggers.append(trigger)
        self._runs().routines.append(routine)
        self._keep(added(routine, follows), number_bytes(run))

    def window(self, number: int) -> None:
        with self._logging():
            super().window(number)
            count = self.run_count(number)
            self._windows.setdefault(number, Runs("", [0] * count, [None] * count))
            self.moment, self.opened = 0, number
            self.begun = None if self.begun == number else self.begun
            self._keep(LoggedCall(CallKind.WINDOW, value=number))

    def take(self, run: int, now: int) -> Turn:
        with self._logging():
            moment = max(self.moment, now)
            turn = super().take(run, moment)
            self.moment = moment
            if isinstance(turn, (Waits, NoRun)):
                return turn  # the moment alone has changed, and the next record has one
            if isinstance(turn, Go):
                turn = self._going(turn)
            self._keep(LoggedCall(CallKind.TAKE, value=run, second=moment), turn_bytes(turn))
            if isinstance(turn, (Moved, Over)):
                self._note(turn.made)
            return turn

    def give(self, device: int, ticket: int, answer: Answer, now: int) -> tuple[Entry, ...]:
        with self._logging():
            moment, own = max(self.moment, now), ticket - self._base
            if own < 1:
                raise Refused(Status.NOT_OUT, "give")
            made = super().give(device, own, answer, moment)
            self.moment = moment
            self._ready.pop(device, None)
            self.former = tuple(go for go in self.former if go.device != device)
            self._keep(gave(device, own, answer, moment), entries_bytes(made))
            self._note(made)
            return made

    def probe(self, device: int) -> Go:
        with self._logging():
            go = self._going(super().probe(device))
            self._keep(LoggedCall(CallKind.PROBE, device=device), turn_bytes(go))
            return go

    def _going(self, go: Go) -> Go:
        """A device went out: its call is to be let out."""
        self._ready[go.device] = go = self._based(go)
        self._tickets = max(self._tickets, go.ticket)
        return go

    def out(self, device: int) -> Go:
        return self._based(super().out(device))

    def _based(self, go: Go) -> Go:
        """Tickets go on where those of the log before ended."""
        return replace(go, ticket=go.ticket + self._base) if self._base else go

    def close_window(self) -> None:
        with self._logging():
            super().close_window()
            runs, number = self._runs(), self.opened
            assert number is not None
            text = self.record(trace=True)
            self.opened = None
            del self._windows[number]
            self._keep(LoggedCall(CallKind.CLOSE_WINDOW), text.encode())
            self._report(
                partial(
                    Closed,
                    window=number,
                    at=runs.at,
                    triggers=tuple(runs.triggers),
                    routines=tuple(runs.routines),
                    text=text,
                )
            )

    def restand(self, device: int, value: int) -> None:
        with self._logging():
            super().restand(device, value)
            self.down.discard(device)
            self._keep(LoggedCall(CallKind.RESTAND, device=device, value=value))
            self._report(partial(Stood, device=device, stand=self.stand(device)))

    def lose(self, device: int) -> None:
        with self._logging():
            super().lose(device)
            self.down.add(device)
            self._keep(LoggedCall(CallKind.LOSE, device=device))
            self._report(partial(Stood, device=device, stand=self.stand(device)))

    # A new life.

    def _make_again(self, records: list[Record]) -> None:
        """Makes the calls of the records, one after another."""
        handed = [r.call.first for r in records if r.call.kind == CallKind.REPORTED]
        self._noted = self._handed = max(handed, default=0)
        for number, record in enumerate(records):
            self._again = record
            try:
                self._make(record.call)
            except Refused as refused:
                raise LogRefused(LogFault.DIFFERS, str(refused), number) from refused
            except LogRefused as refused:
                raise LogRefused(refused.fault, refused.detail, number) from refused
        self._again, self._next_trigger = None, 0
        self._ready.clear()
        self.former = tuple(self._outs())
        self._log.append(LoggedCall(CallKind.STARTED), 0)

    def _make(self, call: LoggedCall) -> None:
        match call.kind:
            case CallKind.BEGIN_WINDOW:
                self.begin_window(time_text(call.first), call.value)
            case CallKind.ADD_RUN:
                self.add_run(call.value, call.first)
            case CallKind.WINDOW:
                self.window(call.value)
            case CallKind.TAKE:
                self.take(call.value, call.second)
            case CallKind.GIVE:
                ticket = call.first + self._base
                self.give(call.device, ticket, answer_of(call), call.second)
            case CallKind.PROBE:
                self.probe(call.device)
            case CallKind.CLOSE_WINDOW:
                self.close_window()
            case CallKind.RESTAND:
                self.restand(call.device, call.value)
            case CallKind.LOSE:
                self.lose(call.device)
            case _:
                self._make_own(call)

    def _make_own(self, call: LoggedCall) -> None:
        """What a record of the file's own says."""
        match call.kind:
            case CallKind.STARTED:
                self._next_trigger = 0
            case CallKind.TRIGGERED:
                self._take_trigger(call.first, call.value)
            case CallKind.RUN_OF:
                self._next_trigger = call.first
            case CallKind.ANEW:
                self._triggers, self._tickets = call.value, call.first
                self._base = call.first
                self.last_time = time_text(call.second) if call.second else None
            case CallKind.COUNTED:
                self._made = call.first
                self._reports.clear()  # of calls that only bring the home to where it was
            case CallKind.SYNCED | CallKind.REPORTED:
                pass
            case _:
                raise LogRefused(LogFault.DIFFERS, f"there is no call of kind {call.kind}")

    def _outs(self) -> Iterator[Go]:
        """The calls of devices that are out."""
        for device in range(self._devices if self.opened is not None else 0):
            try:
                yield self.out(device)
            except Refused as refused:
                if refused.status is not Status.NOT_OUT:
                    raise

    # A new log.

    def begin_anew(self) -> None:
        """Begins the log anew, so that a restart has fewer calls to make again: the home of now,
        in a new file that takes the place of the old one. What `record` and `entries` have of the
        window closed last is gone then, and windows are counted from the script's. Tickets and
        triggers go on. IN_WINDOW where a window is open or begun; NOT_QUIET where something is
        still to be let out. Where the new file can not be written it raises `LogRefused` with
        FAILED, and the old one goes on.
        """
        with self._lock:
            self._log.may_go_on()
            if self.opened is not None or self.begun is not None:
                raise Refused(Status.IN_WINDOW, "begin_anew")
            if self._reports or self._ready:
                raise Refused(Status.NOT_QUIET, "begin_anew")
            fresh = Hub(self._script, *self._mode)
            with fresh:
                self._log.replace(self._head(), self._records_anew(fresh))
                self._handle, fresh._handle = fresh._handle, self._handle
            self._windows.clear()
            self._answers, self._base = 0, self._tickets
            self._noted = self._handed = self._made

    def _records_anew(self, fresh: Hub) -> list[Record]:
        """The records that bring a home that was just opened to where this one is."""
        last = time_number(self.last_time) if self.last_time else 0
        calls = [LoggedCall(CallKind.ANEW, 0, 0, self._triggers, self._tickets, last)]
        for device in range(self._devices):
            stand = self.stand(device)
            if stand.value != fresh.stand(device).value:
                fresh.restand(device, stand.value)
                calls.append(LoggedCall(CallKind.RESTAND, device=device, value=stand.value))
            if not stand.up:
                fresh.lose(device)
                calls.append(LoggedCall(CallKind.LOSE, device=device))
            if fresh.stand(device) != stand:
                raise LogRefused(LogFault.DIFFERS, f"device {device} does not stand at {stand}")
        calls.append(LoggedCall(CallKind.COUNTED, first=self._made - len(self.queue)))
        for trigger, routine in self.queue.items():
            calls.append(LoggedCall(CallKind.TRIGGERED, value=routine, first=trigger))
        calls.append(LoggedCall(CallKind.REPORTED, first=self._made))
        return [Record(call, 0) for call in calls]
