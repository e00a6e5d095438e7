"""A home behind the library's handle."""
import threading
from ctypes import byref, c_size_t, c_uint8, c_uint32, c_uint64
from types import TracebackType
from typing import Any, Iterator

from lazbendix._calls import (
    LIBRARY,
    Handle,
    ToldCounts,
    ToldEntry,
    ToldFault,
    ToldItem,
    ToldLeft,
    ToldMade,
    ToldStand,
    ToldTurn,
)
from lazbendix.told import (
    Answer,
    CallRefused,
    Cause,
    Counts,
    Dead,
    Entry,
    EntryKind,
    Fault,
    FaultKind,
    Found,
    Given,
    Go,
    Item,
    ItemKind,
    Left,
    Model,
    Moved,
    NoRun,
    Over,
    Part,
    Refused,
    Scheduler,
    ScriptRefused,
    Stand,
    Status,
    Task,
    Turn,
    Waits,
    Why,
    Worked,
)

LONGEST_NAME = 32
MOVED, WAITS, GO, OVER = 1, 2, 3, 4
RUN_LEFT, DEVICE_LEFT = 1, 2


class Hub:
    """A home, opened from the text of a script. All calls but these raise `Refused` with a status
    where they do nothing:

    `close` and the end of a `with` free all that is behind it, whatever is open or out.

    Numbers are at least 0 and fit in 32 bits, tickets and moments in 64. One call at a time is made
    on it, under a lock of its own, so it may be used by several threads.
    """

    def __init__(
        self,
        script: bytes | str,
        model: Model = Model.EVENTUAL,
        scheduler: Scheduler = Scheduler.FCFS,
    ) -> None:
        """Opens the home: every device up at its start, and no window open. Raises `ScriptRefused`,
        or `Refused` with MODE or NO_MEMORY."""
        self._handle, self._lock = Handle(0, None), threading.RLock()
        data, fault = _bytes(script), ToldFault()
        status = LIBRARY.lazbendix_open(
            byref(self._handle), data, len(data), model, scheduler, byref(fault)
        )
        _opened(Status(status), "open", fault)

    @classmethod
    def reopen(
        cls,
        script: bytes | str,
        log: bytes,
        model: Model = Model.EVENTUAL,
        scheduler: Scheduler = Scheduler.FCFS,
    ) -> tuple["Hub", int]:
        """Opens the home of the script and makes the calls of the log on it (`lazbendix.logged` has
        their bytes): it is the home on which they were made, also in the middle of a window. The
        log is read up to the first call that is cut off or is none; answers also how many bytes
        that are. Raises `CallRefused` where a call that is read is refused, and as an opening does.
        """
        hub = cls.__new__(cls)
        hub._handle, hub._lock = Handle(0, None), threading.RLock()
        data, fault, good = _bytes(script), ToldFault(), c_uint64()
        status = Status(
            LIBRARY.lazbendix_reopen(
                byref(hub._handle),
                data,
                len(data),
                log,
                len(log),
                model,
                scheduler,
                byref(fault),
                byref(good),
            )
        )
        if status is Status.NO_CALL:
            raise CallRefused(good.value)
        _opened(status, "reopen", fault)
        return hub, good.value

    def close(self) -> None:
        """Frees the home. One that is closed stays closed, and its other calls raise `Refused` with
        CLOSED.
        """
        with self._lock:
            LIBRARY.lazbendix_end(byref(self._handle))

    def __enter__(self) -> "Hub":
        return self

    def __exit__(
        self,
        kind: type[BaseException] | None,
        value: BaseException | None,
        trace: TracebackType | None,
    ) -> None:
        self.close()

    def __del__(self) -> None:
        if hasattr(self, "_lock"):
            self.close()

    def _call(self, name: str, *words: Any) -> None:
        with self._lock:
            status = Status(getattr(LIBRARY, f"lazbendix_{name}")(byref(self._handle), *words))
        if status is not Status.DONE:
            raise Refused(status, name)

    # A window.

    def window(self, number: int) -> None:
        """Opens the script's window of this number, from 0. IN_WINDOW, ABSENT, TOO_MANY,
        NO_MEMORY.
        """
        self._call("window", _u32(number))

    def take(self, run: int, now: int) -> Turn:
        """Makes the step of the run at this moment, in ms. NO_WINDOW."""
        turn = ToldTurn()
        self._call("take", _u32(run), _u64(now), byref(turn))
        return _turn(turn)

    def give(self, device: int, ticket: int, answer: Answer, now: int) -> tuple[Entry, ...]:
        """Hands in what the device told to the call with this ticket, and answers the entries that
        it makes. NO_WINDOW, NOT_OUT, WRONG, DIFFERS: the device stays out."""
        made = ToldMade()
        told, value = _told(answer)
        self._call("give", _u32(device), _u64(ticket), told, _u32(value), _u64(now), byref(made))
        return _made(made)

    def probe(self, device: int) -> Go:
        """Sends a probe to the device. NO_WINDOW, NO_PROBE."""
        turn = ToldTurn()
        self._call("probe", _u32(device), byref(turn))
        return _go(turn)

    def is_blocked(self, run: int) -> bool:
        """Whether the run need not be taken: it waits, at every moment, until another step.
        NO_WINDOW.
        """
        yes = c_uint32()
        self._call("blocked", _u32(run), byref(yes))
        return yes.value == 1

    def blocked_runs(self) -> int:
        """The runs that need not be taken, as `is_blocked` tells it, the run r as the bit r - 1.
        NO_WINDOW."""
        runs = c_uint64()
        self._call("blocked_runs", byref(runs))
        return runs.value

    def out(self, device: int) -> Go:
        """With what the device is out, as `take` or `probe` told it. NO_WINDOW, ABSENT, NOT_OUT."""
        turn = ToldTurn()
        self._call("out", _u32(device), byref(turn))
        return _go(turn)

    def sealed(self) -> int:
        """How many items of the window's order are final: those before the first run that is live,
        all where none is. They stay in their order, whatever comes, and but under the weak model
        the order of the record begins with them. NO_WINDOW."""
        count = c_uint32()
        self._call("sealed", byref(count))
        return count.value

    def final_item(self, at: int) -> Item:
        """The final item at this place of the order, from 0. NO_WINDOW, ABSENT from `sealed` on."""
        item = ToldItem()
        self._call("final_item", _u32(at), byref(item))
        return Item(ItemKind(item.kind), item.run, item.device, item.number)

    def final_items(self) -> Iterator[Item]:
        """The items of the window's order that are final. NO_WINDOW."""
        for at in range(self.sealed()):
            yield self.final_item(at)

    def left(self) -> Left | None:
        """What is left to do in the window. NO_WINDOW."""
        left = ToldLeft()
        self._call("quiet", byref(left))
        if left.kind == RUN_LEFT:
            return Left(left.number, None)
        return Left(None, left.number) if left.kind == DEVICE_LEFT else None

    def close_window(self) -> None:
        """Closes the window. NO_WINDOW, NOT_QUIET."""
        self._call("close_window")

    # Texts and entries.

    def record(self, trace: bool = False) -> str:
        """The text of the window closed last, as a record has it. NO_RECORD, NO_MEMORY."""
        return self._text("record", 1 if trace else 0)

    def head(self) -> str:
        """The two lines above the windows of a record. NO_MEMORY."""
        return self._text("head")

    def entry_text(self, at: int) -> str:
        """The line of the entry at this place, as a trace has it: of the open window, or of the one
        closed last. ABSENT, NO_MEMORY."""
        return self._text("entry_text", _u64(at))

    def _text(self, name: str, *words: int) -> str:
        size, got = c_size_t(), c_size_t()
        with self._lock:
            self._call(name, *words, byref(size))
            room = (c_uint8 * max(size.value, 1))()
            self._call("read", 0, room, size.value, byref(got))
        return bytes(room[: got.value]).decode()

    def entry_count(self) -> int:
        """How many entries the open window has so far, or the one closed last."""
        count = c_uint64()
        self._call("entry_count", byref(count))
        return count.value

    def entry(self, at: int) -> tuple[Entry, int]:
        """The entry at this place, and its maker: the run that made the step, 0 for a probe.
        ABSENT.
        """
        entry, maker = ToldEntry(), c_uint32()
        self._call("entry_at", _u64(at), byref(entry), byref(maker))
        return _entry(entry), maker.value

    def entries(self) -> Iterator[Entry]:
        """The entries of the open window so far, or of the one closed last."""
        for at in range(self.entry_count()):
            yield self.entry(at)[0]

    # Windows of the moment.

    def begin_window(self, at: str, probes: int = 0) -> int:
        """Appends a window without runs at this time, `2021-04-26T07:00:00`, later than that of the
        window before, and answers its number. Where the script has the 288 windows of a day, they
        are dropped, and this one is number 0. IN_WINDOW, BAD_TIME, TOO_MANY, NO_MEMORY."""
        number, data = c_uint32(), at.encode()
        self._call("begin_window", data, len(data), _u32(probes), byref(number))
        return number.value

    def add_run(self, routine: int, follows: int = 0) -> int:
        """Appends a run of the routine to the window that was begun, or to the one that is open,
        where it is the script's last one, and answers its number; it waits for the end of the run
        that it follows, 0 for none. A run that joins an open window has not arrived, and nothing
        else of the window changes; who sleeps by `is_blocked` or `blocked_runs` asks again.
        NO_WINDOW, ABSENT, TOO_MANY (64 runs), BAD_FOLLOW, NO_MEMORY."""
        run = c_uint32()
        self._call("add_run", _u32(routine), _u32(follows), byref(run))
        return run.value

    def restand(self, device: int, value: int) -> None:
        """Tells the home, between two windows, that the device was found up at this value.
        IN_WINDOW, ABSENT, NO_VALUE.
        """
        self._call("restand", _u32(device), _u32(value))

    def lose(self, device: int) -> None:
        """Tells the home, between two windows, that the device is lost: the next window begins
        with it down, and a probe finds it. Its value stays. IN_WINDOW, ABSENT.
        """
        self._call("lose", _u32(device))

    # The home and its script.

    def stand(self, device: int) -> Stand:
        """How the device stands between two windows. IN_WINDOW, ABSENT."""
        stand = ToldStand()
        self._call("stand", _u32(device), byref(stand))
        return Stand(stand.value, stand.up == 1)

    def counts(self) -> Counts:
        """How many devices, routines and windows there are."""
        counts = ToldCounts()
        self._call("counts", byref(counts))
        return Counts(counts.devices, counts.routines, counts.windows)

    def run_count(self, window: int) -> int:
        """How many runs the script's window has, 0 where there is none."""
        count = c_uint64()
        self._call("run_count", _u32(window), byref(count))
        return count.value

    def device_name(self, device: int) -> str:
        """The name of the device, empty where there is none."""
        return self._name("device_name", _u32(device))

    def routine_name(self, routine: int) -> str:
        """The name of the routine, empty where there is none."""
        return self._name("routine_name", _u32(routine))

    def value_name(self, device: int, value: int) -> str:
        """The name of the device's value, empty where it has none."""
        return self._name("value_name", _u32(device), _u32(value))

    def _name(self, name: str, *words: int) -> str:
        room, size = (c_uint8 * LONGEST_NAME)(), c_size_t()
        self._call(name, *words, room, LONGEST_NAME, byref(size))
        return bytes(room[: size.value]).decode()


def _bytes(script: bytes | str) -> bytes:
    return script.encode() if isinstance(script, str) else bytes(script)


def _opened(status: Status, call: str, fault: ToldFault) -> None:
    """Raises why no home was opened, where none was."""
    if status is Status.REFUSED:
        raise ScriptRefused(
            Fault(
                FaultKind(fault.kind),
                Part(fault.part),
                fault.outer,
                fault.inner,
                fault.count,
                fault.limit,
            )
        )
    if status is not Status.DONE:
        raise Refused(status, call)


def library_version() -> str:
    """The version of the library, as its file VERSION has it."""
    number = LIBRARY.lazbendix_version()
    return f"{number // 1000000}.{number // 1000 % 1000}.{number % 1000}"


def _u32(number: int) -> int:
    """ctypes would cut it down to 32 bits without a word."""
    if not 0 <= number < 2**32:
        raise ValueError(f"{number} does not fit in 32 bits")
    return number


def _u64(number: int) -> int:
    if not 0 <= number < 2**64:
        raise ValueError(f"{number} does not fit in 64 bits")
    return number


def _told(answer: Answer) -> tuple[int, int]:
    match answer:
        case Worked():
            return 1, 0
        case Found(value):
            return 2, value
        case Dead():
            return 3, 0
    raise TypeError(f"{answer!r} is no answer")


def _entry(told: ToldEntry) -> Entry:
    return Entry(
        EntryKind(told.kind),
        told.run,
        told.command,
        told.device,
        told.place,
        Given(told.answer),
        told.value,
        told.drove == 1,
        Cause(told.cause),
        told.lender,
        told.moment,
        told.deadline,
    )


def _made(made: ToldMade) -> tuple[Entry, ...]:
    return tuple(_entry(entry) for entry in made.entries[: made.count])


def _go(turn: ToldTurn) -> Go:
    return Go(turn.device, turn.ticket, turn.run, Task(turn.task), turn.value, turn.stood)


def _turn(turn: ToldTurn) -> Turn:
    if turn.kind == GO:
        return _go(turn)
    if turn.kind == MOVED:
        return Moved(_made(turn.made))
    if turn.kind == WAITS:
        return Waits(Why(turn.why), turn.device, turn.run)
    return Over(_entry(turn.end), _made(turn.made)) if turn.kind == OVER else NoRun()
