"""The file of a log: its format, torn ends, damage, foreign logs, a disk that refuses, and when it is synced."""
import errno
import hashlib
import os
import random
import resource
import shutil
import signal
import struct
import subprocess
import sys
import tempfile
import unittest
import zlib
from typing import Any
from unittest import mock

HERE = os.path.dirname(os.path.abspath(__file__))
PYTHON = os.path.join(HERE, "..", "..", "..", "python")
sys.path[:0] = [HERE, os.path.join(HERE, "..", "..", ".."), PYTHON]

from logged_plays import MODES, Play, drawn_script, view

from lazbendix import (CallLog, Closed, Dead, Ended, EntryKind, Go, LetOut, LogFault, LoggedHub, LogRefused, Model, Moved,
                       NoRun, Over, Refused, Scheduler, Status, Task, Triggered, Waits, Worked, call_log, library_version)
from lazbendix.logged_calls import LoggedCall

HEAD_SIZE, RECORD_SIZE, CALL_SIZE = 64, 32, 24
SCRIPT = b"""{"safehome": 1,
 "devices": [{"name": "lamp", "low": 0, "high": 9, "start": 0}, {"name": "heat", "low": 0, "high": 9, "start": 0}],
 "routines": [{"name": "both", "commands": [{"on": "lamp", "do": "set", "to": 5}, {"on": "heat", "do": "set", "to": 5}]},
              {"name": "twice", "commands": [{"on": "lamp", "do": "set", "to": 5}, {"on": "lamp", "do": "set", "to": 0}]}],
 "windows": []}"""
HELD = """
import sys, lazbendix
try:
    lazbendix.CallLog(sys.argv[1])
except lazbendix.LogRefused as refused:
    print(refused.fault.name)
"""
AT, LATER = "2026-12-01T09:05:00", "2026-12-01T09:06:00"
LAMP, HEAT, BOTH, TWICE = 0, 1, 0, 1


def begin(hub: LoggedHub, routine: int, at: str = AT) -> None:
    """Opens a window with one run, which a trigger asked for."""
    trigger, number = hub.trigger(routine), hub.begin_window(at, 1)
    hub.add_run_of(trigger)
    hub.window(number)


def step(hub: LoggedHub) -> Go | Over:
    """Takes run 1 until a device goes out, or the run has ended."""
    while isinstance(turn := hub.take(1, hub.moment + 1), Moved):
        pass
    assert isinstance(turn, (Go, Over))
    return turn


def driven(hub: LoggedHub) -> Go:
    """The same, where a device goes out."""
    go = step(hub)
    assert isinstance(go, Go)
    return go


def work(hub: LoggedHub, go: Go) -> None:
    hub.give(go.device, go.ticket, Worked(), hub.moment)


class Files(unittest.TestCase):
    def setUp(self) -> None:
        folder = tempfile.TemporaryDirectory()
        self.addCleanup(folder.cleanup)
        self.folder, self.path = folder.name, os.path.join(folder.name, "calls")

    def opened(self, path: str = "") -> tuple[CallLog, LoggedHub]:
        log = CallLog(path or self.path)
        self.addCleanup(self.shut, log)
        return log, log.hub(SCRIPT)

    def shut(self, log: CallLog) -> None:
        try:
            log.close()
        except LogRefused:
            pass

    def killed(self, log: CallLog) -> str:
        """The path of what the disk has of the log when the power is cut now: what was synced."""
        path = os.path.join(self.folder, f"left-{len(os.listdir(self.folder))}")
        shutil.copyfile(log.path, path)
        return path

    def refuses(self, fault: LogFault, call: Any, *words: Any) -> LogRefused:
        with self.assertRaises(LogRefused) as refused:
            call(*words)
        self.assertIs(refused.exception.fault, fault, refused.exception)
        return refused.exception

    def played(self) -> bytes:
        """The bytes of the log of a window that was played to its end."""
        log, hub = self.opened()
        begin(hub, BOTH)
        while isinstance(turn := step(hub), Go):
            hub.let_out()
            work(hub, turn)
        hub.close_window()
        hub.let_out()
        log.close()
        with open(self.path, "rb") as file:
            return file.read()

    def write(self, data: bytes) -> None:
        with open(self.path, "wb") as file:
            file.write(data)


class Format(Files):
    def test_the_bytes_are_those_of_the_page(self) -> None:
        data = self.played()
        magic, version, model, scheduler, script = struct.unpack("<8sIII32s", data[:52])
        parts = [int(part) for part in library_version().split(".")]
        self.assertEqual((magic, model, scheduler), (b"lazcall1", 0, 0))
        self.assertEqual(version, parts[0] * 1000000 + parts[1] * 1000 + parts[2])
        self.assertEqual(script, hashlib.sha256(SCRIPT).digest())
        self.assertEqual(data[60:64], struct.pack("<I", zlib.crc32(data[:60])))
        before, calls = zlib.crc32(data[:60]), []
        for at in range(HEAD_SIZE, len(data), RECORD_SIZE):
            body = data[at : at + 28]
            before = zlib.crc32(body, before)
            self.assertEqual(data[at + 28 : at + 32], struct.pack("<I", before))
            calls.append(struct.unpack("<BBHIQQ", body[:CALL_SIZE]))
        wanted = [(1, 0, 0, 1, 20261201090500, 0), (2, 0, 0, BOTH, 0, 0), (3, 0, 0, 0, 0, 0)]
        wanted += [(4, 0, 0, 1, 0, moment) for moment in (1, 2, 3)] + [(5, 1, LAMP, 0, 1, 3), (4, 0, 0, 1, 0, 4)]
        wanted += [(5, 1, HEAT, 0, 2, 4), (4, 0, 0, 1, 0, 5), (7, 0, 0, 0, 0, 0)]
        self.assertEqual([call for call in calls if call[0] < 128], wanted)
        self.assertEqual([call[4] for call in calls if call[0] == 129], [1])

    def test_a_step_that_waits_is_left_out_and_moments_do_not_fall(self) -> None:
        log, hub = self.opened()
        begin(hub, BOTH)
        go = driven(hub)
        count = log.count
        self.assertIsInstance(hub.take(1, 500), Waits)
        self.assertEqual(hub.take(9, 600), NoRun())
        self.assertEqual(log.count, count)
        hub.give(go.device, go.ticket, Worked(), 20)
        hub.take(1, 30)
        log.sync()
        with open(self.killed(log), "rb") as file:
            data = file.read()
        records = [struct.unpack("<BBHIQQ", data[at : at + CALL_SIZE]) for at in range(HEAD_SIZE, len(data), RECORD_SIZE)]
        given = [at for at, record in enumerate(records) if record[0] == 5]
        self.assertEqual([records[at : at + 2] for at in given], [[(5, 1, LAMP, 0, 1, 600), (4, 0, 0, 1, 0, 600)]])

    def test_the_calls_of_the_page(self) -> None:
        records = [call_log.Record(LoggedCall(4, value=1, second=1500), 9), call_log.Record(LoggedCall(128), 9),
                   call_log.Record(LoggedCall(5, 1, 3, 0, 7, 1750), 9)]
        page = ("04 00 00 00 01 00 00 00 00 00 00 00 00 00 00 00 dc 05 00 00 00 00 00 00"
                "05 01 03 00 00 00 00 00 07 00 00 00 00 00 00 00 d6 06 00 00 00 00 00 00")
        self.assertEqual(call_log.calls_of(records), bytes.fromhex(page))


class Ends(Files):
    def test_wherever_the_end_is_cut_the_home_is_that_of_the_calls_before(self) -> None:
        for seed, mode in enumerate(MODES):
            draw = random.Random(seed)
            script, path = drawn_script(draw), f"{self.path}-{seed}"
            views, play = {}, Play(draw)
            with CallLog(path) as log, log.hub(script, *mode) as hub:
                for _ in range(80):
                    play.step(hub)
                    views[log.count] = view(hub)
                last = log.count
            with open(path, "rb") as file:
                data = file.read()
            for cut in [draw.randrange(HEAD_SIZE, len(data) + 1) for _ in range(12)]:
                left = min(last, (cut - HEAD_SIZE) // RECORD_SIZE)
                with open(path, "wb") as file:
                    file.write(data[:cut])
                with CallLog(path) as log, log.hub(script, *mode) as hub:
                    wanted = max((count for count in views if count <= left), default=0)
                    if wanted:
                        self.assertEqual(view(hub), views[wanted])

    def test_a_torn_end_is_cut(self) -> None:
        data = self.played()
        for spoilt in (data[:-5], data[:-10] + bytes([data[-10] ^ 1]) + data[-9:]):
            self.write(spoilt)
            log, hub = self.opened()
            self.assertLess(log.durable, (len(data) - HEAD_SIZE) // RECORD_SIZE)
            self.assertEqual(os.path.getsize(self.path), HEAD_SIZE + RECORD_SIZE * log.durable)
            hub.close()
            log.close()

    def test_damage_before_what_was_synced_is_refused_with_its_place(self) -> None:
        data = self.played()
        for place in range(6):
            at = HEAD_SIZE + RECORD_SIZE * place + 9
            self.write(data[:at] + bytes([data[at] ^ 4]) + data[at + 1 :])
            self.assertEqual(self.refuses(LogFault.DAMAGED, CallLog, self.path).record, place)
            with open(self.path, "rb") as file:
                self.assertEqual(len(file.read()), len(data))

    def test_a_call_that_answers_something_else_is_refused_with_its_place(self) -> None:
        log, hub = self.opened()
        begin(hub, BOTH)
        with mock.patch("lazbendix.logged_hubs.turn_bytes", lambda turn: b"another answer"):
            step(hub)
        hub.close()
        log.close()
        with CallLog(self.path) as again:  # started, trigger, begun, of a trigger, added, opened
            self.assertEqual(self.refuses(LogFault.DIFFERS, again.hub, SCRIPT).record, 6)

    def test_a_call_that_is_refused_is_refused_with_its_place(self) -> None:
        log, hub = self.opened()
        log.append(LoggedCall(6, device=LAMP), 0)
        hub.close()
        log.close()
        with CallLog(self.path) as again:
            self.assertEqual(self.refuses(LogFault.DIFFERS, again.hub, SCRIPT).record, 1)


class Foreign(Files):
    def test_what_is_no_log(self) -> None:
        for data in (b"", b"lazcall1", bytes(100), self.played()[1:]):
            self.write(data)
            self.refuses(LogFault.NOT_A_LOG, CallLog, self.path)

    def test_logs_of_others_are_left_as_they_are(self) -> None:
        data = self.played()[:-7]
        self.write(data)
        for fault, words in [(LogFault.OTHER_SCRIPT, (SCRIPT + b" ",)), (LogFault.OTHER_MODE, (SCRIPT, Model.GLOBAL)),
                             (LogFault.OTHER_MODE, (SCRIPT, Model.EVENTUAL, Scheduler.JIT))]:
            with CallLog(self.path) as log:
                self.refuses(fault, log.hub, *words)
        with mock.patch("lazbendix.logged_hubs.LIBRARY") as library:
            library.lazbendix_version.return_value = 99000000
            with CallLog(self.path) as log:
                self.refuses(LogFault.OTHER_VERSION, log.hub, SCRIPT)
        with open(self.path, "rb") as file:
            self.assertEqual(file.read(), data)

    def test_a_log_of_another_version_that_answers_alike_is_tried_where_asked(self) -> None:
        self.played()
        with mock.patch("lazbendix.logged_hubs.LIBRARY") as library:
            library.lazbendix_version.return_value = 99000000
            with CallLog(self.path) as log, log.hub(SCRIPT, other_version=True) as hub:
                self.assertEqual(hub.stand(HEAT).value, 5)

    def test_a_log_is_held_by_one(self) -> None:
        log, _ = self.opened()
        self.refuses(LogFault.IN_USE, CallLog, self.path)
        self.refuses(LogFault.IN_USE, log.hub, SCRIPT)
        words, environment = [sys.executable, "-c", HELD, self.path], os.environ | {"PYTHONPATH": PYTHON}
        ran = subprocess.run(words, env=environment, capture_output=True, text=True)
        self.assertEqual(ran.stdout, "IN_USE\n")
        log.close()
        CallLog(self.path).close()

    def test_a_log_that_was_closed(self) -> None:
        log, hub = self.opened()
        log.close()
        log.close()
        self.refuses(LogFault.CLOSED, hub.trigger, BOTH)
        self.refuses(LogFault.CLOSED, hub.let_out)


class Refusing(Files):
    """A disk that is full, and a sync that fails."""

    def gives_up(self, log: CallLog, hub: LoggedHub) -> None:
        """Nothing is let out any more, and no call is made."""
        for call, words in [(hub.let_out, ()), (hub.trigger, (BOTH,)), (hub.take, (1, 9)), (hub.begin_anew, ()), (log.sync, ())]:
            self.refuses(LogFault.FAILED, call, *words)

    def test_a_sync_that_fails(self) -> None:
        log, hub = self.opened()
        begin(hub, BOTH)
        hub.let_out()
        go = driven(hub)
        with mock.patch("lazbendix.call_log.sync_file", side_effect=OSError(errno.EIO, "no")):
            self.refuses(LogFault.FAILED, hub.let_out)
        self.gives_up(log, hub)
        hub.close()
        log.close()
        _, again = self.opened()  # the bytes were there, and are written and synced once more
        self.assertEqual(again.former, (go,))

    def test_a_failed_sync_is_made_good_when_the_log_is_opened(self) -> None:
        log, hub = self.opened()
        begin(hub, BOTH)
        with mock.patch("lazbendix.call_log.sync_file", side_effect=OSError(errno.EIO, "no")):
            self.refuses(LogFault.FAILED, log.sync)
        self.shut(log)
        written: list[int] = []
        with mock.patch("lazbendix.call_log.write_at", lambda file, data, at: written.append(len(data))):
            with CallLog(self.path) as once_more:
                once_more.hub(SCRIPT).close()
        self.assertEqual(written[0] % RECORD_SIZE, 0)
        self.assertGreater(written[0], 5 * RECORD_SIZE)

    def test_a_call_of_which_there_are_no_bytes(self) -> None:
        log, hub = self.opened()
        begin(hub, BOTH)
        with mock.patch("lazbendix._calls.LOG", return_value=Status.NO_CALL), self.assertRaises(ValueError):
            hub.take(1, 9)  # the home is ahead of the log
        self.gives_up(log, hub)

    def test_a_write_that_fails_half_way(self) -> None:
        for left in (0, 1, 31, 32, 100):
            path = f"{self.path}-{left}"
            log, hub = self.opened(path)
            begin(hub, BOTH)
            hub.let_out()
            kept = view(hub)
            step(hub)
            write = os.pwrite

            def full(file: int, data: bytes, at: int, left: int = left) -> int:
                if data[:left]:
                    write(file, data[:left], at)
                raise OSError(errno.ENOSPC, "no space")

            with mock.patch("os.pwrite", full):
                self.refuses(LogFault.FAILED, hub.let_out)
            self.gives_up(log, hub)
            hub.close()
            log.close()
            _, again = self.opened(path)
            if left < RECORD_SIZE:
                self.assertEqual(view(again), kept)

    def test_a_disk_that_is_full(self) -> None:
        """The system itself refuses to make the file longer, in the middle of a write."""
        log, hub = self.opened()
        begin(hub, BOTH)
        hub.let_out()
        limits, handler = resource.getrlimit(resource.RLIMIT_FSIZE), signal.signal(signal.SIGXFSZ, signal.SIG_IGN)
        resource.setrlimit(resource.RLIMIT_FSIZE, (os.path.getsize(self.path) + 40, limits[1]))
        try:
            step(hub)
            self.refuses(LogFault.FAILED, hub.let_out)
        finally:
            resource.setrlimit(resource.RLIMIT_FSIZE, limits)
            signal.signal(signal.SIGXFSZ, handler)
        self.gives_up(log, hub)
        self.shut(log)
        _, again = self.opened()
        self.assertEqual(again.opened, 0)

    def test_a_log_that_can_not_be_begun_anew_goes_on(self) -> None:
        log, hub = self.opened()
        hub.let_out()
        for broken in ("write_at", "sync_file"):
            with mock.patch(f"lazbendix.call_log.{broken}", side_effect=OSError(errno.ENOSPC, "no")):
                self.refuses(LogFault.FAILED, hub.begin_anew)
            self.assertFalse(os.path.exists(f"{self.path}.new"))
        begin(hub, BOTH)
        hub.let_out()
        self.shut(log)
        self.assertEqual(self.opened()[1].opened, 0)

    def test_a_record_that_can_not_follow_its_call(self) -> None:
        log, hub = self.opened()
        begin(hub, BOTH)
        with mock.patch.object(log, "append", side_effect=KeyboardInterrupt):
            self.assertRaises(KeyboardInterrupt, hub.take, 1, 0)
        self.gives_up(log, hub)

    def test_a_call_with_other_words_changes_nothing(self) -> None:
        _, hub = self.opened()
        begin(hub, BOTH)
        go = driven(hub)
        for answer in (None, 7):
            self.assertRaises(TypeError, hub.give, go.device, go.ticket, answer, 9)
        self.assertRaises(ValueError, hub.take, -1, 9)
        work(hub, go)


class TwoRules(Files):
    """Why the log is synced before a device is driven, and before anything is reported: each rule broken once, and kept."""

    def after_the_power_was_cut(self, path: str) -> tuple[str, int, bool]:
        """A restart after which no device answers: how run 1 ends then, and how the home has the heat."""
        log, hub = self.opened(path)
        hub.call_again(not_twice={LAMP, HEAT})
        while isinstance(turn := step(hub), Go):
            hub.give(turn.device, turn.ticket, Dead(), hub.moment)
        hub.close_window()
        stand = hub.stand(HEAT)
        self.shut(log)
        return turn.end.kind.name, stand.value, stand.up

    def test_a_drive_that_was_not_synced(self) -> None:
        for is_kept in (False, True):
            log, hub = self.opened(f"{self.path}-{is_kept}")
            begin(hub, BOTH)
            go = driven(hub)
            hub.let_out()
            work(hub, go)
            go = driven(hub)
            self.assertEqual((go.device, go.task, go.value) if isinstance(go, Go) else None, (HEAT, Task.DRIVE, 5))
            if is_kept:  # else the heat is driven at once
                hub.let_out()
            end, value, is_up = self.after_the_power_was_cut(self.killed(log))
            # the heat is at 5; broken, the home has it up and at 0, and no probe will ever mend that
            self.assertEqual((end, value, is_up), ("ABORTED", 0, not is_kept))

    def test_an_end_that_was_not_synced(self) -> None:
        for is_kept in (False, True):
            log, hub = self.opened(f"{self.path}-{is_kept}")
            begin(hub, BOTH)
            while isinstance(turn := step(hub), Go):
                hub.let_out()
                work(hub, turn)
            self.assertIs(turn.end.kind, EntryKind.COMMITTED)  # and reported
            if is_kept:
                self.assertIn(Ended(2, 1, 1, turn.end), hub.let_out().reports)
            end, _, _ = self.after_the_power_was_cut(self.killed(log))
            self.assertEqual(end, "COMMITTED" if is_kept else "ABORTED")

    def test_a_late_call_of_a_former_life(self) -> None:
        for waits in (False, True):
            log, hub = self.opened(f"{self.path}-{waits}")
            begin(hub, TWICE)
            step(hub)
            (late,) = hub.let_out().calls
            path = self.killed(log)
            self.shut(log)
            log, hub = self.opened(path)
            self.assertEqual(hub.former, (late,))
            lamp = [late.value] if waits else []
            hub.call_again()
            out = hub.let_out()
            while out.calls:
                lamp += [go.value for go in out.calls]
                work(hub, out.calls[0])
                step(hub)
                out = hub.let_out()
            hub.close_window()
            lamp += [] if waits else [late.value]
            self.assertEqual((lamp[-1], hub.stand(LAMP).value), (0, 0) if waits else (5, 0))
            self.shut(log)


class Lives(Files):
    def test_a_window_at_a_time_of_another_form(self) -> None:
        for at, plain in [("2012-12-01T09:05", "2012-12-01T09:05:00"), ("2012-12-01 09:05:60+02:00", "2012-12-01T09:05:59")]:
            log, hub = self.opened(f"{self.path}-{plain[-2:]}")
            begin(hub, BOTH, at)
            self.assertEqual(hub.last_time, plain)
            kept = view(hub)
            self.shut(log)
            log, hub = self.opened(log.path)
            self.assertEqual((view(hub), hub.last_time), (kept, plain))
            while isinstance(turn := step(hub), Go):
                work(hub, turn)
            hub.close_window()
            self.assertEqual([report.at for report in hub.let_out().reports if isinstance(report, Closed)], [plain])
            self.shut(log)

    def test_reports_come_at_least_once_and_know_their_trigger(self) -> None:
        log, hub = self.opened()
        self.assertTrue(hub.is_new)
        begin(hub, BOTH)
        self.assertEqual(hub.let_out(), LetOut((), (Triggered(1, 1, BOTH),)))
        while isinstance(turn := step(hub), Go):
            self.assertEqual(hub.let_out(), LetOut((turn,), ()))
            work(hub, turn)
        hub.close_window()
        log.sync()
        left = self.killed(log)
        self.shut(log)
        for _ in range(2):  # killed before they were handed out, and after
            log, hub = self.opened(left)
            self.assertFalse(hub.is_new)
            ended, closed = hub.let_out().reports
            self.assertEqual(ended, Ended(2, 1, 1, turn.end))
            self.assertEqual(closed, Closed(3, 0, AT, (1,), (BOTH,), hub.record(trace=True)))
            self.shut(log)
        log, hub = self.opened(left)
        hub.let_out()
        hub.let_out()
        self.shut(log)
        self.assertEqual(self.opened(left)[1].let_out(), LetOut((), ()))

    def test_what_was_out_is_called_again_but_not_what_must_not_be_done_twice(self) -> None:
        log, hub = self.opened()
        begin(hub, BOTH)
        go = driven(hub)
        hub.let_out()
        path = self.killed(log)
        self.shut(log)
        for not_twice, calls, down in [((), (go,), set()), ((HEAT,), (go,), set()), ((LAMP,), (), {LAMP})]:
            log, hub = self.opened(path)
            self.assertEqual((hub.former, hub.let_out().calls), ((go,), ()))
            hub.call_again(not_twice)
            self.assertEqual((hub.let_out().calls, hub.down, hub.former), (calls, down, ()))
            self.shut(log)
            shutil.copyfile(self.path, path)

    def test_a_log_that_is_begun_anew(self) -> None:
        log, hub = self.opened()
        begin(hub, BOTH)
        with self.assertRaises(Refused) as refused:
            hub.begin_anew()
        self.assertIs(refused.exception.status, Status.IN_WINDOW)
        go = driven(hub)
        hub.let_out()
        work(hub, go)
        late = driven(hub)
        hub.let_out()
        hub.give(HEAT, late.ticket, Dead(), 9)
        while isinstance(turn := step(hub), Go):
            work(hub, turn)
        hub.close_window()
        with self.assertRaises(Refused) as refused:
            hub.begin_anew()
        self.assertIs(refused.exception.status, Status.NOT_QUIET)
        hub.trigger(TWICE)
        hub.let_out()
        stands = [hub.stand(d) for d in (LAMP, HEAT)]
        hub.begin_anew()
        self.assertEqual([hub.stand(d) for d in (LAMP, HEAT)], stands)
        self.assertEqual(log.count, 5)  # anew, lost, counted, trigger, reported: the lamp was undone
        self.shut(log)
        log, hub = self.opened()
        self.assertEqual([hub.stand(d) for d in (LAMP, HEAT)], stands)
        self.assertEqual((hub.queue, hub.down, hub.last_time, hub.let_out()), ({2: TWICE}, {HEAT}, AT, LetOut((), ())))
        number = hub.begin_window(LATER, 1)
        hub.add_run_of(2)
        hub.window(number)
        probe = hub.probe(HEAT)
        self.assertGreater(probe.ticket, late.ticket)
        with self.assertRaises(Refused) as refused:
            hub.give(HEAT, late.ticket, Worked(), 0)
        self.assertIs(refused.exception.status, Status.NOT_OUT)
        work(hub, probe)
        self.assertEqual(hub.trigger(BOTH), 3)
        log.sync()
        kept = view(hub)
        self.shut(log)
        self.assertEqual(view(self.opened()[1]), kept)

    def test_tickets_triggers_and_reports_go_on_in_a_log_that_is_begun_anew(self) -> None:
        log, hub = self.opened()
        begin(hub, BOTH)
        while isinstance(turn := step(hub), Go):
            last = turn
            work(hub, turn)
        hub.close_window()
        self.assertEqual([report.number for report in hub.let_out().reports], [1, 2, 3])
        hub.begin_anew()
        for life in range(2):
            self.assertEqual((hub.queue, hub.stand(LAMP).value), ({}, 5))
            with mock.patch.object(log, "sync"):  # this part is not kept
                begin(hub, TWICE, LATER)
                go = driven(hub)
                self.assertGreater(go.ticket, last.ticket)
                self.assertEqual(hub.let_out().reports, (Triggered(4, 2, TWICE),))
            left = self.killed(log)
            self.shut(log)
            log, hub = self.opened(left)

    def test_a_probe_is_let_out_at_once_and_a_restart_after_a_sync(self) -> None:
        log, hub = self.opened()
        hub.lose(HEAT)
        begin(hub, BOTH)
        hub.let_out()
        for device, task, syncs in [(LAMP, Task.PROBE, 0), (HEAT, Task.RESTORE, 1)]:
            before, go = log.syncs, hub.probe(device)
            self.assertIs(go.task, task)
            self.assertEqual(hub.let_out().calls, (go,))
            self.assertEqual(log.syncs - before, syncs)
            work(hub, go)
        self.assertEqual(hub.down, set())

    def test_a_kill_before_the_rename_leaves_the_old_log(self) -> None:
        self.played()
        with open(f"{self.path}.new", "wb") as file:
            file.write(b"half a log")
        self.assertEqual(self.opened()[1].stand(LAMP).value, 5)

    def test_a_run_whose_trigger_alone_was_written(self) -> None:
        log, hub = self.opened()
        hub.trigger(BOTH)
        hub.begin_window(AT)
        hub.add_run_of(1)
        self.shut(log)
        with open(self.path, "rb") as file:
            data = file.read()
        self.write(data[: HEAD_SIZE + 4 * RECORD_SIZE])  # started, trigger, begun, of a trigger
        log, hub = self.opened()
        self.assertEqual((hub.queue, hub.begun, hub.run_count(0)), ({1: BOTH}, 0, 0))
        hub.add_run(TWICE)
        self.assertEqual(hub.queue, {1: BOTH})
        kept = view(hub)
        self.shut(log)
        self.assertEqual(view(self.opened()[1]), kept)


PLAY = """
import sys
sys.path.insert(0, sys.argv[1])
from test_log_files import *
import os
log = CallLog(sys.argv[2]); hub = log.hub(SCRIPT); os.write(2, b"opened\\n")
begin(hub, BOTH); hub.let_out(); os.write(2, b"trigger reported\\n")
go = driven(hub); hub.let_out(); os.write(2, b"lamp driven\\n")
work(hub, go); hub.probe(LAMP); hub.let_out(); os.write(2, b"lamp probed\\n")
go = driven(hub); hub.let_out(); os.write(2, b"heat driven\\n")
work(hub, go); step(hub); hub.let_out(); os.write(2, b"end reported\\n")
"""


class Syncs(Files):
    @unittest.skipUnless(shutil.which("strace"), "strace is not there")
    def test_when_the_log_is_synced(self) -> None:
        trace = os.path.join(self.folder, "trace")
        words = ["strace", "-o", trace, "-e", "trace=fsync,fdatasync,rename,pwrite64,write"]
        words += [sys.executable, "-B", "-c", PLAY, HERE, self.path]
        ran = subprocess.run(words, capture_output=True, text=True)
        if "ptrace" in ran.stderr:
            self.skipTest("strace may not watch here")
        self.assertEqual(ran.returncode, 0, ran.stderr)
        with open(trace, encoding="utf-8") as file:
            calls = [line.split("(")[0] + (line.split('"')[1] if line.startswith("write(2") else "") for line in file]
        synced = ["pwrite64", "fdatasync"]
        begun = [call for call in calls[: calls.index("writeopened\\n") + 1] if call != "write"]
        self.assertEqual(begun, ["pwrite64", "fdatasync", "rename", "fsync", "writeopened\\n"])
        self.assertEqual(calls[calls.index("writeopened\\n") + 1 : calls.index("writeend reported\\n") + 1],
                         [*synced, "writetrigger reported\\n", *synced, "writelamp driven\\n", "writelamp probed\\n",
                          *synced, "writeheat driven\\n", *synced, "writeend reported\\n"])


if __name__ == "__main__":
    unittest.main()
