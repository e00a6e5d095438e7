#!/usr/bin/env python3
"""Writes logs of drawn plays for another reader of logs, with what the home shows in the end.

    python3 library/tests/python/written_logs.py FOLDER

For each number N: N.calls, its script N.script, and N.text: the number of the mode, a line for each trigger in the queue, each
device that is down, and each call that is out; and then the lines of the entries.
"""
import os
import random
import sys

HERE = os.path.dirname(os.path.abspath(__file__))
sys.path[:0] = [HERE, os.path.join(HERE, "..", "..", ".."), os.path.join(HERE, "..", "..", "..", "python")]

from logged_plays import MODES, Play, drawn_script, outs

from lazbendix import CallLog, LoggedHub

LOGS, STEPS = 24, 150


def text(hub: LoggedHub, mode: int) -> str:
    lines = [f"mode {mode}"]
    lines += [f"trigger {trigger} {routine}" for trigger, routine in sorted(hub.queue.items())]
    lines += [f"down {device}" for device in sorted(hub.down)]
    lines += [f"out {go.device} {go.ticket} {go.run} {go.stood}" for go in outs(hub)]
    return "".join(f"{line}\n" for line in lines) + "".join(hub.entry_text(at) for at in range(hub.entry_count()))


def main() -> None:
    (folder,) = sys.argv[1:]
    os.makedirs(folder, exist_ok=True)
    for number in range(LOGS):
        draw, path = random.Random(number), os.path.join(folder, str(number))
        script, play, mode = drawn_script(draw), Play(draw), number % len(MODES)
        if os.path.exists(f"{path}.calls"):
            os.remove(f"{path}.calls")
        with CallLog(f"{path}.calls") as log, log.hub(script, *MODES[mode]) as hub:
            for step in range(STEPS):
                play.step(hub)
                if step % 40 == 0 and hub.opened is None and hub.begun is None:
                    hub.let_out()
                    hub.begin_anew()
                elif step % 15 == 0:
                    hub.let_out()
            shown = text(hub, mode)
        with open(f"{path}.script", "wb") as file:
            file.write(script)
        with open(f"{path}.text", "w", encoding="utf-8") as shown_file:
            shown_file.write(shown)


if __name__ == "__main__":
    main()
