#!/usr/bin/env python3
"""Simulated devices behind sockets: each answers late, fails at times, and may be turned by hand.

    python3 library/live/devices.py [--late MS] [--fails SHARE] [--seed S] > ports

Prints the name and the port of each device of home.json, and serves until its standard input ends. A line `lamp 1` there
turns the lamp to its value 1, as a hand would.

A request is a line: a number of the caller's, and `drive VALUE`, `sense` or `probe`. The answer has the number again, and
behind it `worked` or `found VALUE`. A device that fails gives no answer; whether it did what it was asked is open then.
"""
import argparse
import asyncio
import contextlib
import json
import os
import random
import sys
from typing import Any

HERE = os.path.dirname(os.path.abspath(__file__))
HOST = "127.0.0.1"


def home() -> Any:
    with open(os.path.join(HERE, "home.json"), encoding="utf-8") as file:
        return json.load(file)


class Device:
    """Stands at a value, and does one call after another."""

    def __init__(self, value: int, late: float, fails: float, draw: random.Random) -> None:
        self.value, self.late, self.fails, self.draw = value, late, fails, draw

    async def serve(self, reader: asyncio.StreamReader, writer: asyncio.StreamWriter) -> None:
        with contextlib.suppress(ConnectionError):  # a hub that is killed; what it asked for before is done
            while line := await reader.readline():
                number, *request = line.decode().split()
                await asyncio.sleep(self.draw.uniform(0, self.late))
                answer = self.answer(request)
                if answer is not None:
                    writer.write(f"{number} {answer}\n".encode())
        writer.close()

    def answer(self, request: list[str]) -> str | None:
        """Does what is asked; none where no answer comes of it."""
        has_failed = self.draw.random() < self.fails
        if has_failed and self.draw.random() < 0.5:
            return None
        if request[0] == "drive":
            self.value = int(request[1])
        if has_failed:
            return None
        return f"found {self.value}" if request[0] == "sense" else "worked"


async def hands(devices: dict[str, Device]) -> None:
    """Turns devices as the lines of standard input say, until it ends."""
    loop = asyncio.get_running_loop()
    while line := await loop.run_in_executor(None, sys.stdin.readline):
        words = line.split()
        if len(words) == 2 and words[0] in devices and words[1].isdigit():
            devices[words[0]].value = int(words[1])


async def main() -> None:
    options = argparse.ArgumentParser(description=(__doc__ or "").splitlines()[0])
    options.add_argument("--late", type=float, default=400, help="the longest time that an answer takes, in ms")
    options.add_argument("--fails", type=float, default=0.02, help="the share of calls that are not answered")
    options.add_argument("--seed", type=int, default=1)
    asked = options.parse_args()
    draw, devices = random.Random(asked.seed), {}
    for device in home()["devices"]:
        start = device["states"].index(device["start"]) if "states" in device else device["start"]
        devices[device["name"]] = Device(start, asked.late / 1000, asked.fails, draw)
        server = await asyncio.start_server(devices[device["name"]].serve, HOST, 0)
        print(device["name"], server.sockets[0].getsockname()[1], flush=True)
    print("ready", flush=True)
    await hands(devices)


if __name__ == "__main__":
    asyncio.run(main())
