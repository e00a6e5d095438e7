"""The calls of devices over their sockets, with the hub's own time limit."""
import asyncio
from typing import Iterator

from lazbendix import Answer, Dead, Found, Go, Task, Worked

HOST = "127.0.0.1"


class NoAnswer(Exception):
    """Nothing came in time, or nothing that is an answer."""


class Wire:
    """The way to one device. An answer that comes too late is passed over, since its number is one of no call any more."""

    def __init__(self, port: int, limit: float) -> None:
        self.port, self.limit = port, limit
        self.numbers: Iterator[int] = iter(range(1, 2**63))
        self.waiting: dict[int, asyncio.Future[list[str]]] = {}
        self.writer: asyncio.StreamWriter | None = None

    async def connect(self) -> asyncio.StreamWriter:
        if self.writer is None or self.writer.is_closing():
            reader, self.writer = await asyncio.open_connection(HOST, self.port)
            self.reading = asyncio.create_task(self.read(reader))
        return self.writer

    async def read(self, reader: asyncio.StreamReader) -> None:
        while line := await reader.readline():
            number, *words = line.decode("ascii", "replace").split() or [""]
            answer = self.waiting.pop(int(number), None) if number.isdigit() else None
            if answer is not None and not answer.done():
                answer.set_result(words)
        self.writer = None

    async def ask(self, request: str) -> list[str]:
        """The words of the answer, or `NoAnswer` when the time limit is over."""
        number = next(self.numbers)
        self.waiting[number] = asyncio.get_running_loop().create_future()
        try:
            writer = await self.connect()
            writer.write(f"{number} {request}\n".encode())
            return await asyncio.wait_for(self.waiting[number], self.limit)
        except (OSError, asyncio.TimeoutError):
            raise NoAnswer from None
        finally:
            self.waiting.pop(number, None)

    async def sense(self) -> int:
        words = await self.ask("sense")
        if len(words) != 2 or words[0] != "found" or not words[1].isdigit():
            raise NoAnswer
        return int(words[1])

    async def value(self) -> int | None:
        """The value at which the device stands, none where it does not answer."""
        try:
            return await self.sense()
        except NoAnswer:
            return None

    async def call(self, go: Go) -> Answer:
        """Makes the call that a step of the hub asks for, and tells what came of it."""
        try:
            match go.task:
                case Task.DRIVE:
                    await self.ask(f"drive {go.value}")
                case Task.SENSE:
                    return Found(await self.sense())
                case Task.PROBE:
                    await self.ask("probe")
                case Task.RESTORE:
                    await self.ask("probe")
                    await self.ask(f"drive {go.value}")
            return Worked()
        except NoAnswer:
            return Dead()

    def close(self) -> None:
        if self.writer is not None:
            self.reading.cancel()
            self.writer.close()
