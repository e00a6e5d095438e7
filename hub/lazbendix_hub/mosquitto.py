"""A mosquitto of one's own, for the demo and for tests."""
from __future__ import annotations

import os
import shutil
import socket
import subprocess
import time

CONFIG = """listener {port} 127.0.0.1
allow_anonymous true
log_type none
set_tcp_nodelay true
persistence false
"""


class Mosquitto:
    """A broker on a free port of the loopback, whose file is in the folder."""

    def __init__(self, folder: str) -> None:
        self.port = free_port()
        self.config = os.path.join(folder, "mosquitto.conf")
        with open(self.config, "w", encoding="utf-8") as file:
            file.write(CONFIG.format(port=self.port))
        self.process: subprocess.Popen[bytes] | None = None

    def start(self) -> None:
        """Starts it, and returns when it listens. Raises `FileNotFoundError` where there is none,
        `TimeoutError` where it does not come up."""
        found = find_mosquitto()
        if found is None:
            raise FileNotFoundError("there is no mosquitto: apt install mosquitto")
        # (in a session of its own: Ctrl-C reaches the group, and the hub needs it to its end)
        self.process = subprocess.Popen([found, "-c", self.config], stdout=subprocess.DEVNULL,
                                        stderr=subprocess.DEVNULL, start_new_session=True)
        for _ in range(200):
            try:
                socket.create_connection(("127.0.0.1", self.port), 1).close()
                return
            except OSError:
                time.sleep(0.02)
        self.stop()
        raise TimeoutError("mosquitto did not come up")

    def stop(self) -> None:
        """Ends it."""
        if self.process is not None:
            self.process.terminate()
            self.process.wait()
            self.process = None


def find_mosquitto() -> str | None:
    """The program, none where there is none."""
    return shutil.which("mosquitto") or shutil.which("mosquitto", path="/usr/sbin")


def free_port() -> int:
    """A port that nobody has."""
    with socket.socket() as probe:
        probe.bind(("127.0.0.1", 0))
        return int(probe.getsockname()[1])
