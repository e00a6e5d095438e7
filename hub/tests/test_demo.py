"""The demo, as a terminal ends it."""
from __future__ import annotations

import os
import signal
import subprocess
import sys
import time
import unittest
import urllib.request

from lazbendix_hub.mosquitto import find_mosquitto, free_port


@unittest.skipIf(find_mosquitto() is None, "there is no mosquitto")
class Demo(unittest.TestCase):
    def test_an_interrupt_of_the_group_ends_it(self) -> None:
        """Ctrl-C reaches every process of the terminal's group; the broker must outlive the hub."""
        port = free_port()
        words = [sys.executable, "-m", "lazbendix_hub", "demo", "--no-browser", "--port", str(port)]
        demo = subprocess.Popen(words, stdout=subprocess.PIPE, start_new_session=True)
        try:
            assert demo.stdout is not None
            demo.stdout.readline()
            with urllib.request.urlopen(f"http://127.0.0.1:{port}/", timeout=60) as page:
                self.assertEqual(page.status, 200)
            time.sleep(3)  # (runs are under way)
            os.killpg(demo.pid, signal.SIGINT)
            demo.wait(30)
        finally:
            if demo.poll() is None:
                os.killpg(demo.pid, signal.SIGKILL)
                demo.wait()
            if demo.stdout is not None:
                demo.stdout.close()


if __name__ == "__main__":
    unittest.main()
