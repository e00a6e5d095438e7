"""The demo: a broker, simulated devices, a hub and its page; no hardware, no file."""
from __future__ import annotations

import asyncio
import os
import random
import signal
import sys
import tempfile
import webbrowser
from importlib import resources

from lazbendix_hub.broker import Broker
from lazbendix_hub.daemon import Daemon, load
from lazbendix_hub.mosquitto import Mosquitto, free_port
from lazbendix_hub.simulated import Manner, Simulated, make_devices


async def demo(seconds: float, port: int, has_browser: bool) -> int:
    """Plays until Ctrl-C, or for so many seconds; the status."""
    with tempfile.TemporaryDirectory(prefix="lazbendix-demo-") as folder:
        mosquitto = Mosquitto(folder)
        try:
            mosquitto.start()
        except (OSError, TimeoutError) as error:
            print(f"lazbendix-hub: {error}", file=sys.stderr)
            return 1
        try:
            return await _play(folder, mosquitto, seconds, port, has_browser)
        finally:
            mosquitto.stop()


async def _play(folder: str, mosquitto: Mosquitto, seconds: float, port: int, has_browser: bool
                ) -> int:
    text = resources.files("lazbendix_hub").joinpath("demo.yaml").read_text("utf-8")
    path = os.path.join(folder, "home.yaml")
    with open(path, "w", encoding="utf-8") as file:
        file.write(text.replace("port: 1883", f"port: {mosquitto.port}")
                   .replace("port: 8099", f"port: {port or free_port()}"))
    home = load(path)
    broker = Broker("simulated", "")
    broker.connect("127.0.0.1", mosquitto.port)
    await broker.up.wait()
    devices = make_devices(home, broker, Manner(late=0.4, fails=0.01, blinds=6))
    daemon = Daemon(path, folder, home)
    url = f"http://127.0.0.1:{home.page.port}/"

    def ready() -> None:
        print(f"The hub runs, with simulated devices: {url}\nIts file: {path}\nCtrl-C ends it.",
              flush=True)
        if has_browser:
            webbrowser.open(url)
    daemon.on_ready = ready
    world = asyncio.create_task(_world(daemon, devices))
    if seconds:
        asyncio.get_running_loop().call_later(seconds, signal.raise_signal, signal.SIGINT)
    try:
        await daemon.run()
    except OSError as error:
        print(f"lazbendix-hub: {error}; `--port 0` takes a free port", file=sys.stderr)
        return 1
    finally:
        world.cancel()
        for device in devices.values():
            device.end()
        broker.close()
    counts = daemon.history.counts
    print(f"{counts['committed']} runs were done, {counts['aborted']} taken back.")
    return 0


async def _world(daemon: Daemon, devices: dict[str, Simulated]) -> None:
    """What happens in the house: routines are begun, hands turn things, a device goes away."""
    draw = random.Random()
    while daemon.live is None:
        await asyncio.sleep(0.1)
    numbers = {routine.name: at for at, routine in enumerate(daemon.home.routines)}
    for name in ("guests", "light"):
        daemon.live.begin(numbers[name], "demo")
    while True:
        await asyncio.sleep(draw.uniform(1, 4))
        live, chance = daemon.live, draw.random()
        if live is None or live.is_stopping:
            continue
        if chance < 0.7:
            live.begin(draw.randrange(len(daemon.home.routines)), "demo")
        elif chance < 0.8:
            devices[draw.choice(["hall", "shelf", "window"])].turn()
        elif chance < 0.93:
            devices["motion"].turn(1)
            await asyncio.sleep(1)
            devices["motion"].turn(0)
        else:
            gone = devices[draw.choice(["pump", "door", "heat", "sofa"])]
            gone.leave()
            await asyncio.sleep(draw.uniform(4, 10))
            gone.come()
