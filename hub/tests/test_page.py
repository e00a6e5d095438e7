"""The live page in a headless Chromium."""
import asyncio
import importlib
import os
import shutil
import sys
import unittest
from typing import Any

from tests.stage import HOME, TOP, until
from tests.whole import Whole

EVIL = '<script>window.pwned = 1</script><img src=x onerror="window.pwned = 1">'
LABELED = HOME.replace("lamp: {topic: hall_lamp,", f"lamp: {{label: '{EVIL}', topic: hall_lamp,")


def headless() -> Any:
    """The project's own driver of Chromium."""
    place = next(each for each in ("dev", "tools") if os.path.exists(f"{TOP}/{each}/headless.py"))
    sys.path.insert(0, f"{TOP}/{place}")
    try:
        return importlib.import_module("headless")
    finally:
        sys.path.remove(f"{TOP}/{place}")


@unittest.skipUnless(shutil.which("chromium"), "there is no chromium")
class Page(unittest.IsolatedAsyncioTestCase):
    async def holds(self, tab: Any, script: str, seconds: float = 10) -> None:
        """Waits until the script comes to true."""
        end = asyncio.get_running_loop().time() + seconds
        while not await asyncio.to_thread(tab.value, script):
            if asyncio.get_running_loop().time() > end:
                text = await asyncio.to_thread(tab.value, "document.body.innerText")
                raise AssertionError(f"it did not come to hold: {script}\n{text}")
            await asyncio.sleep(0.05)

    def has(self, place: str, text: str) -> str:
        return f"document.getElementById({place!r}).innerText.includes({text!r})"

    async def test_the_page(self) -> None:
        async with Whole(LABELED) as whole:
            browser = await asyncio.to_thread(headless().Browser)
            try:
                for width, dark in ((1200, False), (360, True)):
                    tab = await asyncio.to_thread(browser.tab, width, 900, dark)
                    await asyncio.to_thread(tab.open, f"http://127.0.0.1:{whole.port}/")
                    await self.play(whole, tab)
                    wide = "document.documentElement.scrollWidth <= innerWidth"
                    self.assertTrue(await asyncio.to_thread(tab.value, wide), width)
                    self.assertIsNone(await asyncio.to_thread(tab.value, "window.pwned || null"))
                    wrong = tab.taken("Runtime.exceptionThrown", "Log.entryAdded")
                    self.assertEqual([each for each in wrong if "favicon" not in str(each)], [])
                    folder = os.environ.get("LAZBENDIX_PICTURES")
                    if folder:
                        await asyncio.to_thread(tab.picture, f"{folder}/page-{width}.png")
                    whole.devices["door"].come()
                    whole.devices["door"].is_broken = False
                    await until(lambda: not whole.live.down, 20)
                    await whole.quiet()
            finally:
                await asyncio.to_thread(browser.__exit__)

    async def play(self, whole: Whole, tab: Any) -> None:
        await self.holds(tab, self.has("status", "quiet"))
        await self.holds(tab, self.has("devices", EVIL))
        # A run that waits, and for whom; begun by a button, and by the hub at the same moment.
        names = [routine.name for routine in whole.home.routines]
        whole.live.is_paused = True
        click = "[...document.querySelectorAll('#routines button')].find(it => " \
                "it.textContent == 'wake').click()"
        await asyncio.to_thread(tab.value, click)
        await until(lambda: len(whole.live.queue) == 1)
        whole.live.begin(names.index("film"), "test")
        await self.holds(tab, self.has("queue", "wake, film"))
        whole.live.resume()
        await self.holds(tab, self.has("runs", "waits for blinds, behind wake (run 1)"))
        await self.holds(tab, self.has("order", "wake, then film"))
        await whole.quiet()
        await self.holds(tab, self.has("history", "film\tdone"))
        # An abort with its cause, and a device that is down.
        whole.devices["door"].is_broken = True
        await whole.ask("/run/half", "POST")
        await whole.quiet()
        first = "(document.querySelector('#history tr') || document.body).innerText"
        await self.holds(tab, f"{first}.includes('taken back: door did not answer (step 3)')")
        await self.holds(tab, self.has("devices", "is down: it did not answer"))
        # The time line, by keys.
        await asyncio.to_thread(tab.press, "j")
        await asyncio.to_thread(tab.press, "Enter")
        await self.holds(tab, self.has("history", "is taken back: door did not answer"))
        await self.holds(tab, "document.querySelectorAll('.dot').length > 4")
        # A filter.
        await asyncio.to_thread(tab.value, "(find('cause').value = 'committed', "
                                           "find('cause').dispatchEvent(new Event('change')))")
        await self.holds(tab, f"!({self.has('history', 'door did not answer (step 3)')})")
        # A reload of the home.
        name = f"new{len(whole.home.routines)}-{id(tab) % 1000}"
        whole.write(LABELED.replace("routines:",
                                    f"routines:\n  {name}: {{do: [{{set: lamp, to: 7}}]}}"))
        before = whole.live
        whole.daemon.reload_soon()
        await self.holds(tab, self.has("routines", name))
        self.assertIsNot(whole.live, before)
        whole.home = whole.daemon.home


if __name__ == "__main__":
    unittest.main()
