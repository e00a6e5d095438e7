"""HTTP: who may, what is answered, and the page."""
import asyncio
import json
import subprocess
import sys
import unittest

from lazbendix_hub.history import why_text
from tests.stage import HOME, until
from tests.whole import Whole

EVIL = '<script>alert(1)</script>" onload="x'
LABELED = HOME.replace("lamp: {topic: hall_lamp,", f"lamp: {{label: '{EVIL}', topic: hall_lamp,")
TOKEN = "a-token-of-some-length"


class Http(unittest.IsolatedAsyncioTestCase):
    async def test_a_trigger_and_what_became_of_it(self) -> None:
        async with Whole() as whole:
            status, told = await whole.ask("/run/evening", "POST")
            self.assertEqual((status, told), (202, {"trigger": 1}))
            await whole.quiet()
            status, rows = await whole.ask("/history?routine=evening")
            self.assertEqual([row["outcome"] for row in rows], ["committed"])
            self.assertIn("It was done", why_text(rows[0]))
            whole.devices["door"].is_broken = True
            await whole.ask("/run/half", "POST")
            await whole.quiet()
            for query, count in (("cause=no-answer", 1), ("device=door", 1), ("cause=committed", 1),
                                 ("day=2001-01-01", 0), ("day=x", 0), ("routine=' or 1", 0)):
                self.assertEqual(len((await whole.ask(f"/history?{query}"))[1]), count, query)
            ran = subprocess.run([sys.executable, "-m", "lazbendix_hub", "why", "LAST", "--folder",
                                  whole.folder], capture_output=True, text=True)
            self.assertEqual(ran.returncode, 0, ran.stderr)
            self.assertIn("taken back: door did not answer", ran.stdout)
            self.assertIn("back: lamp to 20", ran.stdout)
            status, text = await whole.ask("/metrics")
            self.assertIn('lazbendix_runs_total{outcome="aborted",routine="half"} 1.0', text)
            self.assertIn('lazbendix_device_up{device="door"} 0.0', text)
            self.assertEqual(await whole.ask("/health"), (200, {"status": "fine"}))

    async def test_who_may(self) -> None:
        async with Whole() as whole:
            own = f"127.0.0.1:{whole.port}"
            for headers, status in (({"Host": "evil.example"}, 403),
                                    ({"Host": f"evil.example:{whole.port}"}, 403),
                                    ({"Host": f"localhost:{whole.port}"}, 202),
                                    ({"Host": own, "Origin": "http://evil.example"}, 403),
                                    ({"Host": own, "Origin": "null"}, 403),
                                    ({"Host": own, "Origin": f"http://{own}"}, 202)):
                told, _ = await whole.ask("/run/evening", "POST", headers=headers)
                self.assertEqual(told, status, headers)
            for path, method, status in (("/run/none", "POST", 404), ("/run/evening", "GET", 405),
                                         ("/nothing", "GET", 404), ("/stop/x", "POST", 404),
                                         ("/stop/99", "POST", 404), ("/run/a%2Fb", "POST", 404),
                                         ("/run/%00", "POST", 404)):
                self.assertEqual((await whole.ask(path, method))[0], status, path)
            status, _ = await whole.ask("/run/evening", "POST", data=b"x" * 100_000)
            self.assertEqual(status, 413)
            await whole.quiet()

    async def test_floods(self) -> None:
        async with Whole() as whole:
            told = await asyncio.gather(*(whole.ask("/run/film", "POST") for _ in range(120)))
            statuses = [status for status, _ in told]
            self.assertEqual(set(statuses), {202, 429})
            self.assertLessEqual(statuses.count(202), 75)
            await whole.quiet()
            taken = statuses.count(202)
            self.assertEqual(whole.live.counts["committed"], taken)

    async def test_a_token(self) -> None:
        async with Whole(page=f", token: {TOKEN}") as whole:
            for path, method in (("/run/evening", "POST"), ("/state", "GET"), ("/events", "GET"),
                                 ("/metrics", "GET"), ("/history", "GET"), ("/", "GET")):
                self.assertEqual((await whole.ask(path, method))[0], 401, path)
            self.assertEqual((await whole.ask("/health"))[0], 200)
            bearer = {"Authorization": f"Bearer {TOKEN}", "Host": "hub.example"}
            self.assertEqual((await whole.ask("/run/evening", "POST", headers=bearer))[0], 202)
            self.assertEqual((await whole.ask(f"/?token={TOKEN}"))[0], 200)  # and a cookie is set
            self.assertEqual((await whole.ask("/state"))[0], 200)
            whole.web.cookie_jar.clear()
            wrong = {"Authorization": "Bearer wrong"}
            statuses = [(await whole.ask("/state", headers=wrong))[0] for _ in range(30)]
            self.assertEqual(statuses[0], 401)
            self.assertEqual(statuses[-1], 429)
            await whole.quiet()

    async def test_the_page(self) -> None:
        async with Whole(LABELED) as whole:
            async with whole.web.get("/") as told:
                policy, text = told.headers["Content-Security-Policy"], await told.text()
            self.assertIn("default-src 'none'", policy)
            nonce = policy.partition("'nonce-")[2].partition("'")[0]
            self.assertEqual(text.count(f'nonce="{nonce}"'), 2)
            for word in ("NONCE", "innerHTML", "http://", "https://"):
                self.assertNotIn(word, text)
            async with whole.web.get("/events") as events:
                self.assertEqual(events.content_type, "text/event-stream")
                await whole.ask("/run/wake", "POST")
                is_seen = False
                async for line in events.content:
                    if not line.startswith(b"data: "):
                        continue
                    told_state = json.loads(line[6:])
                    self.assertEqual(told_state["devices"][0]["label"], EVIL)
                    calls = [run["state"] for run in told_state["runs"]]
                    is_seen |= calls == ["calls blinds"]
                    if is_seen and told_state["counts"]["committed"]:
                        break
            await until(lambda: whole.daemon.web.pages == 0, 20)

    async def test_a_run_is_stopped(self) -> None:
        async with Whole() as whole:
            _, told = await whole.ask("/run/film", "POST")
            await until(lambda: whole.live.is_open)
            status, _ = await whole.ask(f"/stop/{told['trigger']}", "POST")
            self.assertEqual(status, 202)
            await whole.quiet()
            _, rows = await whole.ask("/history")
            self.assertEqual((rows[0]["outcome"], rows[0]["cause_kind"]), ("aborted", "stopped"))


class Reload(unittest.IsolatedAsyncioTestCase):
    async def test_a_home_is_read_again(self) -> None:
        async with Whole() as whole:
            await whole.ask("/run/evening", "POST")
            await whole.ask("/run/film", "POST")
            whole.write(HOME.replace("routines:", "routines:\n  new: {do: [{set: lamp, to: 77}]}"))
            whole.daemon.reload_soon()
            await whole.ask("/run/guests", "POST")  # it waits, and runs in the new home
            await until(lambda: whole.daemon.home is not whole.home
                        and whole.daemon.live is not None)
            await whole.quiet()
            self.assertEqual((await whole.ask("/run/new", "POST"))[0], 202)
            await whole.quiet()
            self.assertEqual(whole.devices["lamp"].value in (76, 77), True)
            _, rows = await whole.ask("/history")
            routines = [row["routine"] for row in rows]
            self.assertEqual(routines[:2], ["new", "guests"])
            self.assertEqual(set(routines[2:]), {"film", "evening"})
            self.assertEqual({row["outcome"] for row in rows}, {"committed"})

    async def test_a_wrong_file_is_not_taken(self) -> None:
        async with Whole() as whole:
            live = whole.live
            whole.write(HOME.replace("kind: lock", "kind: lokc"))
            with self.assertLogs("lazbendix.daemon", "ERROR") as logs:
                whole.daemon.reload_soon()
            self.assertIn("do you mean `lock`?", logs.output[0])
            self.assertIs(whole.live, live)
            self.assertEqual((await whole.ask("/run/evening", "POST"))[0], 202)
            await whole.quiet()


if __name__ == "__main__":
    unittest.main()
