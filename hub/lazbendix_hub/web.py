"""HTTP: triggers, the live page, figures, health.

Without a token the server is bound to this machine, and answers only where it is called by a name
of it, so no page of elsewhere can reach it by a name of its own. With a token nothing but the
health is answered without it. No other site's page may make a browser post here.
"""
from __future__ import annotations

import asyncio
import hmac
import json
import secrets
import time
from importlib import resources
from typing import Any, Awaitable, Callable, Protocol

from aiohttp import web

from lazbendix_hub.figures import Figures
from lazbendix_hub.history import History
from lazbendix_hub.home import LOOPBACK, Home, PagePlace
from lazbendix_hub.live import LiveHub, Watcher

LARGEST_BODY = 4096
MOST_PAGES = 32
COOKIE = "lazbendix"
OFTEN = 0.1  # s between two states that a page is sent
Handler = Callable[[web.Request], Awaitable[web.StreamResponse]]


class Served(Protocol):
    """What is shown, and set going."""

    home: Home
    live: LiveHub | None  # none while the home is opened
    history: History
    figures: Figures

    def is_healthy(self) -> bool:
        """Whether the hub works."""


class Bucket:
    """So many a second, and a burst of some seconds' worth; for each name, and the last names
    alone, so that no flood fills the memory."""

    def __init__(self, each: float, burst: float) -> None:
        self.each, self.burst = each, burst
        self.left: dict[str, tuple[float, float]] = {}

    def takes(self, name: str) -> bool:
        """Whether one more may be."""
        now = time.monotonic()
        left, at = self.left.pop(name, (self.burst, now))
        left = min(left + (now - at) * self.each, self.burst)
        is_fine = left >= 1
        self.left[name] = (left - 1 if is_fine else left, now)
        if len(self.left) > 1000:
            self.left.pop(next(iter(self.left)))
        return is_fine


class Web(Watcher):
    """The server."""

    def __init__(self, served: Served, place: PagePlace) -> None:
        self.served, self.place = served, place
        self.posts, self.guesses = Bucket(20, 60), Bucket(0.5, 10)
        self.version = 0
        self.changes = asyncio.Event()
        self.pages = 0
        self.runner: web.AppRunner | None = None
        self.port = place.port
        self.is_ending = False
        self.html = resources.files("lazbendix_hub").joinpath("page.html").read_text("utf-8")

    async def start(self) -> None:
        """Begins to serve. Raises `OSError` where the place is taken."""
        app = web.Application(middlewares=[self._guard], client_max_size=LARGEST_BODY)
        app.add_routes([
            web.get("/", self._page), web.get("/events", self._events),
            web.get("/state", self._state), web.get("/history", self._history),
            web.get("/metrics", self._metrics), web.get("/health", self._health),
            web.post("/run/{routine}", self._run), web.post("/stop/{trigger}", self._stop)])
        self.runner = web.AppRunner(app, access_log=None)
        await self.runner.setup()
        site = web.TCPSite(self.runner, self.place.host, self.place.port, shutdown_timeout=1)
        await site.start()
        sockets = getattr(getattr(site, "_server", None), "sockets", None) or []
        if sockets:
            self.port = sockets[0].getsockname()[1]

    async def stop(self) -> None:
        """Ends it, with the pages that are open."""
        self.is_ending = True
        self.changed()
        if self.runner is not None:
            await self.runner.cleanup()

    # -- Who may

    @web.middleware
    async def _guard(self, request: web.Request, handler: Handler) -> web.StreamResponse:
        refused = self._refusal(request)
        if refused is not None:
            return refused
        try:
            response = await handler(request)
        except web.HTTPException as error:
            if error.status >= 500:
                raise
            response = _told(error.status, error.reason)
        if not response.prepared:
            response.headers.setdefault("X-Content-Type-Options", "nosniff")
            response.headers.setdefault("Referrer-Policy", "no-referrer")
            response.headers.setdefault("Cache-Control", "no-store")
        return response

    def _refusal(self, request: web.Request) -> web.StreamResponse | None:
        remote = request.remote or ""
        if request.method == "POST" and not self.posts.takes(remote):
            return _told(429, "too many requests", {"Retry-After": "1"})
        if request.path == "/health":
            return None
        host = request.host.rsplit(":", 1)[0] if not request.host.endswith("]") else request.host
        if self.place.is_own and not self.place.token and host.strip("[]") not in LOOPBACK:
            return _told(403, "this hub answers by a name of its own machine alone")
        origin = request.headers.get("Origin")
        if request.method != "GET" and origin is not None \
                and origin.partition("://")[2] != request.host:
            return _told(403, "another site's page may not do this")
        return self._token_refusal(request, remote) if self.place.token else None

    def _token_refusal(self, request: web.Request, remote: str) -> web.StreamResponse | None:
        bearer = request.headers.get("Authorization", "")
        given = [bearer[7:]] if bearer.startswith("Bearer ") else []
        given += [request.cookies.get(COOKIE, ""), request.query.get("token", "")]
        tried = [each for each in given if each]
        if tried and not self.guesses.left.get(remote, (2.0, 0.0))[0] < 1 \
                and any(self._is_token(each) for each in tried):
            if "token" in request.query and request.path == "/":
                response = web.Response(status=303, headers={"Location": "/"})
                response.set_cookie(COOKIE, self.place.token, httponly=True, samesite="Strict",
                                    max_age=30 * 86400)
                return response
            return None
        if tried and not self.guesses.takes(remote):
            return _told(429, "too many wrong tokens", {"Retry-After": "2"})
        if request.path == "/":
            form = ("<!doctype html><meta name=viewport content='width=device-width'><title>"
                    "Lazbendix</title><form><label>Token <input name=token type=password "
                    "autofocus></label> <button>Open</button></form>")
            return web.Response(status=401, text=form, content_type="text/html")
        return _told(401, "a token is wanted", {"WWW-Authenticate": "Bearer"})

    def _is_token(self, given: str) -> bool:
        return hmac.compare_digest(given.encode("utf-8", "replace"), self.place.token.encode())

    # -- What is answered

    async def _page(self, request: web.Request) -> web.StreamResponse:
        nonce = secrets.token_urlsafe(16)
        policy = (f"default-src 'none'; script-src 'nonce-{nonce}'; style-src 'nonce-{nonce}'; "
                  "connect-src 'self'; img-src data:; base-uri 'none'; form-action 'self'; "
                  "frame-ancestors 'none'")
        return web.Response(text=self.html.replace("NONCE", nonce), content_type="text/html",
                            headers={"Content-Security-Policy": policy})

    def _shown(self) -> dict[str, Any]:
        live, home = self.served.live, self.served.home
        routines = [{"name": each.name, "label": each.label} for each in home.routines]
        told = live.shown() if live is not None else {"opening": True}
        return {**told, "routines": routines, "now": time.time()}

    async def _state(self, request: web.Request) -> web.StreamResponse:
        return web.json_response(self._shown())

    def changed(self) -> None:
        self.version += 1
        self.changes.set()

    async def _events(self, request: web.Request) -> web.StreamResponse:
        if self.pages >= MOST_PAGES:
            return _told(503, "too many pages are open")
        response = web.StreamResponse(headers={"Content-Type": "text/event-stream",
                                               "Cache-Control": "no-store"})
        await response.prepare(request)
        self.pages += 1
        seen = -1
        try:
            while not self.is_ending:
                if seen != self.version:
                    seen = self.version
                    told = json.dumps(self._shown())
                    await response.write(f"data: {told}\n\n".encode())
                else:
                    await response.write(b": still here\n\n")
                await asyncio.sleep(OFTEN)
                if seen == self.version:
                    self.changes.clear()
                    try:
                        await asyncio.wait_for(self.changes.wait(), 5)
                    except asyncio.TimeoutError:
                        pass
        except (ConnectionResetError, asyncio.CancelledError):
            pass
        finally:
            self.pages -= 1
        return response

    async def _history(self, request: web.Request) -> web.StreamResponse:
        asked = {key: request.query.get(key, "")[:64]
                 for key in ("day", "routine", "device", "cause")}
        count = request.query.get("count", "50")
        number = int(count) if count.isascii() and count.isdigit() and len(count) < 6 else 50
        rows = await asyncio.get_running_loop().run_in_executor(
            None, lambda: self.served.history.find(**asked, count=number))
        return web.json_response(rows)

    async def _metrics(self, request: web.Request) -> web.StreamResponse:
        if self.served.live is None:
            return _told(503, "the home is being opened")
        return web.Response(body=self.served.figures.text(self.served.live),
                            headers={"Content-Type": "text/plain; version=0.0.4; charset=utf-8"})

    async def _health(self, request: web.Request) -> web.StreamResponse:
        is_healthy = self.served.is_healthy()
        return _told(200 if is_healthy else 503, "fine" if is_healthy else "not fine")

    async def _run(self, request: web.Request) -> web.StreamResponse:
        """202 when the trigger is on the disk: from then on it is run, whatever becomes of this
        process, unless it becomes too old."""
        await request.read()  # 413 where it is too large
        live, name = self.served.live, request.match_info["routine"]
        names = [routine.name for routine in self.served.home.routines]
        if name not in names:
            return _told(404, "there is no such routine")
        if live is None or live.is_stopping:
            return _told(503, "the hub is not open", {"Retry-After": "2"})
        trigger = live.begin(names.index(name), "http")
        if trigger is None:
            return _told(429, f"{name} waits already", {"Retry-After": "2"})
        live.ledger.sync()
        return web.json_response({"trigger": trigger.accepted.number}, status=202)

    async def _stop(self, request: web.Request) -> web.StreamResponse:
        await request.read()
        live, number = self.served.live, request.match_info["trigger"]
        if live is None or not number.isascii() or not number.isdigit() or len(number) > 15 \
                or not live.stop_run(int(number)):
            return _told(404, "no run of this trigger goes on")
        return web.json_response({"trigger": int(number)}, status=202)


def _told(status: int, text: str, headers: dict[str, str] | None = None) -> web.Response:
    key = "error" if status >= 400 else "status"
    return web.json_response({key: text}, status=status, headers=headers)
