"""Figures for Prometheus."""
from __future__ import annotations

from prometheus_client import CollectorRegistry, Counter, Gauge, Histogram, generate_latest

from lazbendix_hub.home import Home
from lazbendix_hub.live import Ended, LiveHub, Watcher

QUICK = (0.001, 0.002, 0.005, 0.01, 0.02, 0.05, 0.1, 0.25, 0.5, 1, 2.5, 5, 10, 30)


class Figures(Watcher):
    """Counts what the hub tells, over all its homes."""

    def __init__(self) -> None:
        self.registry = CollectorRegistry()
        of = self.registry
        self.ends = Counter("lazbendix_runs", "Runs that have ended", ["routine", "outcome"],
                            registry=of)
        self.causes = Counter("lazbendix_aborts", "Runs taken back, by their cause",
                              ["cause"], registry=of)
        self.triggers = Counter("lazbendix_triggers", "Triggers that were taken", ["routine"],
                                registry=of)
        self.first = Histogram("lazbendix_first_call_seconds", "From a trigger to its first call",
                               buckets=QUICK, registry=of)
        self.took = Histogram("lazbendix_run_seconds", "From a trigger to the end of its run",
                              buckets=QUICK, registry=of)
        self.calls = Histogram("lazbendix_call_seconds", "A call of a device", ["device"],
                               buckets=QUICK, registry=of)
        self.dead = Counter("lazbendix_dead_calls", "Calls that a device did not answer",
                            ["device"], registry=of)
        self.up = Gauge("lazbendix_device_up", "Whether the device is counted up", ["device"],
                        registry=of)
        self.broker = Gauge("lazbendix_broker_up", "Whether broker and bridge are there",
                            registry=of)
        self.waiting = Gauge("lazbendix_waiting", "Triggers that wait", registry=of)
        self.core = Gauge("lazbendix_core_seconds", "Time spent in the hub's loop", registry=of)
        self.counts = Gauge("lazbendix_count", "The hub's own counts", ["of"], registry=of)
        self.home: Home | None = None

    def begin(self, home: Home) -> None:
        """The figures are of this home from now on."""
        self.home = home
        for device in home.devices[: home.core_count]:
            self.up.labels(device.name).set(1)

    def begun(self, routine: int) -> None:
        if self.home is not None:
            self.triggers.labels(self.home.routines[routine].name).inc()

    def ended(self, ended: Ended) -> None:
        self.ends.labels(ended.routine, ended.outcome).inc()
        if ended.outcome == "aborted":
            self.causes.labels(ended.cause_kind or "other").inc()
        if ended.first_call is not None:
            self.first.observe(ended.first_call / 1000)
        self.took.observe(ended.took / 1000)

    def called(self, device: int, seconds: float, is_dead: bool) -> None:
        if self.home is not None:
            name = self.home.devices[device].name
            self.calls.labels(name).observe(seconds)
            if is_dead:
                self.dead.labels(name).inc()

    def counted(self, device: int, is_up: bool) -> None:
        if self.home is not None:
            self.up.labels(self.home.devices[device].name).set(is_up)

    def text(self, live: LiveHub) -> bytes:
        """The figures as Prometheus reads them."""
        self.broker.set(all(driver.is_reachable() for driver in live.drivers))
        self.waiting.set(len(live.queue))
        self.core.set(live.core_seconds)
        for name, count in live.counts.items():
            self.counts.labels(name).set(count)
        return generate_latest(self.registry)
