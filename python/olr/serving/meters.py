"""What is counted, in the text form of Prometheus."""

from collections.abc import Callable, Mapping
from functools import cache
from prometheus_client import CollectorRegistry, Counter, Histogram, generate_latest
from prometheus_client.core import CounterMetricFamily, GaugeMetricFamily
from prometheus_client.registry import Collector

MEDIA_TYPE = "text/plain; version=0.0.4; charset=utf-8"
SECONDS = (0.001, 0.0025, 0.005, 0.01, 0.025, 0.05, 0.1, 0.25, 0.5, 1, 2.5, 5, 10, 30)
Figures = Callable[[], Mapping[str, int]]
"""What a map knows of its processes. See `Served.figures`."""
OTHER = "other"
"""Stands for all addresses that aren't there."""


class _Processes(Collector):
    """What a map knows of its processes, as it is when it is asked."""

    def __init__(self, figures: Figures) -> None:
        self._figures = figures

    def collect(self) -> "list[GaugeMetricFamily | CounterMetricFamily]":
        """The figures."""
        figures = self._figures()
        waiting = GaugeMetricFamily("olr_waiting_requests", "Requests that wait for a process")
        waiting.add_metric([], figures.get("waiting", 0))
        processes = GaugeMetricFamily("olr_processes", "Processes of the program", labels=["state"])
        for state in ("working", "idle"):
            processes.add_metric([state], figures.get(state, 0))
        starts = CounterMetricFamily("olr_starts", "Processes that were started")
        starts.add_metric([], figures.get("starts", 0))
        restarts = CounterMetricFamily(
            "olr_restarts", "Processes that ended without being told to", labels=["reason"]
        )
        for reason in ("ended", "map", "time"):
            restarts.add_metric([reason], figures.get(reason, 0))
        return [waiting, processes, starts, restarts]


class Meters:
    """Requests by address and status, faults by name, times, and processes."""

    def __init__(self, figures: Figures) -> None:
        self._registry = CollectorRegistry()
        requests = Counter(
            "olr_requests",
            "Requests that were answered",
            ["address", "status"],
            registry=self._registry,
        )
        self._faults = Counter(
            "olr_faults", "References without an answer", ["fault"], registry=self._registry
        )
        seconds = Histogram(
            "olr_request_seconds",
            "Seconds from the head of a request to the end of its answer",
            ["address"],
            buckets=SECONDS,
            registry=self._registry,
        )
        self._registry.register(_Processes(figures))
        # Addresses and statuses are few, and to look a meter up takes as long as to count.
        self._requests_of, self._seconds_of = cache(requests.labels), cache(seconds.labels)

    def count(self, address: str, status: int, seconds: float) -> None:
        """Counts a request that was answered."""
        self._requests_of(address, status).inc()
        self._seconds_of(address).observe(seconds)

    def count_fault(self, name: str) -> None:
        """Counts a reference without an answer."""
        self._faults.labels(name).inc()

    def text(self) -> bytes:
        """All of it."""
        return bytes(generate_latest(self._registry))
