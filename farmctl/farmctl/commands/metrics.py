"""Tells Prometheus how a farm is: as text on standard output, in a file for node_exporter, or over HTTP.

The store is walked through at most every --walk seconds, since that takes a while where there are many containers.
farmctl/alerts.yml has the rules of alerts over these metrics, docs/operate/night.md what each means and what to do.
"""

from __future__ import annotations

import argparse
import threading
import time
from collections.abc import Iterator
from pathlib import Path
from typing import Any

from farmctl.errors import FarmError, library
from farmctl.farm import Farm
from farmctl.observing import Seen, Store, maps_of, seen, store_of
from farmctl.words import seconds

HELP = "tell Prometheus how a farm is"
EXAMPLE = """
    farmctl -c /srv/farm/farm.json metrics
    farmctl -c /srv/farm/farm.json metrics -o /var/lib/prometheus/node-exporter/tilefarm.prom
    farmctl -c /srv/farm/farm.json metrics --listen 127.0.0.1:9477
"""
GAUGES = {
    "up": "1 where the farm answers at its control address",
    "answer_seconds": "how long it took to answer",
    "version": "the version of the data: updates that were made",
    "ready_seconds": "how long the farm read its files at its start",
    "start_time_seconds": "when the farm's process began",
    "memory_bytes": "memory of the farm's process",
    "memory_most_bytes": "the most that it ever was",
    "open_files": "files and connections that it has open",
    "most_files": "how many it may have open",
    "disk_free_bytes": "free bytes of the disk below tiles",
    "disk_size_bytes": "its size",
    "written_day_bytes": "bytes of the containers that were written in the last day",
    "oldest_container_time_seconds": "when the oldest container was written",
    "left_files": "half-written files that a run left",
    "left_bytes": "their bytes",
    "strange_containers": "containers of maps or zooms that the configuration has not",
}
COUNTERS = {
    "asks": "requests by renderd's protocol and over HTTP",
    "done": "those that ended well",
    "stored": "drawings that were kept",
}
WALK = 300.0


def add(parser: argparse.ArgumentParser) -> None:
    parser.add_argument("-o", "--output", metavar="FILE", type=Path, help="write a file, whole, for node_exporter's textfile collector")
    parser.add_argument("--listen", metavar="HOST:PORT", help="serve them over HTTP until this is ended")
    parser.add_argument("--walk", metavar="SECONDS", type=seconds, default=WALK, help="between two walks through the store (300)")


def values(now: Seen) -> dict[str, float | None]:
    """The gauges that have no labels."""
    process, disk, store = now.process, now.disk, now.store
    return {
        "up": 1 if now.tally else 0,
        "answer_seconds": now.answer_seconds if now.tally else None,
        "version": now.tally and now.tally.version,
        "ready_seconds": now.ready_seconds,
        "start_time_seconds": process and process.started,
        "memory_bytes": process and process.memory,
        "memory_most_bytes": process and process.most_memory,
        "open_files": process and process.open_files,
        "most_files": process and process.most_files,
        "disk_free_bytes": disk and disk.free,
        "disk_size_bytes": disk and disk.size,
        "written_day_bytes": store.day,
        "oldest_container_time_seconds": store.oldest,
        "left_files": store.left.containers,
        "left_bytes": store.left.bytes,
        "strange_containers": store.strange.containers,
    }


class Collector:
    """What the library asks at each scrape."""

    def __init__(self, farm: Farm, walk: float) -> None:
        self.farm = farm
        self.walk = walk
        self.core = library("prometheus_client.core", "python3-prometheus-client")
        self.store: Store | None = None
        self.walked = 0.0
        self.lock = threading.Lock()

    def kept_store(self) -> Store:
        with self.lock:
            if self.store is None or time.monotonic() - self.walked > self.walk:
                self.store = store_of(self.farm.tiles, maps_of(self.farm), time.time())
                self.walked = time.monotonic()
            return self.store

    def collect(self) -> Iterator[Any]:
        now = seen(self.farm, self.kept_store())
        for name, value in values(now).items():
            if value is not None:
                yield self.core.GaugeMetricFamily(f"tilefarm_{name}", GAUGES[name], value=value)
        for name, text in COUNTERS.items():
            if now.tally:
                yield self.core.CounterMetricFamily(f"tilefarm_{name}", text, value=getattr(now.tally, name))
        labels = ["map", "zoom"]
        containers = self.core.GaugeMetricFamily("tilefarm_containers", "containers that are stored", labels=labels)
        lengths = self.core.GaugeMetricFamily("tilefarm_container_bytes", "their bytes", labels=labels)
        for (name, z), kept in sorted(now.store.zooms.items()):
            containers.add_metric([name, str(z)], kept.containers)
            lengths.add_metric([name, str(z)], kept.bytes)
        yield from (containers, lengths)


def served(listen: str, registry: Any) -> int:
    host, colon, port = listen.rpartition(":")
    if not colon or not port.isdecimal() or int(port) > 65535:
        raise FarmError(f"no HOST:PORT: {listen}")
    try:
        library("prometheus_client", "python3-prometheus-client").start_http_server(int(port), host, registry)
    except OSError as fault:
        raise FarmError(f"{listen}: {fault.strerror}") from fault
    print(f"http://{listen}/metrics", flush=True)
    threading.Event().wait()
    return 0


def run(args: argparse.Namespace) -> int:
    prometheus = library("prometheus_client", "python3-prometheus-client")
    registry = prometheus.CollectorRegistry()
    collector = Collector(Farm.of(args), args.walk)
    registry.register(collector)
    if args.listen:
        return served(args.listen, registry)
    if args.output:
        prometheus.write_to_textfile(str(args.output), registry)
    else:
        print(prometheus.generate_latest(registry).decode(), end="")
    return 0
