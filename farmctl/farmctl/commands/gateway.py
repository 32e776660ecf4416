"""Serves the farm's tiles as PNG, with a page that shows them, for browsers, QGIS, MapLibre and whatever takes XYZ tiles.

/MAP/Z/X/Y.png is the tile, /MAP.json its TileJSON, and / a page with the map. Each request is asked of the farm, so that a
tile is clean as of when it is sent. --keep, --max-age and --shared-max-age choose by how many seconds it may be older: here,
in the browser, and in a cache between the two. These add up, and they are for clean tiles alone.

With 2.7 of four processors it was measured at 678 tiles a second made anew, with 1.9 at 1,275 whose picture was known, and at
8,841 that were kept (--keep). docs/operate/gateway.md says more.
"""

from __future__ import annotations

import argparse
import asyncio
import contextlib
import ctypes
import multiprocessing
import multiprocessing.connection
import os
import signal
import socket
import time
from pathlib import Path
from types import FrameType
from typing import TYPE_CHECKING

from farmctl.errors import USAGE, FarmError, library
from farmctl.farm import Farm
from farmctl.words import seconds

if TYPE_CHECKING:
    from farmctl.gateway import Settings, View

HELP = "serve PNG tiles, a page with the map, and TileJSON"
EXAMPLE = """
    farmctl -c farm.json gateway
    farmctl -c farm.json gateway --listen tcp:0.0.0.0:8080 --keep 10 --max-age 60
"""
M_TRIM_THRESHOLD, M_MMAP_THRESHOLD = -1, -3  # of the C library (malloc.h)
LEAST = 1.0  # seconds from one start of a process to the next


def add(parser: argparse.ArgumentParser) -> None:
    parser.add_argument("--listen", metavar="ADDRESS", default="tcp:127.0.0.1:8080",
                        help="tcp:a.b.c.d:PORT or unix:PATH (%(default)s)")  # fmt: skip
    parser.add_argument("--processes", metavar="N", type=int, help="how many (one for each processor)")
    parser.add_argument("--keep", metavar="SECONDS", type=seconds, default=0.0,
                        help="keep clean tiles here, by so much older than the farm would tell (%(default)s: ask each time)")  # fmt: skip
    parser.add_argument("--max-age", metavar="SECONDS", type=int, default=0,
                        help="browsers may keep clean tiles as long (%(default)s: they ask each time, and are answered 304)")  # fmt: skip
    parser.add_argument("--shared-max-age", metavar="SECONDS", type=int,
                        help="caches that serve many may (as --max-age), for example nginx before this")  # fmt: skip
    parser.add_argument("--memory", metavar="MIB", type=int, default=64, help="for pictures, in each process (%(default)s; 0: none is kept)")
    parser.add_argument("--view", metavar="Z/LAT/LON", default="2/20/0", help="what the page shows first (%(default)s)")
    parser.add_argument("--public", metavar="URL", help="the address in TileJSON (that which was asked)")
    parser.add_argument("--origin", metavar="ORIGIN", default="*",
                        help="whose pages may use the tiles ('%(default)s': all; '': this page's own)")  # fmt: skip
    parser.add_argument("--access-log", metavar="FILE", help="a line for each request, as other servers have it (none)")


def view_of(text: str) -> View:
    from farmctl.gateway import EDGE, View

    try:
        zoom, latitude, longitude = text.split("/")
        made = View(int(zoom), float(latitude), float(longitude))
    except ValueError:
        made = None
    if made is None or not (0 <= made.zoom <= 22 and abs(made.latitude) <= EDGE and abs(made.longitude) <= 180):
        raise FarmError(f"--view {text}: no zoom/latitude/longitude", USAGE)
    return made


def settings_of(args: argparse.Namespace) -> Settings:
    from farmctl.gateway import OPEN, Settings, maps_of

    farm = Farm.of(args)
    args.processes = args.processes if args.processes is not None else os.cpu_count() or 1
    maps = maps_of(farm.config)
    if not maps:
        raise FarmError(f"{farm.path}: no maps")
    if args.processes < 1 or min(args.memory, args.keep, args.max_age, args.shared_max_age or 0) < 0:
        raise FarmError("--processes is at least 1, --memory and ages are at least 0", USAGE)
    return Settings(
        farm=farm.address("tiles"), maps=maps, view=view_of(args.view), max_age=args.max_age,
        shared_max_age=args.shared_max_age, keep=args.keep, memory=args.memory << 20,
        open=max(1, OPEN // args.processes), origin=args.origin, public=args.public, access_log=args.access_log,
    )  # fmt: skip


def listening(address: str) -> socket.socket:
    """A socket that listens there; one of a Unix address that an earlier run left is taken over."""
    kind, _, place = address.partition(":")
    try:
        if kind == "unix":
            return _unix(place)
        host, _, port = place.rpartition(":")
        if kind != "tcp" or not port.isdecimal():
            raise FarmError(f"--listen {address}: no address (tcp:a.b.c.d:PORT or unix:PATH)", USAGE)
        return socket.create_server((host, int(port)), backlog=1024)
    except (OSError, OverflowError) as fault:
        raise FarmError(f"--listen {address}: {fault}") from fault


def _unix(path: str) -> socket.socket:
    made = socket.socket(socket.AF_UNIX)
    with socket.socket(socket.AF_UNIX) as there:
        if there.connect_ex(path) != 0:
            with contextlib.suppress(FileNotFoundError):
                if Path(path).is_socket():
                    os.unlink(path)
    made.bind(path)
    made.listen(1024)
    return made


def keep_memory() -> None:
    """What a picture is made in stays with the process: to give it back and take it anew is a seventh of the time of each."""
    with contextlib.suppress(OSError, AttributeError):  # a C library that has no such call does as it likes
        for what, size in ((M_TRIM_THRESHOLD, 256 << 20), (M_MMAP_THRESHOLD, 32 << 20)):
            ctypes.CDLL(None).mallopt(what, size)


def work(settings: Settings, listens: socket.socket) -> None:
    """One process, until SIGTERM. Ctrl-C comes to the parent too, which sends that."""
    from farmctl.gateway import serve

    async def until_told() -> None:
        ended = asyncio.Event()
        asyncio.get_running_loop().add_signal_handler(signal.SIGTERM, ended.set)
        await serve(settings, listens, ended)

    signal.signal(signal.SIGINT, signal.SIG_IGN)
    keep_memory()
    asyncio.run(until_told())


class Told(Exception):
    """A signal that ends it."""


def tell(_number: int, _frame: FrameType | None) -> None:
    raise Told


def run_all(settings: Settings, listens: socket.socket, count: int) -> None:
    """Keeps so many processes until a signal; one that ends is started anew, not more often than once a second each."""
    from farmctl.gateway import END

    fork = multiprocessing.get_context("fork")

    def begun() -> multiprocessing.Process:
        made = fork.Process(target=work, args=(settings, listens), daemon=True)
        made.start()
        return made

    signal.signal(signal.SIGTERM, tell)
    signal.signal(signal.SIGINT, tell)
    running: list[multiprocessing.Process] = []
    try:
        running += [begun() for _ in range(count)]
        while True:
            multiprocessing.connection.wait([each.sentinel for each in running])
            time.sleep(LEAST)
            running = [each if each.is_alive() else begun() for each in running]
    except Told:
        signal.signal(signal.SIGTERM, signal.SIG_IGN)
        signal.signal(signal.SIGINT, signal.SIG_IGN)
    finally:
        for each in running:
            each.terminate()
        for each in running:
            each.join(2 * END)
            each.kill()


def run(args: argparse.Namespace) -> int:
    os.environ.setdefault("OPENBLAS_NUM_THREADS", "1")  # numpy's threads have nothing to do here
    for name, package in (("aiohttp", "python3-aiohttp"), ("PIL", "python3-pil"), ("numpy", "python3-numpy")):
        library(name, package)
    settings = settings_of(args)
    if args.access_log:
        open(args.access_log, "a").close()  # a fault is told here, and not by each process
    with listening(args.listen) as listens:
        where = args.listen.replace("tcp:", "http://", 1) + ("/" if args.listen.startswith("tcp:") else "")
        print(f"{where}: {', '.join(settings.maps)}, {args.processes} processes, the farm at {settings.farm}", flush=True)
        run_all(settings, listens, args.processes)
    if args.listen.startswith("unix:"):
        with contextlib.suppress(OSError):
            os.unlink(args.listen.partition(":")[2])
    return 0
