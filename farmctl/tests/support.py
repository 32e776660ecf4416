"""What the tests share: farmctl's words, and a farm of the released program in a folder of its own."""

from __future__ import annotations

import contextlib
import io
import json
import os
import shutil
import socket
import subprocess
import tempfile
import time
import unittest
from pathlib import Path
from typing import Any

from farmctl import cli, client, farm

MIDDLE = 2**29  # the column and row of world units where tile 14/8192/8192 begins
HERE = client.Tile(14, 8192, 8192)  # a tile with land; a road comes with update 0
SECONDS = 240.0  # a machine that proves beside this is slow
LAND = {"id": 1, "geometry": {"polygon": [[[MIDDLE + a, MIDDLE + b] for a, b in ((9000, 9000), (29000, 9000), (29000, 29000))]]}}
ROAD = {"id": 1, "geometry": {"lines": [[[MIDDLE + 5000, MIDDLE + 5000], [MIDDLE + 40000, MIDDLE + 50000]]]}}
STYLE = {
    "background-color": "#f2efe9",
    "styles": [
        {"name": "land", "rules": [{"symbolizers": [{"symbolizer": "PolygonSymbolizer", "fill": "#add19e"}]}]},
        {"name": "roads", "rules": [{"symbolizers": [{"symbolizer": "LineSymbolizer", "stroke": "#a06b00", "stroke-width": "4"}]}]},
    ],
    "layers": [{"name": name, "source": name, "styles": [name]} for name in ("land", "roads")],
}
DATA = {"units": "world", "layers": [{"name": "land", "features": [LAND]}, {"name": "roads", "features": []}]}
FILES: dict[str, Any] = {
    "style.json": STYLE,
    "data.json": DATA,
    "road.json": {"units": "world", "changes": [{"layer": "roads", "put": [ROAD]}]},
    "more.json": {"units": "world", "changes": [{"layer": "roads", "put": [dict(ROAD, id=2)]}]},
    "wrong.json": {"units": "world", "changes": [{"layer": "roads", "remove": [77]}]},
    "bad.json": {"units": "world", "changes": [{"layer": "land", "put": [{"id": 3, "geometry": {"polygon": [[[1, 1], [2, 2]]]}}]}]},
}
CONFIG: dict[str, Any] = {
    "maps": [{"name": "default", "style": "style.json", "tile": 16}],
    "data": "data.json",
    "updates": ["road.json"],
    "workers": 2,
    "renderd": "unix:renderd.sock",
    "tiles": "unix:tiles.sock",
    "control": "unix:control.sock",
    "resume": True,
}


def farmctl(*words: str | Path) -> tuple[int, str, str]:
    """Status, standard output and standard error of farmctl with these words."""
    out, err = io.StringIO(), io.StringIO()
    with contextlib.redirect_stdout(out), contextlib.redirect_stderr(err):
        try:
            status = cli.main([str(word) for word in words])
        except SystemExit as end:
            status = int(end.code or 0)
    return status, out.getvalue(), err.getvalue()


def free_port() -> int:
    with socket.socket() as made:
        made.bind(("127.0.0.1", 0))
        return int(made.getsockname()[1])


def program() -> str:
    """The released program; where it does not run here, what needs it is skipped."""
    found = farm.program_of(None)
    if not os.access(found, os.X_OK):
        raise unittest.SkipTest(f"{found} does not run here")
    return found


class InFolder(unittest.TestCase):
    """A folder with a farm's files, in which no farm runs yet."""

    def setUp(self) -> None:
        self.folder = Path(tempfile.mkdtemp(prefix="farmctl-"))
        self.addCleanup(shutil.rmtree, self.folder, True)
        for name, value in FILES.items():
            self.write(name, value)
        self.config = json.loads(json.dumps(CONFIG))
        self.addresses: dict[str, str] = {}  # in place of the configuration's
        self.write("farm.json", self.config)

    def write(self, name: str, value: Any) -> None:
        (self.folder / name).write_text(value if isinstance(value, str) else json.dumps(value))

    def farmctl(self, *words: str | Path) -> tuple[int, str, str]:
        return farmctl("-c", self.folder / "farm.json", *words)

    def address(self, front: str) -> str:
        return self.addresses.get(front) or f"unix:{self.folder / front}.sock"


class WithFarm(InFolder):
    """The same, and it runs; a test may restart it."""

    def setUp(self) -> None:
        super().setUp()
        self.running: list[subprocess.Popen[bytes]] = []
        self.addCleanup(self.end)
        self.start()

    def start(self) -> None:
        made = subprocess.Popen([program(), "serve", "farm.json"], cwd=self.folder, stdin=subprocess.DEVNULL, stderr=subprocess.DEVNULL,
                                stdout=subprocess.DEVNULL)  # fmt: skip
        self.running.append(made)
        end = time.monotonic() + SECONDS
        while not self.answers():
            if time.monotonic() > end or made.poll() is not None:
                raise AssertionError(f"the farm does not listen: {made.poll()}")
            time.sleep(0.02)

    def answers(self) -> bool:
        try:
            return bool(client.control(self.address("control"), "stats"))
        except OSError:
            return False

    def stop(self) -> None:
        with contextlib.suppress(OSError):
            client.control(self.address("control"), "stop")
        for made in self.running:
            made.wait(SECONDS)

    def end(self) -> None:
        for made in self.running:
            made.kill()
            made.wait()

    def get(self, tile: client.Tile, more: str = "") -> client.Page | None:
        return client.get(self.address("tiles"), "/default/{}/{}/{}.ppm".format(*tile) + more)
