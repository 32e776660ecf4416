"""Turns between two folders with farms of the released program."""

from __future__ import annotations

import contextlib
import json
import os
import shutil
import subprocess
import tempfile
import threading
import time
import unittest
from pathlib import Path

from farmctl import client, turning
from tests import support

LOG = '1.2.3.4 - - [30/Nov/2026:07:00:00 +0000] "GET /default/{}.png HTTP/1.1" 200 812 "-" "-"\n'


class Turns(unittest.TestCase):
    def setUp(self) -> None:
        self.top = Path(tempfile.mkdtemp(prefix="farmctl-"))
        self.addCleanup(shutil.rmtree, self.top, True)
        for name in "ab":
            (self.top / name).mkdir()
            for file, value in {**support.FILES, "farm.json": support.CONFIG}.items():
                (self.top / name / file).write_text(json.dumps(value))
        self.write_b("data.json", {**support.DATA, "layers": support.DATA["layers"][:1] + [{"name": "roads", "features": [support.ROAD]}]})
        self.link = self.top / "now"
        self.link.symlink_to("a")
        self.addCleanup(self.end)
        self.first = subprocess.Popen([support.program(), "serve", "farm.json"], cwd=self.top / "a", stdout=subprocess.DEVNULL)
        self.tiles = f"unix:{self.link}/tiles.sock"
        self.wait_for(f"unix:{self.top}/a/control.sock")

    def write_b(self, name: str, value: object) -> None:
        (self.top / "b" / name).write_text(json.dumps(value))

    def wait_for(self, address: str) -> None:
        ends = time.monotonic() + support.SECONDS
        while time.monotonic() < ends:
            with contextlib.suppress(OSError):
                client.control(address, "stats")
                return
            time.sleep(0.02)
        raise AssertionError(f"nobody listens at {address}")

    def end(self) -> None:
        for name in "ab":
            with contextlib.suppress(OSError):
                address = f"unix:{self.top}/{name}/control.sock"
                process = turning.process_at(address)
                client.control(address, "stop")
                while turning.is_there(process):
                    time.sleep(0.02)
        self.first.wait(support.SECONDS)

    def turn(self, *words: str) -> tuple[int, str]:
        reaped = threading.Thread(target=self.first.wait)
        reaped.start()
        status, _, told = support.farmctl("turn", self.link, self.top / "b", *words)
        return status, told

    def get(self) -> client.Page:
        page = client.get(self.tiles, "/default/14/8192/8192.ppm")
        assert page is not None
        return page

    def test_the_other_takes_over(self) -> None:
        before = self.get()
        (self.top / "log").write_text(LOG.format("14/8192/8192"))
        status, told = self.turn("--from-log", str(self.top / "log"))
        self.assertEqual((status, os.readlink(self.link)), (0, "b"), told)
        self.assertIn("drawn beforehand: 1 metatiles that were asked most", told)
        self.assertEqual(client.get(self.tiles, "/default/14/8192/8192.ppm/status").body, b"clean 0\n")
        self.assertNotEqual(self.get().body, before.body)
        self.assertEqual(self.first.wait(1), 0)
        self.assertGreater((self.top / "a" / "tiles" / "farm.saved").stat().st_size, 0)

    def test_nothing_happens_where_the_other_is_refused(self) -> None:
        faults = {
            "data.json": support.FILES["bad.json"],
            "farm.json": {**support.CONFIG, "tiles": "unix:other.sock"},
            "style.json": {"layers": 7},
        }
        for name, value in faults.items():
            with self.subTest(name):
                before = (self.top / "b" / name).read_text()
                self.write_b(name, value)
                status, told = self.turn()
                self.assertEqual((status, os.readlink(self.link), self.get().status), (1, "a", 200), told)
                self.assertNotIn("Traceback", told)
                (self.top / "b" / name).write_text(before)

    def test_a_start_that_fails_leaves_the_first(self) -> None:
        (self.top / "b" / "tiles").write_text("no folder")
        status, told = self.turn("--wait", "20")
        self.assertEqual((status, os.readlink(self.link), self.get().status), (1, "a", 200), told)
        self.assertIn("serves as before", told)

    def test_the_link_names_it_already(self) -> None:
        status, _, told = support.farmctl("turn", self.link, self.top / "a")
        self.assertEqual((status, told.count("\n")), (1, 1))


if __name__ == "__main__":
    unittest.main()
