"""`status`, `watch` and `metrics`: what is seen of a farm that runs, one that is down, and of its store."""

import importlib.util
import os
import re
import threading
import time
import unittest
import urllib.request

from farmctl.client import Tile
from farmctl.farm import Farm
from farmctl.metatiles import container_bytes
from farmctl.observing import seen
from tests.support import HERE, SECONDS, WithFarm, free_port

HAS_PROMETHEUS = importlib.util.find_spec("prometheus_client") is not None


class Status(WithFarm):
    def setUp(self) -> None:
        super().setUp()
        for tile in (HERE, Tile(0, 0, 0), Tile(14, 0, 0)):
            self.get(tile)

    def farm(self) -> Farm:
        return Farm(self.folder / "farm.json", self.folder, {}, None)

    def test_a_running_farm(self) -> None:
        now = seen(self.farm())
        self.assertEqual((now.tally.asks, now.tally.stored), (3, 3))
        self.assertEqual(now.process.pid, self.running[0].pid)
        self.assertGreater(now.process.memory, 1 << 20)
        self.assertLess(abs(now.process.started - time.time()), 60)
        self.assertTrue(0 <= now.ready_seconds < 60)
        self.assertEqual({key: kept.containers for key, kept in now.store.zooms.items()}, {("default", 0): 1, ("default", 14): 2})
        self.assertEqual(now.store.zooms["default", 14].bytes, 2 * container_bytes(14, 16))
        self.assertEqual(now.store.day, now.store.all.bytes)

    def test_over_tcp_the_process_is_found_by_its_port(self) -> None:
        self.stop()
        self.addresses["control"] = f"tcp:127.0.0.1:{free_port()}"
        self.write("farm.json", dict(self.config, control=self.addresses["control"]))
        self.start()
        self.assertEqual(seen(self.farm()).process.pid, self.running[-1].pid)

    def test_its_page_and_its_line(self) -> None:
        status, out, _ = self.farmctl("status")
        self.assertEqual(status, 0)
        self.assertRegex(out, r"(?m)^numbers:     asks 3 done 3 stored 3 version 0$")
        self.assertRegex(out, r"(?m)^default +14 +2 ")
        status, out, _ = self.farmctl("status", "--check", "--warning-days", "0", "--critical-days", "0")
        self.assertEqual(status, 0)
        self.assertRegex(out, r"^TILEFARM OK - asks 3 done 3 stored 3 version 0 \| answer=\S+ containers=3 asks=3c ")

    def test_what_is_not_well(self) -> None:
        self.assertEqual(self.farmctl("status", "--check", "--slow", "0", "--warning-days", "0")[0], 1)
        self.assertEqual(self.farmctl("status", "--check", "--warning-days", "1e12", "--critical-days", "0")[0], 1)
        status, out, _ = self.farmctl("status", "--check", "--warning-days", "1e12", "--critical-days", "1e12")
        self.assertEqual((status, "the disk may be full in" in out), (2, True))
        left = self.folder / "tiles" / ".new" / "7"
        left.parent.mkdir(exist_ok=True)
        left.write_bytes(b"half")
        self.assertEqual(self.farmctl("status", "--check", "--warning-days", "0")[0], 0)
        os.utime(left, (0, 0))
        self.assertIn("1 half-written files", self.farmctl("status", "--check", "--warning-days", "0")[1])
        self.write("farm.json", dict(self.config, maps=[dict(self.config["maps"][0], maxzoom=13)]))
        self.assertIn("2 of maps or zooms that the configuration has not", self.farmctl("status")[1])

    def test_a_farm_that_is_down(self) -> None:
        self.stop()
        status, out, _ = self.farmctl("status", "--check")
        self.assertEqual((status, out[:20]), (2, "TILEFARM CRITICAL - "))
        status, out, _ = self.farmctl("status")
        self.assertEqual((status, "DOWN: no farm answers" in out), (1, True))
        status, out, _ = self.farmctl("watch", "--count", "1")
        self.assertEqual((status, "DOWN" in out), (0, True))

    def test_watch(self) -> None:
        status, out, _ = self.farmctl("watch", "--count", "2", "-n", "0.1")
        self.assertEqual((status, out.count("\n")), (0, 3))
        self.assertRegex(out.splitlines()[2], r"^\d\d:\d\d:\d\d +0\.0 +0\.0 +0\.0 +3 +3 +0 ")

    def scraped(self, address: str) -> bytes:
        """What is told once the server is there, and the farm has answered it in time."""
        text, end = b"", time.monotonic() + SECONDS
        while b"tilefarm_up 1.0" not in text and time.monotonic() < end:
            try:
                with urllib.request.urlopen(address, timeout=SECONDS) as answer:
                    text = answer.read()
            except OSError:
                time.sleep(0.05)
        return text

    @unittest.skipUnless(HAS_PROMETHEUS, "not installed (Debian: python3-prometheus-client)")
    def test_metrics(self) -> None:
        _, out, _ = self.farmctl("metrics")
        self.assertIn('tilefarm_containers{map="default",zoom="14"} 2.0\n', out)
        for line in ("tilefarm_up 1.0", "tilefarm_asks_total 3.0", "tilefarm_version 0.0"):
            self.assertIn(line + "\n", out)
        self.farmctl("metrics", "-o", self.folder / "t.prom")
        self.assertIn("tilefarm_up 1.0\n", (self.folder / "t.prom").read_text())
        listen = f"127.0.0.1:{free_port()}"
        thread = threading.Thread(target=self.farmctl, args=("metrics", "--listen", listen), daemon=True)
        thread.start()
        self.assertIn(b"tilefarm_stored_total 3.0\n", self.scraped(f"http://{listen}/metrics"))
        self.stop()
        self.assertIn("tilefarm_up 0.0\n", self.farmctl("metrics")[1])
        self.assertIsNone(re.search("tilefarm_asks_total", self.farmctl("metrics")[1]))


if __name__ == "__main__":
    unittest.main()
