"""`update`: what is refused changes nothing while the farm serves, and what fails is put back."""

import json
import os
import signal
import subprocess
import sys
import threading
import time
import unittest
from pathlib import Path

from tests.support import HERE, SECONDS, WithFarm, farmctl, program

TOP = Path(__file__).resolve().parents[1]
RESTART = """#!/bin/sh
cd {folder}
{farmctl} control stop && tail --pid=$(cat farm.pid) -f /dev/null
setsid {program} serve farm.json >farm.out 2>&1 </dev/null &
echo $! >farm.pid
"""


class Asking:
    """A client that asks for a tile all the time, and notes each answer that is none."""

    def __init__(self, farm: WithFarm) -> None:
        self.farm, self.ends, self.asked, self.failed = farm, False, 0, []
        self.thread = threading.Thread(target=self.ask)

    def ask(self) -> None:
        while not self.ends:
            try:
                page = self.farm.get(HERE)
                if page is None or page.status != 200:
                    self.failed.append(page)
            except OSError as fault:
                self.failed.append(fault)
            self.asked += 1

    def __enter__(self) -> "Asking":
        self.thread.start()
        return self

    def __exit__(self, *_: object) -> None:
        self.ends = True
        self.thread.join()


class Update(WithFarm):
    def setUp(self) -> None:
        super().setUp()
        self.farmctl("control", "renew 0")
        self.write("farm.lines", "renew 0\n")
        self.restart = self.folder / "restart"
        self.script(RESTART)
        threading.Thread(target=self.running[0].wait, daemon=True).start()  # else it stays for `tail --pid`

    def script(self, text: str) -> None:
        self.restart.write_text(text.format(folder=self.folder, farmctl=TOP / "bin" / "farmctl", program=program()))
        self.restart.chmod(0o755)
        (self.folder / "farm.pid").write_text(str(self.running[0].pid))

    def end(self) -> None:
        self.farmctl("control", "stop")
        last = (self.folder / "farm.pid").read_text().strip()
        if last not in {str(made.pid) for made in self.running}:  # one that the script started is no child of this
            subprocess.run(["tail", f"--pid={last}", "-f", "/dev/null"], timeout=SECONDS, check=True)
        super().end()

    def update(self, *words: str | Path) -> tuple[int, str, str]:
        return self.farmctl("update", "--restart", self.restart, *words)

    def updates(self) -> list[str]:
        return json.loads((self.folder / "farm.json").read_text())["updates"]

    def test_refused_files_change_nothing_while_a_client_asks(self) -> None:
        before = (self.folder / "farm.json").read_bytes()
        cases = {"bad.json": "geometry 1", "wrong.json": "refused 2", "nothing.json": "No such file", "style.json": "no update"}
        with Asking(self) as asking:
            for name, told in cases.items():
                with self.subTest(name):
                    status, out, err = self.update(self.folder / name)
                    self.assertEqual((status, out), (1, ""))
                    self.assertIn(told, err)
                    self.assertEqual((self.folder / "farm.json").read_bytes(), before)
        self.assertFalse((self.folder / "update-1.json").exists())
        self.assertGreater(asking.asked, 0)
        self.assertEqual(asking.failed, [])
        self.assertEqual((self.folder / "farm.lines").read_text(), "renew 0\n")

    def test_one_file_comes_in(self) -> None:
        status, out, err = self.update(self.folder / "more.json")
        self.assertEqual((status, out[:18]), (0, "renew 1: version 2"), err)
        self.assertEqual(self.updates(), ["road.json", "update-1.json"])
        self.assertEqual((self.folder / "update-1.json").read_bytes(), (self.folder / "more.json").read_bytes())
        self.assertEqual((self.folder / "farm.lines").read_text(), "renew 0\nrenew 1\n")
        self.assertTrue((self.folder / "tiles" / "planet-import-complete").exists())

    def test_several_files_become_one_update(self) -> None:
        self.write("third.json", {"units": "world", "changes": [{"layer": "roads", "remove": [1]}]})
        status, out, err = self.update(self.folder / "more.json", self.folder / "third.json")
        self.assertEqual((status, out[:18]), (0, "renew 1: version 2"), err)
        self.assertEqual(self.updates(), ["road.json", "update-1.json"])
        self.assertEqual(len(json.loads((self.folder / "update-1.json").read_text())["changes"]), 2)

    def test_files_of_different_units_are_refused(self) -> None:
        self.write("cm.json", {"changes": []})
        self.assertIn("different units", self.update(self.folder / "more.json", self.folder / "cm.json")[2])

    def test_a_restart_that_fails_is_put_back_and_the_farm_started_again(self) -> None:
        self.script(RESTART.replace("setsid", "[ -e again ] || {{ touch again; exit 9; }}\nsetsid"))
        status, _, err = self.update(self.folder / "more.json")
        self.assertEqual(status, 1, err)
        self.assertIn("the restart failed, status 9", err)
        self.assertIn("the farm was started again and is up: ", err)
        self.assertEqual(self.updates(), ["road.json"])
        self.assertEqual(self.get(HERE, "/status").body[:5], b"missi")

    def test_a_restart_after_which_the_farm_is_down(self) -> None:
        self.script(f"#!/bin/sh\nkill -9 {self.running[0].pid}\ntrue\n")
        status, _, err = self.update("--wait", "5", self.folder / "more.json")
        self.assertEqual(status, 5, err)
        self.assertIn("THE FARM IS DOWN", err)
        self.assertEqual(self.updates(), ["road.json"])
        self.start()
        (self.folder / "farm.pid").write_text(str(self.running[-1].pid))

    def test_a_farm_that_is_down_before(self) -> None:
        self.stop()
        status, _, err = self.update(self.folder / "more.json")
        self.assertEqual(status, 5)
        self.assertIn("was down before", err)
        self.assertEqual(self.updates(), ["road.json"])

    def test_cut_off_in_a_restart_nothing_is_half_changed(self) -> None:
        self.script(RESTART.replace("setsid", "sleep 2\nsetsid"))
        words = [sys.executable, TOP / "bin" / "farmctl", "-c", "farm.json", "update", "more.json", "--restart", self.restart]
        made = subprocess.Popen(words, cwd=self.folder, stdout=subprocess.PIPE, stderr=subprocess.PIPE, text=True)
        end = time.monotonic() + SECONDS
        while self.answers() and time.monotonic() < end:
            time.sleep(0.02)
        os.kill(made.pid, signal.SIGINT)
        _, err = made.communicate(timeout=SECONDS)
        self.assertEqual(made.returncode, 1, err)
        self.assertIn("ended by SIGINT", err)
        self.assertIn("the farm is up", err)
        self.assertEqual(self.updates(), ["road.json"])

    def test_a_farm_that_keeps_nothing_is_left_alone(self) -> None:
        self.write("farm.json", dict(self.config, resume=False))
        self.assertIn("resume", self.update(self.folder / "more.json")[2])


class Usage(unittest.TestCase):
    def test_no_file(self) -> None:
        self.assertEqual(farmctl("update")[0], 2)


if __name__ == "__main__":
    unittest.main()
