"""`run`: signals end a farm in order, its status is handed on, and systemd is told."""

import os
import signal
import socket
import subprocess
import sys
import time
import unittest
from pathlib import Path

from farmctl import client
from tests.support import HERE, SECONDS, InFolder, program

LAUNCHER = Path(__file__).resolve().parents[1] / "bin" / "farmctl"


class Run(InFolder):
    def setUp(self) -> None:
        super().setUp()
        program()
        self.ready = socket.socket(socket.AF_UNIX, socket.SOCK_DGRAM)
        self.addCleanup(self.ready.close)
        self.ready.bind(str(self.folder / "notify.sock"))
        self.ready.settimeout(SECONDS)

    def start(self) -> "subprocess.Popen[str]":
        words = [sys.executable, str(LAUNCHER), "run"]
        environment = dict(os.environ, NOTIFY_SOCKET=str(self.folder / "notify.sock"))
        made = subprocess.Popen(words, cwd=self.folder, stdout=subprocess.PIPE, stderr=subprocess.PIPE, text=True, env=environment)
        self.addCleanup(made.communicate)
        self.addCleanup(made.kill)
        return made

    def ended(self, made: "subprocess.Popen[str]") -> tuple[int, str, str]:
        out, err = made.communicate(timeout=SECONDS)
        return made.returncode, out, err

    def test_a_signal_is_an_orderly_end(self) -> None:
        for number in (signal.SIGTERM, signal.SIGINT):
            with self.subTest(number.name):
                made = self.start()
                self.assertEqual(self.ready.recv(100), b"READY=1")
                client.get(self.address("tiles"), "/default/14/8192/8192.ppm")
                made.send_signal(number)
                self.assertEqual(self.ready.recv(100), b"STOPPING=1")
                status, out, _ = self.ended(made)
                self.assertEqual((status, out[:5]), (0, "asks "))
                self.assertGreater((self.folder / "tiles" / "farm.saved").stat().st_size, 0)

    def test_a_farm_that_began_anew_is_sent_its_lines(self) -> None:
        self.write("farm.lines", "renew 0\n")
        made = self.start()
        self.ready.recv(100)
        self.assertEqual(client.control(self.address("control"), "stats")[0].split()[-1], "1")
        page = client.get(self.address("tiles"), "/default/{}/{}/{}.ppm".format(*HERE))
        self.assertEqual(page.heads["X-Version"], "1")
        made.send_signal(signal.SIGTERM)
        self.assertEqual(self.ended(made)[0], 0)
        made = self.start()  # it goes on, and is sent nothing
        self.ready.recv(100)
        self.ready.recv(100)
        self.assertEqual(client.control(self.address("control"), "stats")[0].split()[-1], "1")
        made.send_signal(signal.SIGTERM)
        self.assertEqual(self.ended(made)[0], 0)

    def test_a_refused_file_is_its_status_and_line(self) -> None:
        self.write("data.json", "{")
        self.assertEqual(self.ended(self.start()), (1, "", "tilefarm: data.json: dataset 1\n"))

    def test_the_control_line_stop_ends_it_too(self) -> None:
        made = self.start()
        self.ready.recv(100)
        client.control(self.address("control"), "stop")
        self.assertEqual(self.ended(made)[0], 0)

    def test_a_signal_before_it_listens_ends_it(self) -> None:
        made = self.start()
        time.sleep(0.01)
        made.send_signal(signal.SIGTERM)
        self.assertNotEqual(self.ended(made)[0], None)


if __name__ == "__main__":
    unittest.main()
