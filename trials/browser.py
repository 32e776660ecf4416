"""A browser without a window, and whether its screen shows a tile."""

import base64
import json
import math
import os
import select
import shutil
import subprocess
import time

import pictures
from trial import Farm, patient

SIDE, TILE = 512, 256  # the window's and a tile's
SLACK = 2  # a library may round a tile's place by as many pixels
FROM = (SIDE - TILE) // 2 - SLACK
LIBRARIES = "/usr/share/javascript"


def installed():
    """The browser's program, or None."""
    return shutil.which("chromium") or shutil.which("chromium-browser") or shutil.which("google-chrome")


def middle(tile):
    """A place in the middle of the tile, as libraries want it: zoom, latitude, longitude."""
    z, x, y = tile
    longitude = (x + 0.5) / 2**z * 360 - 180
    latitude = math.degrees(math.atan(math.sinh(math.pi * (1 - 2 * (y + 0.5) / 2**z))))
    return z, latitude, longitude


class Silent(OSError):
    """The browser has not answered in time."""


class Browser:
    """A browser without a window, told what to do by messages over a pipe (the Chrome DevTools Protocol)."""

    def __init__(self, program, home):
        words = [program, "--headless=new", "--disable-gpu", "--hide-scrollbars", "--force-device-scale-factor=1",
                 "--window-size=%d,%d" % (SIDE, SIDE), "--user-data-dir=" + home, "--remote-debugging-pipe"]  # fmt: skip
        if os.getuid() == 0:
            words.append("--no-sandbox")
        theirs, self.to = os.pipe()
        self.come, ours = os.pipe()
        script = 'exec 3<&%d 4>&%d; exec "$@"' % (theirs, ours)  # it reads from 3 and writes to 4
        self.process = subprocess.Popen(["bash", "-c", script, "bash"] + words, pass_fds=(theirs, ours), stdin=subprocess.DEVNULL,
                                        stdout=subprocess.DEVNULL, stderr=subprocess.DEVNULL)  # fmt: skip
        Farm.running.append(self.process)
        os.close(theirs)
        os.close(ours)
        self.rest, self.number, self.session = b"", 0, None
        target = self.ask("Target.createTarget", url="about:blank")["targetId"]
        self.session = self.ask("Target.attachToTarget", targetId=target, flatten=True)["sessionId"]
        self.ask("Emulation.setDeviceMetricsOverride", width=SIDE, height=SIDE, deviceScaleFactor=1, mobile=False)

    def ask(self, method, seconds=60, **what):
        """The result of one message; others that come meanwhile are passed over."""
        self.number += 1
        text = {"id": self.number, "method": method, "params": what}
        if self.session:
            text["sessionId"] = self.session
        os.write(self.to, json.dumps(text).encode() + b"\0")
        while True:
            while b"\0" not in self.rest:
                if not select.select([self.come], [], [], patient(seconds))[0]:
                    raise Silent("the browser does not answer %s" % method)
                piece = os.read(self.come, 1 << 20)
                if not piece:
                    raise OSError("the browser has ended")
                self.rest += piece
            one, self.rest = self.rest.split(b"\0", 1)
            told = json.loads(one)
            if told.get("id") == self.number:
                return told.get("result", {})

    def value(self, expression):
        return self.ask("Runtime.evaluate", expression=expression)["result"].get("value")

    def screen(self):
        """The middle of the screen, as rows of three bytes a pixel; none where there is no picture."""
        clip = {"x": FROM, "y": FROM, "width": TILE + 2 * SLACK, "height": TILE + 2 * SLACK, "scale": 1}
        try:
            told = self.ask("Page.captureScreenshot", seconds=5, format="png", clip=clip)
        except Silent:  # what is asked for while a page is being loaded may never come
            return []
        return pictures.of_png(base64.b64decode(told["data"])) if "data" in told else []  # a page that is being loaded has none

    def end(self):
        self.session = None
        self.ask("Browser.close")
        self.process.wait(patient(60))


def shows(rows, picture):
    """Whether the tile is what the screen shows."""
    wide = 3 * TILE
    tile = [picture[-wide * TILE :][wide * row : wide * (row + 1)] for row in range(TILE)]
    if not rows:
        return False
    places = [(top, 3 * left) for top in range(2 * SLACK + 1) for left in range(2 * SLACK + 1)]
    return any(all(rows[top + row][left : left + wide] == tile[row] for row in range(TILE)) for top, left in places)


def waits(browser, picture, seconds=150):
    """Whether the screen shows the tile within so many seconds."""
    end = time.monotonic() + patient(seconds)
    while time.monotonic() < end:
        if shows(browser.screen(), picture):
            return True
        time.sleep(patient(0.5))  # each picture takes from what the page has
    return False
