"""A farm in a folder of its own, for trying clients on: its files, its start and its end; a report of what was seen."""

import json
import os
import resource
import shutil
import signal
import socket
import subprocess
import sys
import tempfile
import time

os.environ["PATH"] += os.pathsep + "/usr/sbin"  # where Debian has servers, which the path of others than root lacks
TOP = os.path.dirname(os.path.dirname(os.path.abspath(__file__)))
sys.path.insert(0, os.path.join(TOP, "farmctl"))
sys.dont_write_bytecode = True

from farmctl import client as farmclient  # noqa: E402  (the path has to be there first)

PROGRAM = os.environ.get("TILEFARM", os.path.join(TOP, "tilefarm"))
FARMCTL = os.path.join(TOP, "farmctl", "bin", "farmctl")
PYTHON = "/usr/bin/python3" if os.path.exists("/usr/bin/python3") else sys.executable  # Debian's own has Debian's libraries
LIBRARIES = {"osgeo": "python3-gdal", "prometheus_client": "python3-prometheus-client", "aiohttp": "python3-aiohttp", "PIL": "python3-pil", "numpy": "python3-numpy"}
MIDDLE = 2**29  # the column and row of world units where tile 14/8192/8192 begins
TILE = 2**16  # and how many of them a tile of zoom 14 is wide
HERE = (14, 8192, 8192)  # a tile with land; a road comes with update 0
BESIDE = (14, 8193, 8195)  # another tile of the same metatile
APART = (14, 8200, 8192)  # a tile of the next metatile to the east


def polygon(number, x, y, side):
    corners = [[x, y], [x + side, y], [x + side, y + side], [x, y + side]]
    return {"id": number, "geometry": {"polygon": [corners]}}


def road(number, *points):
    return {"id": number, "geometry": {"lines": [[list(point) for point in points]]}}


def style(background, land, roads):
    paints = (
        ("land", {"symbolizer": "PolygonSymbolizer", "fill": land}),
        ("roads", {"symbolizer": "LineSymbolizer", "stroke": roads, "stroke-width": "4", "stroke-linecap": "round"}),
    )
    styles = [{"name": name, "rules": [{"symbolizers": [paint]}]} for name, paint in paints]
    layers = [{"name": name, "source": name, "styles": [name]} for name, _ in paints]
    return {"background-color": background, "styles": styles, "layers": layers}


LAND = [polygon(1, MIDDLE + 10000, MIDDLE + 10000, 20000), polygon(2, MIDDLE + 8 * TILE + 10000, MIDDLE + 10000, 20000)]
ROAD = road(1, (MIDDLE + 5000, MIDDLE + 5000), (MIDDLE + 40000, MIDDLE + 50000))


def data(*roads):
    layers = [{"name": "land", "features": LAND}, {"name": "roads", "features": list(roads)}]
    return {"units": "world", "layers": layers}


FILES = {
    "style.json": style("#f2efe9", "#add19e", "#a06b00"),
    "night.json": style("#202030", "#304030", "#c0a000"),
    "data.json": data(),
    "changed.json": data(ROAD),  # what the data are after update 0
    "road.json": {"units": "world", "changes": [{"layer": "roads", "put": [ROAD]}]},
    "wrong.json": {"units": "world", "changes": [{"layer": "roads", "remove": [77]}]},
}
MAPS = [
    {"name": "default", "style": "style.json", "tile": 256},
    {"name": "small", "style": "style.json", "tile": 16, "maxzoom": 3},
]


def patient(seconds):
    """So many seconds on a machine of one's own, and more where others wait for its processors."""
    return seconds * min(12, max(1, 2 * os.getloadavg()[0] / os.cpu_count()))


def tool(name, *words, folder, given=""):
    """The status of one of farmctl's commands for the farm of a folder, and all that it says."""
    words = [PYTHON, FARMCTL, "--program", PROGRAM, "-c", folder.name("farm.json"), *([name] + list(words))]
    done = subprocess.run(words, cwd=folder.path, input=given, stdout=subprocess.PIPE, stderr=subprocess.STDOUT, text=True, timeout=600)
    return done.returncode, done.stdout


def ctl(*words, folder=None):
    """The status of farmctl with these words, and all that it says."""
    done = subprocess.run([PYTHON, FARMCTL, *words], cwd=folder, stdin=subprocess.DEVNULL, stdout=subprocess.PIPE, text=True,
                          stderr=subprocess.STDOUT, timeout=600, env=dict(os.environ, TILEFARM=PROGRAM))  # fmt: skip
    return done.returncode, done.stdout


def missing_library(*names):
    """The first of these libraries that PYTHON has not, and the package that has it; None where it has them all."""
    for name in names:
        if subprocess.run([PYTHON, "-c", "import " + name], stderr=subprocess.DEVNULL).returncode != 0:
            return name, "not installed (Debian: %s)" % LIBRARIES[name]
    return None


def free_port():
    with socket.socket() as made:
        made.bind(("127.0.0.1", 0))
        return made.getsockname()[1]


class Folder:
    """A folder under the temporary one with a farm's files."""

    def __init__(self):
        self.path = tempfile.mkdtemp(prefix="tilefarm-")
        os.chmod(self.path, 0o755)
        for name, value in FILES.items():
            self.write(name, json.dumps(value))
        self.write("quarter.list", "%d/%d/%d\n" % HERE)
        self.config = {
            "maps": MAPS,
            "data": "data.json",
            "updates": ["road.json", "wrong.json"],
            "expiries": ["quarter.list"],
            "restyles": [{"map": "default", "style": "night.json"}, {"map": "default", "style": "style.json"}],
            "workers": 2,
            "renderd": "unix:" + self.name("renderd.sock"),
            "tiles": "tcp:127.0.0.1:%d" % free_port(),
            "control": "tcp:127.0.0.1:%d" % free_port(),
            "resume": True,
        }

    def name(self, *parts):
        return os.path.join(self.path, *parts)

    def container(self, tile, name="default"):
        """Where the tile's container lies: four bits of column and row in the name of each folder, as mod_tile has it."""
        z, x, y = tile
        x, y, parts = x & ~7, y & ~7, []
        for _ in range(5):
            parts.insert(0, str((x & 15) << 4 | y & 15))
            x, y = x >> 4, y >> 4
        return self.name("tiles", name, str(z), *parts) + ".meta"

    def write(self, name, text):
        with open(self.name(name), "w") as out:
            out.write(text)

    def remove(self):
        shutil.rmtree(self.path, ignore_errors=True)

    def render(self, tile, style="style.json", data="data.json", size=256):
        """The tile as the command `render` draws it, which knows of no farm."""
        words = [PROGRAM, "render", style, data, str(size)] + [str(number) for number in tile]
        done = subprocess.run(words, cwd=self.path, stdout=subprocess.PIPE, timeout=farmclient.SECONDS, check=True)
        return done.stdout


class Farm:
    """A running `tilefarm serve` in a folder."""

    running = []

    def __init__(self, folder, before=None, program=None, **changes):
        self.folder, self.config = folder, dict(folder.config, **changes)
        folder.write("farm.json", json.dumps(self.config))
        self.out, self.err = open(folder.name("out"), "w+"), open(folder.name("err"), "w+")
        words = (program or [PROGRAM, "serve"]) + ["farm.json"]
        self.process = subprocess.Popen(words, cwd=folder.path, stdin=subprocess.DEVNULL,
                                        stdout=self.out, stderr=self.err, preexec_fn=before)  # fmt: skip
        self.renderd, self.tiles, self.control = (self.config[key] for key in ("renderd", "tiles", "control"))
        Farm.running.append(self.process)

    def wait(self, seconds=30):
        """Whether it listens at all three addresses within the time; it has ended, or does not, where not."""
        end = time.monotonic() + patient(seconds)
        for address in (self.renderd, self.tiles, self.control):
            while not self.listens(address):
                if time.monotonic() > end or self.process.poll() is not None:
                    return False
                time.sleep(0.05)
        return True

    @staticmethod
    def listens(address):
        try:
            farmclient.connect(address, 5).close()
            return True
        except OSError:
            return False

    def lines(self, *lines):
        return farmclient.control(self.control, *lines)

    def stats(self):
        return self.lines("stats")[0]

    def get(self, tile, more="", name="default"):
        return farmclient.get(self.tiles, "/%s/%d/%d/%d.ppm%s" % ((name,) + tile + (more,)))

    def status(self, tile, name="default"):
        page = self.get(tile, "/status", name)
        return page.body.decode().strip() if page and page.status == 200 else None

    def settled(self, tile, seconds=30, name="default"):
        """What the tile's metatile is once it is clean, or after so many seconds."""
        end = time.monotonic() + patient(seconds)
        while time.monotonic() < end and not (self.status(tile, name) or "").startswith("clean"):
            time.sleep(0.05)
        return self.status(tile, name)

    def ended(self, seconds=30):
        """Status, standard output and standard error after its end; it is killed after so many seconds."""
        try:
            status = self.process.wait(patient(seconds))
        except subprocess.TimeoutExpired:
            self.process.kill()
            self.process.wait()
            status = "killed after %d s" % seconds
        texts = []
        for file in (self.out, self.err):
            file.seek(0)
            texts.append(file.read())
            file.close()
        return (status,) + tuple(texts)

    def stop(self):
        """The answer to `stop`, and its end."""
        return self.lines("stop")[0], self.ended()

    def kill(self):
        self.process.kill()
        return self.ended()


def numbers(line):
    """The numbers of a tally line."""
    words = line.split(" ")
    return {word: int(number) for word, number in zip(words[::2], words[1::2])}


class Report:
    """What was tried, line by line, and how many of the checks failed."""

    def __init__(self):
        self.failed = self.passed = self.skipped = 0

    def part(self, text):
        print("\n%s" % text, flush=True)

    def check(self, what, seen, wanted):
        """A check that passes where the two are the same."""
        self.holds(what, seen == wanted, "%s, not %s" % (short(seen), short(wanted)))
        return seen == wanted

    def holds(self, what, is_so, seen=""):
        if is_so:
            self.passed += 1
            print("  ok       %s" % what, flush=True)
        else:
            self.failed += 1
            print("  FAILED   %s: %s" % (what, seen), flush=True)

    def skip(self, what, why):
        self.skipped += 1
        print("  skipped  %s: %s" % (what, why), flush=True)

    def tell(self, text):
        print("           %s" % text, flush=True)

    def end(self):
        print("\n%d passed, %d failed, %d skipped" % (self.passed, self.failed, self.skipped))
        return 1 if self.failed else 0


def short(value):
    text = repr(value)
    return text if len(text) <= 160 else text[:150] + ".. (%d)" % len(text)


def run(trials, seconds):
    """Runs trials over a folder and a report, within so many seconds in all, and removes the folder."""
    seconds = int(patient(seconds))
    most = resource.getrlimit(resource.RLIMIT_NOFILE)[1]
    resource.setrlimit(resource.RLIMIT_NOFILE, (min(most, 16384) if most > 0 else 16384, most))
    subprocess.run([PROGRAM], stdout=subprocess.DEVNULL, stderr=subprocess.DEVNULL)  # builds it where it is not built
    signal.signal(signal.SIGALRM, lambda *_: sys.exit("\nFAILED: not through after %d s" % seconds))
    signal.alarm(seconds)
    report, folder = Report(), Folder()
    try:
        for trial in trials:
            trial(folder, report)
    finally:
        for process in Farm.running:
            if process.poll() is None:
                process.kill()
                process.wait()
        folder.remove()
    return report.end()
