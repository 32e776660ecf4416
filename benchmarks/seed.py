#!/usr/bin/env python3
"""How many metatiles a second `farmctl seed` has a farm draw and keep, and how many that are there already it goes through.

    benchmarks/seed.py [WORKERS]               (as many as processors where none are given)

A farm of made land and streets is seeded over a box of 64 by 64 tiles of zoom 14, zooms 0 to 14: some hundred metatiles of
64 tiles of 256 pixels, 1.2 GB below TMPDIR; then once more, when all are clean. Told are metatiles a second, processor time
of farm and farmctl for each, what the processors would give by that if they had nothing else to do, and the load. With
TILEFARM another program is measured.
"""

import json
import os
import re
import resource
import subprocess
import sys

TOP = os.path.dirname(os.path.dirname(os.path.abspath(__file__)))
sys.path[:0] = [os.path.join(TOP, "trials"), os.path.join(TOP, "benchmarks")]
import trial  # noqa: E402
from gateway import ticks, world  # noqa: E402
from trial import FARMCTL, PYTHON, Farm, Folder  # noqa: E402

SIDE = 64  # tiles of zoom 14
DEGREES = 360 / 2**14 * SIDE  # what they are wide, from the middle of the world to the east; in the south a bit more than high
BOX = "0.001,-%.3f,%.3f,-0.001" % (DEGREES - 0.01, DEGREES - 0.001)
SAID = re.compile(r"([\d,]+) metatiles are done, in ([\d.]+) s")


def seeded(folder, farm, what):
    """A row of the table."""
    before, used = ticks(farm.process.pid), resource.getrusage(resource.RUSAGE_CHILDREN)
    words = [PYTHON, FARMCTL, "-c", folder.name("farm.json"), "seed", "default", BOX, "0..14", "-y", "-q"]
    done = subprocess.run(words, stdout=subprocess.PIPE, stderr=subprocess.STDOUT, text=True)
    found = SAID.search(done.stdout)
    if found is None:
        sys.exit("seed.py: %s" % done.stdout)
    count, took = int(found[1].replace(",", "")), float(found[2])
    now = resource.getrusage(resource.RUSAGE_CHILDREN)
    ours = now.ru_utime + now.ru_stime - used.ru_utime - used.ru_stime
    drawn = ticks(farm.process.pid) - before
    each = "farm %.1f ms, farmctl %.1f ms" % (1000 * drawn / count, 1000 * ours / count)
    print("| %s | %d | %.0f | %s | %.0f | %.1f |" % (what, count, count / max(took, 0.1), each, os.cpu_count() * count / (drawn + ours), os.getloadavg()[0]), flush=True)


def main(workers):
    folder = Folder()
    try:
        folder.write("data.json", json.dumps(world(SIDE)))
        folder.config.update(maps=trial.MAPS[:1], updates=[], restyles=[], expiries=[], workers=workers)
        farm = Farm(folder)
        if not farm.wait(120):
            sys.exit("seed.py: the farm does not listen: %s" % (farm.ended(0),))
        print("| what | metatiles | a second | processor time for each | a second by that, on %d processors | load |\n|---|---|---|---|---|---|" % os.cpu_count())
        seeded(folder, farm, "drawn and kept, %d workers" % workers)
        seeded(folder, farm, "clean already")
        farm.stop()
    finally:
        for process in Farm.running:
            if process.poll() is None:
                process.kill()
                process.wait()
        folder.remove()


if __name__ == "__main__":
    main(int(sys.argv[1]) if sys.argv[1:] else os.cpu_count())
