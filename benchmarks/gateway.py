#!/usr/bin/env python3
"""How many PNG tiles a second `farmctl gateway` gives, and what of processor time each of them takes.

    benchmarks/gateway.py [SECONDS [PROCESSES]]       (10 seconds each and as many processes as processors where none are given)

A farm of made land and streets draws 256 different tiles of zoom 14 beforehand. Then wrk asks for them at random over 32
connections that stay open: with pictures that are made anew each time (`--memory 0`), with pictures that are known (the farm
is asked), with If-None-Match, and with tiles that are kept; and, where nginx is installed, through its cache. Where something
is known or kept, it has been asked for beforehand, until each process has it. Told are the tiles a second, the milliseconds of
processor time of gateway, farm, proxy and wrk for each tile, what the machine's processors would give by that if they had
nothing else to do, and how many of them others had meanwhile. Needs wrk, python3-aiohttp, python3-pil and python3-numpy. With
TILEFARM another program is measured.
"""

import concurrent.futures
import json
import os
import random
import re
import resource
import shutil
import subprocess
import sys
import time

TOP = os.path.dirname(os.path.dirname(os.path.abspath(__file__)))
sys.path.insert(0, os.path.join(TOP, "trials"))
import trial  # noqa: E402
from trial import FARMCTL, HERE, MIDDLE, PYTHON, TILE, Farm  # noqa: E402

SIDE = 16  # tiles
HAS_IT = '{["If-None-Match"]="*"}'  # as wrk's script sends it: fits each entity tag
TICK = os.sysconf("SC_CLK_TCK")
SCRIPT = """
math.randomseed(os.time())
request = function()
  local x, y = %(x)d + math.random(0, %(last)d), %(y)d + math.random(0, %(last)d)
  return wrk.format("GET", string.format("/default/14/%%d/%%d.png", x, y), %(heads)s)
end
done = function(summary) io.write(string.format("ANSWERS %%d ERRORS %%d BYTES %%d\\n", summary.requests,
  summary.errors.status + summary.errors.connect + summary.errors.read + summary.errors.timeout, summary.bytes)) end
"""
NGINX = """pid %(path)s/nginx.pid;
error_log %(path)s/nginx.log;
worker_processes 2;
daemon off;
events { worker_connections 1024; }
http {
    access_log off;
    client_body_temp_path %(path)s/body; proxy_temp_path %(path)s/proxy; fastcgi_temp_path %(path)s/fastcgi;
    uwsgi_temp_path %(path)s/uwsgi; scgi_temp_path %(path)s/scgi;
    proxy_cache_path %(path)s/cache keys_zone=tiles:10m;
    upstream gateway { server 127.0.0.1:%(gateway)d; keepalive 16; }
    server {
        listen 127.0.0.1:%(port)d;
        location / {
            proxy_pass http://gateway;
            proxy_http_version 1.1;
            proxy_set_header Connection "";
            proxy_cache tiles;
        }
    }
}
"""


def world(side):
    """Land and streets over so many tiles of zoom 14 each way, some six of each to a tile, which all look other."""
    draw = random.Random(7)

    def place():
        return MIDDLE + draw.randrange(side * TILE), MIDDLE + draw.randrange(side * TILE)

    land = [trial.polygon(number, *place(), draw.randrange(TILE // 2)) for number in range(6 * side**2)]
    roads = []
    for number in range(6 * side**2):
        x, y = place()
        roads.append(trial.road(number, (x, y), (x + draw.randrange(TILE), y + draw.randrange(TILE))))
    return {"units": "world", "layers": [{"name": "land", "features": land}, {"name": "roads", "features": roads}]}


def ticks(pid):
    """Processor seconds of a process and of all below it."""
    total = 0
    for each in [pid] + below(pid):
        try:
            with open("/proc/%d/stat" % each) as source:
                fields = source.read().rpartition(")")[2].split()
            total += int(fields[11]) + int(fields[12])
        except OSError:
            pass
    return total / TICK


def below(pid):
    made = []
    try:
        with open("/proc/%d/task/%d/children" % (pid, pid)) as source:
            for each in map(int, source.read().split()):
                made += [each] + below(each)
    except OSError:
        pass
    return made


def machine():
    """Processor seconds of the whole machine that were used."""
    with open("/proc/stat") as source:
        numbers = [int(word) for word in source.readline().split()[1:9]]
    return (sum(numbers) - numbers[3] - numbers[4]) / TICK


def listens(port):
    end = time.monotonic() + 120
    while not Farm.listens("tcp:127.0.0.1:%d" % port) and time.monotonic() < end:
        time.sleep(0.05)


def gateway(folder, port, processes, *words):
    command = [PYTHON, FARMCTL, "-c", folder.name("farm.json"), "gateway",
               "--listen", "tcp:127.0.0.1:%d" % port, "--processes", str(processes), *words]  # fmt: skip
    made = subprocess.Popen(command, stdout=subprocess.DEVNULL)
    Farm.running.append(made)
    listens(port)
    return made


def end(process):
    process.terminate()
    process.wait(120)


def asks(heads="nil"):
    """What wrk does."""
    return SCRIPT % {"x": HERE[1], "y": HERE[2], "last": SIDE - 1, "heads": heads}


def measure(folder, what, port, seconds, processes):
    """A row of the table: processes by their names."""
    before, others, began = {name: ticks(each.pid) for name, each in processes.items()}, machine(), time.monotonic()
    asked = resource.getrusage(resource.RUSAGE_CHILDREN)
    words = ["wrk", "-t2", "-c32", "-d%ds" % seconds, "--timeout", "30s", "-s", folder.name("asks.lua"), "http://127.0.0.1:%d" % port]
    out = subprocess.run(words, stdout=subprocess.PIPE, text=True).stdout
    took = time.monotonic() - began
    used = {name: ticks(each.pid) - before[name] for name, each in processes.items()}
    asks = resource.getrusage(resource.RUSAGE_CHILDREN)
    used["wrk"] = asks.ru_utime + asks.ru_stime - asked.ru_utime - asked.ru_stime
    count, errors, size = map(int, re.search(r"ANSWERS (\d+) ERRORS (\d+) BYTES (\d+)", out).groups())
    rest = machine() - others - sum(used.values())
    each = ", ".join("%s %.2f ms" % (name, 1000 * value / count) for name, value in used.items())
    idle = os.cpu_count() * count / sum(used.values())
    print("| %s | %d | %d | %s | %d | %d | %.1f |" % (what, count / took, errors, each, idle, size / count, rest / took), flush=True)


def asked_before(folder, port, made):
    """Asks until each process has all tiles: what a second takes of their processor time falls no more."""
    costs = []
    while len(costs) < 4 or min(costs[-2:]) < 0.9 * costs[-3]:
        before = ticks(made.pid)
        words = ["wrk", "-t2", "-c32", "-d2s", "--timeout", "30s", "-s", folder.name("asks.lua"), "http://127.0.0.1:%d" % port]
        out = subprocess.run(words, stdout=subprocess.PIPE, text=True).stdout
        costs.append((ticks(made.pid) - before) / max(1, int(re.search(r"ANSWERS (\d+)", out)[1])))


def all_rows(seconds, processes):
    folder = trial.Folder()
    try:
        folder.write("data.json", json.dumps(world(SIDE)))
        folder.config.update(maps=trial.MAPS[:1], updates=[], restyles=[], expiries=[], workers=4)
        farm = Farm(folder)
        if not farm.wait(120):
            sys.exit("gateway.py: the farm does not listen: %s" % (farm.ended(0),))
        tiles = [(14, HERE[1] + 8 * x, HERE[2] + 8 * y) for x in range(SIDE // 8) for y in range(SIDE // 8)]
        with concurrent.futures.ThreadPoolExecutor(8) as pool:
            for page in pool.map(farm.get, tiles):
                assert page.status == 200, page
        print("load %.1f, %d processors, %d processes of the gateway\n" % (os.getloadavg()[0], os.cpu_count(), processes))
        print("| what | tiles a second | errors | processor time for each | a second by that | bytes | processors that others had |\n|---|---|---|---|---|---|---|")
        port = trial.free_port()
        for what, words, heads in (
            ("pictures made anew", ["--memory", "0"], "nil"),
            ("pictures known, the farm asked", [], "nil"),
            ("304, the farm asked", [], HAS_IT),
            ("kept", ["--keep", "3600"], "nil"),
        ):
            made = gateway(folder, port, processes, *words)
            folder.write("asks.lua", asks(heads))
            if words[:1] != ["--memory"]:
                asked_before(folder, port, made)
            measure(folder, what, port, seconds, {"gateway": made, "farm": farm.process})
            end(made)
        if shutil.which("nginx"):
            behind_nginx(folder, farm, port, seconds, processes)
        farm.stop()
    finally:
        for process in Farm.running:
            if process.poll() is None:
                process.kill()
                process.wait()
        folder.remove()


def behind_nginx(folder, farm, port, seconds, processes):
    """Each tile comes from nginx's cache, but for the first time in a minute."""
    made, before = gateway(folder, port, processes, "--shared-max-age", "60"), trial.free_port()
    folder.write("nginx.conf", NGINX % {"path": folder.path, "gateway": port, "port": before})
    nginx = subprocess.Popen(["nginx", "-p", folder.path, "-c", folder.name("nginx.conf")], stderr=subprocess.DEVNULL)
    Farm.running.append(nginx)
    listens(before)
    folder.write("asks.lua", asks())
    asked_before(folder, before, nginx)
    measure(folder, "nginx's cache before it", before, seconds, {"gateway": made, "farm": farm.process, "nginx": nginx})
    end(nginx)
    end(made)


if __name__ == "__main__":
    numbers = [int(word) for word in sys.argv[1:3]]
    seconds, processes = numbers + [10, os.cpu_count()][len(numbers) :]
    all_rows(seconds, processes)
