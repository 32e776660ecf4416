"""A clock that goes slower the more others want the processors, for waits that are as long for a program as on a machine
that is idle: with so many processes at work that it is given a tenth of a processor, a second of this clock is ten."""

import os
import signal
import sys
import time

STEP = 0.5  # seconds between two looks at the load
CALM = 1.5  # processes that want each processor, at most, for a machine that is not busy
FOR_CALM = 600  # seconds that are waited in all for the load to fall

_clock = {"at": time.monotonic(), "spent": 0.0, "most": float("inf"), "waited": 0.0}


def load():
    """How many processes want a processor: those of the last minute, or of now where they are more."""
    with open("/proc/loadavg") as file:
        fields = file.read().split()
    return max(float(fields[0]), int(fields[3].split("/")[0]))


def processors():
    return len(os.sched_getaffinity(0))


def now():
    """The seconds of this clock."""
    at = time.monotonic()
    _clock["spent"] += (at - _clock["at"]) / (1 + load() / processors())
    _clock["at"] = at
    return _clock["spent"]


def _tick(*_):
    if now() > _clock["most"]:
        print("%s: FAILED: not through after %d seconds of a machine that is idle" % (os.path.basename(sys.argv[0]), _clock["most"]), flush=True)
        os._exit(1)


def begin(most):
    """Lets the clock go. Where all is not through after so many of its seconds, this process fails."""
    _clock["at"], _clock["most"] = time.monotonic(), now() + most
    signal.signal(signal.SIGALRM, _tick)
    signal.setitimer(signal.ITIMER_REAL, STEP, STEP)


def end():
    """Stops the clock."""
    signal.setitimer(signal.ITIMER_REAL, 0)


def wait_for_calm():
    """Waits for the load to fall, for ten minutes in all at most; none of it counts."""
    before = now()
    while load() > CALM * processors() and _clock["waited"] < FOR_CALM:
        time.sleep(STEP)
        _clock["waited"] += STEP
    now()
    _clock["spent"] = before
