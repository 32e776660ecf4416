"""Has the farm of another folder take over from the one that serves, so that no request fails: a restart that nobody sees.

LINK is a symbolic link to the folder of the farm that serves, OTHER a folder whose farm.json, data and styles are those of
tomorrow. Both have their sockets by the same names in their own folders ("tiles": "unix:tiles.sock"), and the proxy (the
gateway, nginx, haproxy, mod_tile) is told those below LINK. The other's files are checked and its farm is started, anew; it
draws what an access log asked most; the link is renamed; and the first farm is stopped once its connections have ended. Where
something fails before the link is renamed the first serves on.
"""

from __future__ import annotations

import argparse
from pathlib import Path

from farmctl.turning import Plan, Turn
from farmctl.words import command, seconds

HELP = "have another folder's farm take over, unseen"
EXAMPLE = """
    farmctl turn /srv/farm/now /srv/farm/b --from-log /var/log/nginx/access.log
    farmctl turn /srv/farm/now /srv/farm/b --start "systemctl start tilefarm@%"
"""


def add(parser: argparse.ArgumentParser) -> None:
    parser.add_argument("link", metavar="LINK", type=Path, help="the link to the folder of the farm that serves")
    parser.add_argument("other", metavar="OTHER", type=Path, help="the folder whose farm takes over")
    parser.add_argument("--start", metavar="COMMAND", type=command,
                        help="starts the other, where %% is its folder's name, and ends once it has begun (farmctl run, in the background)")  # fmt: skip
    parser.add_argument("--stop", metavar="COMMAND", type=command, help="stops the first, likewise (the control line stop)")
    parser.add_argument("--from-log", metavar="FILE", type=Path, help="the access log of a proxy or of the gateway")
    parser.add_argument("--most", metavar="N", type=int, default=200, help="so many metatiles of it are drawn first (%(default)s)")
    parser.add_argument("--wait", metavar="SECONDS", type=seconds, default=600, help="at most so long for a start or an end (%(default)s)")
    parser.add_argument("--drain", metavar="SECONDS", type=seconds, default=60,
                        help="at most so long for the first's last connections (%(default)s)")  # fmt: skip


def run(args: argparse.Namespace) -> int:
    Turn(Plan(args.link, args.other, args.program, args.start, args.stop, args.from_log, args.most, args.wait, args.drain)).made()
    return 0
