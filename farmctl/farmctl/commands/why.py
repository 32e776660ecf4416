"""Tells what a line of tilefarm on standard error means, which object it names, and how to mend it.

Without FILE the file that the line names is looked at, where this folder has one; of `the ports failed` it is the
configuration.
"""

from __future__ import annotations

import argparse
from pathlib import Path

from farmctl import why

HELP = "tell what a refusal of tilefarm means"
EXAMPLE = """
    farmctl why 'tilefarm: style.json: style 4 at symbolizer 0 2 1'
    farmctl why 'tilefarm: the ports failed' farm.json
"""


def add(parser: argparse.ArgumentParser) -> None:
    parser.add_argument("line", metavar="LINE", help="the line, as one word")
    parser.add_argument("file", metavar="FILE", nargs="?", type=Path, help="the file that the line names")


def run(args: argparse.Namespace) -> int:
    print("\n".join(why.explain(args.line, args.file)))
    return 0
