"""The command line: finds the subcommands, reads the words, and turns each error into one line and a status."""

from __future__ import annotations

import argparse
import importlib
import inspect
import os
import pkgutil
import sys
from collections.abc import Sequence
from types import ModuleType

from farmctl import commands
from farmctl.errors import REFUSED, FarmError

INTERRUPTED = 130  # as a shell has it after Ctrl-C
TRACE = "FARMCTL_TRACE"  # in the environment: a fault of farmctl's own ends in a traceback
CLOSED = 141  # as a shell has it after a closed pipe


def all_commands() -> dict[str, ModuleType]:
    """Every module of `farmctl.commands`, by the name that the user types."""
    names = sorted(found.name for found in pkgutil.iter_modules(commands.__path__) if not found.name.startswith("_"))
    return {name: importlib.import_module(f"farmctl.commands.{name}") for name in names}


def farm_options(default: object = None) -> argparse.ArgumentParser:
    """The options that say which farm is meant; they may stand before the subcommand or after it."""
    options = argparse.ArgumentParser(add_help=False, argument_default=default)
    group = options.add_argument_group("which farm")
    group.add_argument("-c", "--config", metavar="FILE", help="its configuration (farm.json of the current folder)")
    group.add_argument("-C", "--folder", metavar="DIR", help="the folder it runs in (that of its configuration)")
    for front in ("control", "tiles", "renderd"):
        group.add_argument(
            f"--{front}-address", metavar="ADDRESS", help=f"in place of the configuration's `{front}`: tcp:a.b.c.d:PORT or unix:PATH"
        )
    group.add_argument("--program", metavar="FILE", help="the program tilefarm (TILEFARM, that of this clone's release, or of PATH)")
    return options


def parser() -> argparse.ArgumentParser:
    top = argparse.ArgumentParser(
        prog="farmctl",
        description="Runs, watches, seeds and updates a tilefarm.",
        epilog="farmctl COMMAND --help says more of each, with an example.",
        parents=[farm_options()],
    )
    found = top.add_subparsers(title="commands", metavar="COMMAND", dest="command", required=True)
    for name, module in all_commands().items():
        sub = found.add_parser(
            name,
            help=module.HELP,
            description=inspect.cleandoc(module.__doc__ or module.HELP),
            epilog="for example:\n" + inspect.cleandoc(module.EXAMPLE),
            formatter_class=argparse.RawDescriptionHelpFormatter,
            parents=[farm_options(argparse.SUPPRESS)],
        )
        module.add(sub)
        sub.set_defaults(run=module.run)
    return top


def main(words: Sequence[str] | None = None) -> int:
    """The status of the command that the words name."""
    args = parser().parse_args(words)
    try:
        return args.run(args)
    except FarmError as fault:
        print(f"farmctl {args.command}: {fault}", file=sys.stderr)
        return fault.status
    except KeyboardInterrupt:
        print(f"farmctl {args.command}: interrupted", file=sys.stderr)
        return INTERRUPTED
    except BrokenPipeError:
        os.dup2(os.open(os.devnull, os.O_WRONLY), sys.stdout.fileno())  # else the end flushes into the closed pipe again
        return CLOSED
    except OSError as fault:
        print(f"farmctl {args.command}: {fault}", file=sys.stderr)
        return REFUSED
    except Exception as fault:  # a fault of farmctl's own: still one line, and a word on how to see where
        if os.environ.get(TRACE):
            raise
        print(f"farmctl {args.command}: {type(fault).__name__}: {fault} ({TRACE}=1 shows where)", file=sys.stderr)
        return REFUSED
