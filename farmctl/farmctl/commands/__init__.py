"""One module for each subcommand.

A module `NAME.py` is the subcommand `NAME`. It has `HELP`, one line for the list of commands; a docstring, which
`--help` shows; `EXAMPLE`, lines that stand at the end of `--help`; `add(parser)`, which declares its words; and
`run(args) -> int`, which does the work and returns the status. What it cannot do it says by `FarmError`. Libraries
beyond the standard one are imported by `errors.library` inside `run`, so that the other commands work without them.
"""
