#!/usr/bin/env python3
"""What the proof of a crate took, by kind and by function, from what its check kept.

    benchmarks/proof.py CRATE..

A check that keeps its work (`rt check`, whole and from nothing: `rm -rf out/incremental` before it) saves each module as it
is through, so the time between one file and the next in `out/incremental` is what a module took, in seconds of a clock. Of
each crate stand the seconds of its modules together, the share of each kind, and its twelve dearest functions. A pause of
more than 25 seconds is taken for the begin of another check.
"""
import collections
import os
import re
import sys

TOP = os.path.dirname(os.path.dirname(os.path.abspath(__file__)))
PAUSE = 25
MOST = 12
GOALS = ("Proof", "Tie", "Goals", "Answers", "Given", "Setup", "View", "Invariants")
DERIVED = re.compile(r"(Debug|PartialEq|Clone|Eq|Default|Error|Display)\.(fmt|eq|clone|ne|source)\b")


def saved(crate):
    """The modules of a crate with what each took, in the order in which they were saved."""
    files = []
    for folder, _, names in os.walk(os.path.join(TOP, "crates", crate, "out", "incremental")):
        for name in names if "records" not in folder.split(os.sep) else ():
            if name.endswith(".oantt"):
                files.append((os.stat(os.path.join(folder, name)).st_mtime, name[: -len(".oantt")]))
    files.sort()
    return [(at - before, name) for (before, _), (at, name) in zip(files, files[1:]) if at - before <= PAUSE]


def parts(name):
    """What a module is of, and which of its modules it is."""
    found = re.match(r"Rattle-\w+?-(?:proofs|specs)\.(.*)", name)
    return (found[1] if found else name).rpartition(".")[::2]


def kind_of(name):
    of, own = parts(name)
    if "Destruct" in name or own == "drop" or re.search(r"[.-]drop$", of):
        return "drops"
    if DERIVED.search(of):
        return "derives"
    if "Lts" in name or own == "Reads":
        return "borrows"
    if own in ("Layout", "Named"):
        return "layouts"
    if own in GOALS:
        return "goals"
    if own in ("Mir", "Code") or own.startswith("Kinds"):
        return "code"
    return "link" if own == "TheLink" else "rest"


def main(crates):
    for crate in crates:
        kinds, functions = collections.Counter(), collections.Counter()
        for took, name in saved(crate):
            kinds[kind_of(name)] += took
            functions[re.sub(r"\.(Lts|Kinds)\b.*", "", parts(name)[0])] += took
        whole = sum(kinds.values())
        if not whole:
            print("%s: nothing is kept of a check" % crate)
            return 1
        print("%s: %.0f s: %s" % (crate, whole, ", ".join("%s %.0f%%" % (kind, 100 * took / whole) for kind, took in kinds.most_common())))
        for function, took in functions.most_common(MOST):
            print("%7.1f %s" % (took, function))
    return 0 if crates else 2


if __name__ == "__main__":
    sys.exit(main(sys.argv[1:]))
