"""The prover over a copy of one crate, asked for single functions, over libraries that are built."""
import os
import shutil
import subprocess
import tempfile

TOP = os.path.dirname(os.path.dirname(os.path.abspath(__file__)))
EACH = 3600  # seconds of one check
LOGIC = ("--antt-project", "rattle/logic/antt-project.json"), ("--logic-built", "logic_built")


def uses(top):
    """The libraries that each line of crates.txt names."""
    made = {}
    with open(os.path.join(top, "crates.txt"), encoding="utf-8") as file:
        for line in file:
            head, colon, below = line.split("#")[0].partition(":")
            if colon:
                made[head.split()[0]] = below.split()
    return made


class Prover:
    """The prover over a copy of a crate in that folder; the libraries are those below `libs` (crates/NAME/out/rlib/NAME.rlib), and
    of the crates in `sources` copies too."""

    def __init__(self, crate, libs, folder, sources=()):
        self.crate, self.folder, self.sources = crate, folder, sources
        rt = shutil.which("rt") or "/opt/rattle/bin/rt"
        self.kit = os.path.dirname(os.path.dirname(os.path.realpath(rt)))
        for name, to in [(crate, folder)] + [(name, self.below_at(name)) for name in sources]:
            for part in ("src", "specs", "proofs"):
                if os.path.isdir(os.path.join(TOP, "crates", name, part)):
                    shutil.copytree(os.path.join(TOP, "crates", name, part), os.path.join(to, part))
        self.links = os.path.join(folder, "links")
        os.mkdir(self.links)
        self.known = uses(TOP)
        for name in [name for name in self.below(crate) if name not in sources]:
            at = os.path.join(libs, "crates", name, "out", "rlib", name + ".rlib")
            if not os.path.exists(os.path.join(at, "format")):
                raise SystemExit("%s is not built: run rt ci, or name a folder by --libs" % name)
            os.symlink(at, os.path.join(self.links, name + ".rlib"))

    def below_at(self, crate):
        return os.path.join(self.folder, "below", crate)

    def below(self, crate):
        found = {}
        for name in self.known[crate]:
            if name in self.known:
                found.update({name: True}, **dict.fromkeys(self.below(name), True))
        return list(found)

    def check(self, only, seed=None, keeps=True):
        """The status of a check, and what it says. It begins with what an earlier one left in the seed, and where there is none it
        makes that, if it keeps anything."""
        at = lambda *names: os.path.join(self.kit, *names)
        words = [at("bin", "rattle"), "check", "--crate-name", self.crate, self.root(), "--extern", "std=" + at("rlibs", "std.rlib")]
        for name in self.sources:
            words += ["--lib", "%s:%s=%s" % (name, ",".join(["core", "std", *self.known[name]]), os.path.join(self.below_at(name), "src", "lib.rt"))]
        if self.sources:
            words += ["--extern", "core=" + at("rlibs", "core.rlib")]
        for name in dict.fromkeys(use for crate in (self.crate, *self.sources) for use in self.known[crate] if use not in self.sources):
            words += ["--extern", "%s=%s" % (name, os.path.join(self.links if name in self.known else at("rlibs"), name + ".rlib"))]
        words += ["-L", "dependency=" + at("rlibs"), "-L", "dependency=" + self.links, "--links", self.crate + "=", "--jobs", "1"]
        words += [word for flag, place in LOGIC for word in (flag, at(place))] + [word for path in only for word in ("--only", path)]
        work = os.path.join(self.folder, "seed") if seed is None else tempfile.mkdtemp(dir=self.folder)
        if seed is not None:
            shutil.rmtree(work)
            shutil.copytree(seed, work, copy_function=os.link)
        if keeps:
            os.makedirs(work, exist_ok=True)
            words += ["--incremental", work]
        try:
            ran = subprocess.run(words, cwd=self.folder, stdin=subprocess.DEVNULL, stdout=subprocess.PIPE, stderr=subprocess.STDOUT, timeout=EACH)
        except subprocess.TimeoutExpired:
            return None, ""
        finally:
            if seed is not None:
                shutil.rmtree(work, ignore_errors=True)
        return ran.returncode, ran.stdout.decode("utf-8", "replace")

    def root(self):
        return "src/main.rt" if os.path.exists(os.path.join(self.folder, "src/main.rt")) else "src/lib.rt"
