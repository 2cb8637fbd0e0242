"""The crates of this repository as the kit's `rattle` is told of them, for what is run over the libraries that `rt ci` has just proved
and left in each crate's out/: it keeps nothing else, and `rt` itself would prove them once more.
"""
import os
import pathlib
import re
import subprocess
import sys

import kept

TOP = pathlib.Path(__file__).resolve().parent.parent
CRATES = TOP / "crates"
# What `rt ci` says of a crate that it has proved, or that an earlier run had.
PROVED = re.compile(r"^rt: (\w+)(?: proved| is kept: .*)$", re.M)


def kit():
    """The folder of the Rattle kit."""
    return os.path.dirname(subprocess.run(["rt", "doc"], capture_output=True, text=True, check=True).stdout.split()[0])


class Crate:
    """A crate of crates.txt, with what its check is told."""

    all = {}

    def __init__(self, name, words):
        self.name, self.folder = name.rpartition("/")[2], CRATES / name
        self.is_static = "staticlib" in words[0]
        self.deps = words[1].split()
        self.root = "src/main.rt" if self.is_program() else "src/lib.rt"
        Crate.all[name] = self

    def is_program(self):
        return (self.folder / "src/main.rt").is_file()

    def below(self):
        """The repository's libraries below it, lowest first."""
        found = {}
        for dep in self.deps:
            if dep in Crate.all:
                found.update(Crate.all[dep].below())
                found[dep] = Crate.all[dep]
        return found

    def sources(self):
        """The files that its check reads, without those of the crates below it."""
        return [path for part in ("src", "specs", "proofs") for path in (self.folder / part).rglob("*") if path.is_file()]

    def is_newer(self, path):
        """Whether a file or a folder is newer than the sources of the crate and of all below it."""
        return path.stat().st_mtime > max(it.stat().st_mtime for crate in [self, *self.below().values()] for it in crate.sources())

    def program(self):
        """The program that `rt ci` or `rt run` has proved and built; None where it is older than its sources, or isn't there."""
        built = self.folder / "out" / self.name
        return str(built) if built.is_file() and self.is_newer(built) else None

    def rlib(self):
        return self.folder / "out" / "rlib" / f"{self.name}.rlib"

    def is_new(self):
        """Whether it is a library that is newer than all that its proof reads, as `rt ci` leaves it."""
        built = self.rlib()
        return (built / "format").is_file() and self.is_newer(built)

    def words(self, kit, is_static=None):
        """What its check is told; of a static library, as what it is in crates.txt or as a plain one."""
        words = ["--crate-name", self.name, self.root, "--extern", f"std={kit}/rlibs/std.rlib", "-L", f"dependency={kit}/rlibs"]
        for dep in self.deps:
            own = Crate.all.get(dep)
            words += ["--extern", f"{own.name}={own.rlib()}" if own else f"{dep}={kit}/rlibs/{dep}.rlib"]
        for dep in self.below().values():
            words += ["-L", f"dependency={dep.rlib().parent}"]
        words += ["--antt-project", f"{kit}/rattle/logic/antt-project.json", "--logic-built", f"{kit}/logic_built"]
        words += ["--crate-type", "staticlib"] if (self.is_static if is_static is None else is_static) else []
        return words


def read_crates():
    """Reads crates.txt."""
    for line in (TOP / "crates.txt").read_text(encoding="utf-8").splitlines():
        head, colon, deps = line.partition("#")[0].partition(":")
        if colon:
            Crate(head.split()[0], (head, deps))


def proved_program(name):
    """A program, proved and built: the one that stands here, or that `./check` kept on this machine, or that `rt run` makes."""
    if not Crate.all:
        read_crates()
    crate = Crate.all[name]
    if not crate.program() and kept.has(kept.name_of_program(crate, kit())):
        kept.take(kept.name_of_program(crate, kit()), crate.folder / "out" / name)
    if not crate.program():
        print(f"proving and building {name}", file=sys.stderr, flush=True)
        with open(crate.folder / "stdin") as lines:
            subprocess.run(["rt", "run"], cwd=crate.folder, stdin=lines, stdout=subprocess.DEVNULL, check=True)
    return crate.program()


def build_below(crates):
    """Builds the libraries below these crates, lowest first, but for those that are newer than their sources, as `rt ci` leaves them. Where
    an earlier run on this machine proved all of them of the same sources, they are copied."""
    needed, stale = {}, set()
    for crate in crates:
        needed.update(crate.below())
    if not all(library.is_new() for library in needed.values()):
        folder = kit()
        names = {name: kept.name_of(library, folder) for name, library in needed.items()}
        if all(kept.has(it) for it in names.values()):
            for name, library in needed.items():
                kept.take(names[name], library.rlib())
            print(f"proved before on this machine: {' '.join(names)}", flush=True)
            return
    for name in sorted(needed, key=lambda it: len(needed[it].below())):
        library = needed[name]
        if library.is_new() and not stale & {*library.below()}:
            continue
        print(f"proving {name}", flush=True)
        stale.add(name)
        ran = subprocess.run(["rt", "lib", "--jobs", str(os.cpu_count() or 1)], cwd=library.folder, capture_output=True, text=True)
        if ran.returncode:
            raise SystemExit(f"{name} isn't proved:\n{ran.stdout[-2000:]}{ran.stderr[-500:]}")
