"""The archive of the exports for C: proved and built by the kit over the libraries below, and kept for later runs (gate/kept.py). And what
was proved, as the kit writes it beside a library, the MIR, of which c/print prints guillotiere.c.
"""
import os
import pathlib
import shutil
import subprocess
import tempfile

import kept

# The targets that it is built for, and the least processor of each; the first where nothing else is asked for.
TARGETS = {"x86_64-unknown-linux-gnu": "x86-64", "aarch64-unknown-linux-gnu": None}
TRIPLE = next(iter(TARGETS))
MIR = pathlib.Path("toolchain", "mir.json")


class NotBuilt(Exception):
    """What the kit said of an archive, or of a library, that it didn't build."""


def name_of(crate, kit, triple, cpu):
    """The name under which it is kept."""
    return kept.name_of(crate, kit, triple, cpu)


def run(crate, kit, words, is_static):
    command = [f"{kit}/bin/rattle", "build", *crate.words(kit, is_static), *words]
    ran = subprocess.run(command, cwd=crate.folder, stdin=subprocess.DEVNULL, stdout=subprocess.PIPE, stderr=subprocess.STDOUT, text=True)
    if ran.returncode:
        raise NotBuilt(f"{' '.join(command)} failed:\n{ran.stdout[-3000:]}")


def build(crate, kit, archive, work, jobs, triple, cpu):
    """Proves and builds it as this file. `work` is a folder where the check keeps what it proved, and finds what an earlier one did."""
    words = ["--toolchain", f"{kit}/toolchain", "--backend", "llvm", "--incremental", str(work), "--target", triple]
    words += ["--cpu", cpu] if cpu else []
    run(crate, kit, [*words, "--jobs", str(jobs), "-o", str(archive)], True)
    kept.keep(name_of(crate, kit, triple, cpu), archive)


def name_of_mir(crate, kit):
    """The name under which the MIR of a crate and of all below it is kept."""
    return f"mir-{kept.name_of(crate, kit)}"


def build_mir(crate, kit, place, work, jobs):
    """Makes a folder with the MIR of each crate, as NAME.json. The kit writes none of a static library, so the exports are proved as a
    plain one: where the proof of an archive left what it proved in `work`, nearly all is taken from there."""
    with tempfile.TemporaryDirectory() as room:
        library = pathlib.Path(room, f"{crate.name}.rlib")
        run(crate, kit, ["--incremental", str(work), "--jobs", str(jobs), "-o", str(library)], False)
        shutil.rmtree(place, ignore_errors=True)
        os.makedirs(place)
        for name, folder in [*((it.name, it.rlib()) for it in crate.below().values()), (crate.name, library)]:
            shutil.copy(folder / MIR, pathlib.Path(place, f"{name}.json"))
    kept.keep(name_of_mir(crate, kit), place)
