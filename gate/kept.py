#!/usr/bin/env python3
"""What was proved on this machine: libraries and programs, which `./check` keeps once `rt ci` has ended, and gate/take copies into other
clones; archives for C, which bindings/build keeps; and what was said of edits that were refused, which gate/edits keeps. The name of each
has the sum of all it is made from, so none goes stale. They lie in ~/.cache/guillotiere, or in $XDG_CACHE_HOME/guillotiere; whoever can
write there is trusted, as with what `rt` keeps.

    gate/kept.py LOG      keeps this clone's programs, and the libraries that others cite, that `rt ci` has proved, by what it wrote to LOG
"""
import contextlib
import hashlib
import os
import pathlib
import shutil
import sys
import tempfile

sys.dont_write_bytecode = True
PLACE = pathlib.Path(os.environ.get("XDG_CACHE_HOME") or pathlib.Path.home() / ".cache") / "guillotiere"
# As many of one crate are kept, the newest.
MOST = 4


def name_of(crate, kit, *words):
    """The name under which what these words make of a crate is kept: with a sum of them, of the kit, of the crate and of all below."""
    found = hashlib.sha256(pathlib.Path(kit, "KIT-ID").read_bytes() + repr(words).encode())
    for each in [*crate.below().values(), crate]:
        found.update(repr((each.name, each.is_static, each.deps)).encode())
        for path in sorted(each.sources()):
            found.update(repr((str(path.relative_to(each.folder)), path.read_bytes())).encode())
    return f"{crate.name}-{found.hexdigest()}"


def link(one, other):
    """Gives a file of a library a second name: `rt` makes such a file anew, and never writes into it."""
    try:
        os.link(one, other)
    except OSError:
        shutil.copyfile(one, other)


def copy(one, other):
    """Copies a program, an archive or the folder of a library."""
    if one.is_dir():
        shutil.copytree(one, other, copy_function=link)
    else:
        shutil.copy(one, other)


def has(name):
    return (PLACE / name).exists()


def take(name, path):
    """Copies what is kept under this name, in place of what stands there, with today's date."""
    path.parent.mkdir(parents=True, exist_ok=True)
    shutil.rmtree(path) if path.is_dir() else path.unlink(missing_ok=True)
    copy(PLACE / name, path)
    os.utime(path)


def keep(name, path):
    """Keeps a file or a folder under a name: copied apart and then renamed, so that no other run meets half of it. Where there is no room
    for it nothing is kept."""
    path = pathlib.Path(path)
    if has(name):
        return
    with contextlib.suppress(OSError):
        PLACE.mkdir(mode=0o700, parents=True, exist_ok=True)
        with tempfile.TemporaryDirectory(dir=PLACE, prefix=".new-") as room:
            copy(path, pathlib.Path(room, name))
            os.rename(pathlib.Path(room, name), PLACE / name)
        of_crate = sorted(PLACE.glob(f"{name.rpartition('-')[0]}-*"), key=lambda it: -it.stat().st_mtime)
        for old in of_crate[MOST:]:
            shutil.rmtree(old) if old.is_dir() else old.unlink()


def keep_text(name, text):
    with tempfile.NamedTemporaryFile("w", encoding="utf-8") as file:
        file.write(f"{text}\n")
        file.flush()
        keep(name, file.name)


def name_of_program(crate, kit):
    return name_of(crate, kit, "program")


def keep_proved(crates, proved, kit):
    """Keeps the programs among these crates, and the libraries that others cite, which are among the proved ones with all below them. Gives
    how many libraries and how many programs there were."""
    libraries = programs = 0
    cited = {dep for crate in crates for dep in crate.deps}
    for crate in crates:
        if not {crate.name, *crate.below()} <= proved:
            continue
        if crate.name in cited and crate.is_new():
            keep(name_of(crate, kit), crate.rlib())
            libraries += 1
        if crate.program():
            keep(name_of_program(crate, kit), crate.program())
            programs += 1
    return libraries, programs


def take_proved(crates, kit):
    """Copies these programs and libraries, and the libraries below them, to where `rt ci` leaves them. Gives names of what isn't kept."""
    below = {name: library for crate in crates for name, library in crate.below().items()}
    libraries = {**below, **{it.name: it for it in crates if not it.is_program()}}
    pairs = [(name_of(it, kit), it.rlib()) for it in libraries.values()]
    pairs += [(name_of_program(it, kit), it.folder / "out" / it.name) for it in crates if it.is_program()]
    for name, path in pairs:
        if has(name):
            take(name, path)
    return [name for name, _ in pairs if not has(name)]


def main(log):
    import crates
    crates.read_crates()
    proved = {*crates.PROVED.findall(pathlib.Path(log).read_text(encoding="utf-8", errors="replace"))}
    libraries, programs = keep_proved(crates.Crate.all.values(), proved, crates.kit())
    print(f"{libraries} proved libraries and {programs} programs are kept in {PLACE}")


if __name__ == "__main__":
    if len(sys.argv) != 2:
        sys.exit("gate/kept.py takes the log of a run of `rt ci`")
    sys.path.insert(0, str(pathlib.Path(__file__).resolve().parent))
    main(sys.argv[1])
