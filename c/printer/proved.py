"""The MIR of guillotiere_c and of all below it, as a plain library, for which the kit writes it: of a static library it writes none.

The libraries below are those that `rt ci` left, or that were proved before on this machine. What is proved here is kept for later runs in
this clone and others (gate/kept.py), and so is what `./check` proves beside `rt ci` (gate/edits).
"""
import os
import pathlib
import shutil
import sys

from mir import PLACE, World
from sources import Sources

ROOT = pathlib.Path(__file__).resolve().parent.parent.parent
sys.path.insert(0, str(ROOT / 'gate'))
import archive  # noqa: E402
import crates  # noqa: E402
import kept  # noqa: E402
from runner import Failure  # noqa: E402

EXPORTS = 'guillotiere_c'


def needed():
    """The crate of the exports, and those below it."""
    if not crates.Crate.all:
        crates.read_crates()
    crate = crates.Crate.all[EXPORTS]
    return crate, [*crate.below().values(), crate]


def folder():
    """A folder with the MIR of each crate, proved of the sources as they stand."""
    if shutil.which('rt') is None:
        raise Failure('there is no rt')
    (crate, _), kit = needed(), crates.kit()
    place, name = crate.folder / 'out' / 'mir', archive.name_of_mir(crate, kit)
    if kept.has(name):
        kept.take(name, place)
        return place
    crates.build_below([crate])
    try:
        archive.build_mir(crate, kit, place, 'out/incremental', int(os.environ.get('RT_JOBS') or min(4, os.cpu_count() or 1)))
    except archive.NotBuilt as fault:
        raise Failure(str(fault)) from fault
    return place


def libraries(kit, names):
    """The kit's libraries that these need, with what they need."""
    found, rest = [], list(names)
    while rest:
        name = rest.pop(0)
        if name not in found:
            found.append(name)
            with open('%s/rlibs/%s.rlib/format' % (kit, name)) as file:
                rest += [line.split()[1] for line in file if line.startswith('dep ')]
    return sorted(found)


def read(place):
    """All MIR of the crates in a folder and of the kit's libraries below them, and the names in their sources."""
    (_, own), kit = needed(), crates.kit()
    world, names = World(), Sources()
    outside = {dep for crate in own for dep in crate.deps} - {crate.name for crate in own}
    for name in libraries(kit, {'std'} | outside):
        world.read(os.path.join(kit, 'rlibs', name + '.rlib', PLACE))
        names.read(name, os.path.join(kit, 'rattle', name, 'src'), name + '/src')
    for crate in own:
        world.read(os.path.join(place, crate.name + '.json'))
        names.read(crate.name, str(crate.folder / 'src'), 'crates/%s/src' % crate.name)
    return world, names
