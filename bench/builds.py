"""Programs beside the proved ones, for bench/run, bench/counts and bench/compare: over the Rust crate's own code, over rust/guillotiere,
which has the crate's names, and the benchmark as cargo builds it from the erased sources.
"""
import os
import shutil
import sys

from measure import ROOT, Failure, absent, call, say

sys.path.append(os.path.join(ROOT, 'rust'))
import cargo_here  # noqa: E402
import stand_in  # noqa: E402

PACKAGE = """[package]
name = "%s"
version = "0.0.0"
edition = "2021"

[dependencies]
guillotiere = { package = "wollemigo", path = "%s" }
"""

# bench/driver.rs names the crate's allocator.rs, and of euclid three types and a function.
ALLOCATOR = 'pub use guillotiere::*;\n'
EUCLID = 'pub use guillotiere::{size2, Point as Point2D, Rectangle as Box2D, Size as Size2D};\n'


def look_for(oracle, allocator):
    files = [os.path.join(oracle, 'euclid_shim.rs'), os.path.join(oracle, 'patch.py'), allocator]
    lacking = absent(('rt', 'rustc'), files)
    if lacking:
        raise Failure(lacking)


def over_crate(oracle, allocator, folder, main, is_patched):
    """Builds a file of bench/ over the crate's allocator.rs, or over a copy that is patched so that its answers are this repository's."""
    here = os.path.join(folder, main + (', patched' if is_patched else ''))
    say('building bench/%s over the crate%s' % (main, ', patched' if is_patched else ''))
    os.mkdir(here)
    for file in (main, 'cache.rs'):
        shutil.copy(os.path.join(ROOT, 'bench', file), here)
    copy = os.path.join(here, 'allocator.rs')
    if is_patched:
        call([sys.executable, os.path.join(oracle, 'patch.py'), allocator, copy, 'stale', 'ties'])
    else:
        shutil.copy(allocator, copy)
    rustc = ['rustc', '--edition', '2021', '-O', '-A', 'warnings']
    euclid = os.path.join(here, 'libeuclid.rlib')
    call(rustc + ['--crate-type', 'rlib', '--crate-name', 'euclid', '-o', euclid, os.path.join(oracle, 'euclid_shim.rs')])
    program = os.path.join(here, 'program')
    call(rustc + ['--extern', 'euclid=' + euclid, '-o', program, os.path.join(here, main)])
    return program


def wanting_linked():
    """What the driver over rust/guillotiere needs and isn't here, in words, or ''."""
    here = absent(('cargo',))
    return here or ('' if stand_in.versions() else 'there is no euclid in %s (librust-euclid-dev)' % stand_in.REGISTRY)


def write(path, text):
    os.makedirs(os.path.dirname(path), exist_ok=True)
    with open(path, 'w') as file:
        file.write(text)


def linked(folder, has_own_cache=False):
    """Builds bench/driver.rs over rust/guillotiere by cargo, in release, with cargo's own settings. The workload `cache` is a cache by
    hand over the atlas, as for the Rust crate, or the package's own."""
    here = os.path.join(folder, 'linked')
    say('building the driver over rust/guillotiere')
    crate = os.path.join(ROOT, 'rust', 'guillotiere')
    write(os.path.join(here, 'Cargo.toml'), PACKAGE % ('driver', crate) + '\n[dependencies.euclid]\npath = "euclid"\n\n[workspace]\n')
    write(os.path.join(here, 'euclid', 'Cargo.toml'), PACKAGE % ('euclid', crate))
    write(os.path.join(here, 'euclid', 'src', 'lib.rs'), EUCLID)
    write(os.path.join(here, 'src', 'allocator.rs'), ALLOCATOR)
    shutil.copy(os.path.join(ROOT, 'bench', 'driver.rs'), os.path.join(here, 'src', 'main.rs'))
    files = {'package_cache.rs': 'cache.rs', 'cache.rs': 'by_hand.rs'} if has_own_cache else {'cache.rs': 'cache.rs'}
    for file, name in files.items():
        shutil.copy(os.path.join(ROOT, 'bench', file), os.path.join(here, 'src', name))
    call(['cargo'] + cargo_here.from_debian() + ['build', '--release'], cwd=here,
         env=dict(os.environ, CARGO_TARGET_DIR='target'))
    return os.path.join(here, 'target', 'release', 'driver')


def wanting_plain():
    """What the plain build needs and isn't here, in words, or ''."""
    return absent((os.environ.get('CARGO', 'cargo'),))


def plain():
    """Builds the erased atlas_bench by cargo, in release, as its workspace says."""
    say('building the plain atlas_bench')
    return cargo_here.program('atlas_bench')
