"""A stand-in for euclid 0.22 where Debian's folder has an older one: that one's sources, under a manifest that says 0.22.

    python3 rust/stand_in.py      writes it, and prints its folder; nothing where none is needed

The manifest of wollemigo asks for euclid 0.22, as users get it. Debian 12 has 0.20.0, which is the same in all that is used here. The
scripts of this repository build over that one by this switch alone; no package contains it.
"""
import hashlib
import os
import re
import shutil
import sys
import tempfile

HERE = os.path.dirname(os.path.abspath(__file__))
REGISTRY = os.environ.get('CRATES', '/usr/share/cargo/registry')

# As in 0.22.7 the functions of floating point numbers come from std or from the feature libm, and nothing compiles without both.
MANIFEST = """[package]
name = "euclid"
version = "0.22.0"
description = "euclid %s, standing in for 0.22"

[dependencies]
num-traits = { version = "0.2", default-features = false }
serde = { version = "1", default-features = false, features = ["serde_derive"], optional = true }

[features]
default = ["std"]
std = ["num-traits/std"]
libm = ["num-traits/libm"]

[workspace]
"""


def versions(registry=REGISTRY):
    """The versions of euclid in Debian's folder, or in another one."""
    names = os.listdir(registry) if os.path.isdir(registry) else []
    return [found[1] for found in map(re.compile(r'euclid-(\d.*)').fullmatch, sorted(names)) if found]


def folder(registry=REGISTRY):
    """The folder of the stand-in, which is written where it isn't there yet; None where there is euclid 0.22, or none at all."""
    found = versions(registry)
    if not found or any(version.startswith('0.22.') for version in found):
        return None
    manifest = MANIFEST % found[-1]
    with open(os.path.abspath(__file__), 'rb') as file:
        name = 'euclid-%s-%s' % (found[-1], hashlib.sha256(file.read()).hexdigest()[:8])
    place = os.path.join(HERE, 'target', 'stand_in', name)
    if not os.path.isdir(place):
        write(os.path.join(registry, 'euclid-' + found[-1]), manifest, place)
    return place


def write(source, manifest, place):
    """Another run may write the same folder at the same time: the first one stays."""
    os.makedirs(os.path.dirname(place), exist_ok=True)
    room = tempfile.mkdtemp(dir=os.path.dirname(place))
    made = os.path.join(room, 'euclid')
    shutil.copytree(os.path.join(source, 'src'), os.path.join(made, 'src'))
    with open(os.path.join(made, 'Cargo.toml'), 'w') as file:
        file.write(manifest)
    # As for each crate that is taken from a folder or a registry, its warnings aren't shown.
    edit(os.path.join(made, 'src', 'lib.rs'), r'\A', '#![allow(warnings)]\n')
    # Rust's core lacks these functions of floating point numbers, and without std these two files find none.
    for name in ('approxeq.rs', 'trig.rs'):
        edit(os.path.join(made, 'src', name), r'(\w+|\([^()]*\))\.(abs|cos|sin|sin_cos|tan)\(\)', r'num_traits::Float::\2(\1)')
    try:
        os.rename(made, place)
    except OSError:
        if not os.path.isdir(place):
            raise
    shutil.rmtree(room)


def edit(path, pattern, text):
    with open(path) as file:
        before = file.read()
    with open(path, 'w') as file:
        file.write(re.sub(pattern, text, before))


def words(registry=REGISTRY):
    """What tells cargo to take it."""
    place = folder(registry)
    return ['--config', 'patch.crates-io.euclid.path="%s"' % place] if place else []


if __name__ == '__main__':
    print(folder() or '')
    sys.exit(0)
