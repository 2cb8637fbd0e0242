"""The cargo of this machine, for what builds the workspaces of rust/; the crates of others; and the targets beside its own for which a
machine of Debian's builds."""
import functools
import json
import os
import re
import shutil
import subprocess
import sys
import tempfile

import stand_in

HERE = os.path.dirname(os.path.abspath(__file__))
sys.path.append(os.path.join(os.path.dirname(HERE), 'gate'))
from runner import Failure, call, read  # noqa: E402

# Debian's folder; CRATES in the environment is another one.
REGISTRY = stand_in.REGISTRY
# Debian's packages of the crates that rust/guillotiere needs, and of those that these need.
PACKAGES = ['librust-%s-dev' % name for name in ('autocfg', 'euclid', 'libm', 'num-traits', 'proc-macro2', 'quote', 'serde', 'serde-derive',
                                             'syn', 'unicode-ident')]
# The crates of others that guillotiere-sheet needs.
OF_SHEET = ['clap', 'clap_complete', 'ctrlc', 'fd-lock', 'globset', 'image', 'imagesize', 'indicatif', 'libc', 'notify', 'png', 'same-file',
            'serde_derive', 'serde_json', 'sha2', 'sysinfo', 'tera', 'toml', 'walkdir']
UNPACKED = os.path.join(HERE, 'target', 'debian')
# The workspace of programs and tests, which the eraser writes before they are built.
ERASED = os.path.join(HERE, 'erased')
# How Debian's binutils and compilers for a target begin, and what runs its programs.
TOOLS = {'x86_64-unknown-linux-gnu': 'x86_64-linux-gnu-', 'aarch64-unknown-linux-gnu': 'aarch64-linux-gnu-',
         'armv7-unknown-linux-gnueabihf': 'arm-linux-gnueabihf-', 'x86_64-pc-windows-gnu': 'x86_64-w64-mingw32-'}
EMULATORS = {'aarch64-unknown-linux-gnu': 'qemu-aarch64', 'armv7-unknown-linux-gnueabihf': 'qemu-arm'}
WINE = '/usr/lib/wine/wine64'


def cargos():
    """Each cargo on the path, as the one that rustup set up and Debian's; or CARGO in the environment alone."""
    if 'CARGO' in os.environ:
        found = [shutil.which(os.environ['CARGO'])]
    else:
        found = [shutil.which('cargo', path=folder) for folder in os.environ['PATH'].split(os.pathsep) if folder]
    first = {}
    for path in found:
        if path:
            first.setdefault(os.path.realpath(path), path)
    return list(first.values())


def cargo():
    found = cargos()
    if not found:
        raise Failure("there is no command %s: Debian's package is called cargo, and others are at https://rustup.rs"
                      % os.environ.get('CARGO', 'cargo'))
    return found[0]


def minor():
    """The N of the Rust 1.N that the cargo is of, or 0."""
    told = re.search(r'1\.(\d+)', call([cargo(), '--version']))
    return int(told[1]) if told else 0


def has_library(cargo_path, triple):
    """Whether the rustc beside a cargo has Rust's own library for a target, or is told where it lies."""
    flags = os.environ.get('CARGO_TARGET_%s_RUSTFLAGS' % triple.upper().replace('-', '_'), '').split()
    rustc = os.path.join(os.path.dirname(cargo_path), 'rustc')
    with tempfile.TemporaryDirectory() as folder:
        words = ['--target', triple, '--crate-type', 'lib', '--emit', 'metadata', '-o', os.path.join(folder, 'nothing')]
        done = subprocess.run([rustc] + words + flags + ['-'], input=b'pub use std::vec::Vec;',
                              stdout=subprocess.DEVNULL, stderr=subprocess.DEVNULL)
    return done.returncode == 0


def linker(triple):
    """What cargo is told of a target's linker."""
    return {'CARGO_TARGET_%s_LINKER' % triple.upper().replace('-', '_'): TOOLS[triple] + 'gcc'}


def emulator(triple):
    """The words before a program of another target; the first of them is the command that must be there."""
    if '-windows-' in triple:
        return [shutil.which('wine64') or WINE]
    return [EMULATORS[triple], '-L', '/usr/' + TOOLS[triple].rstrip('-')]


def choose(triple):
    """From now on the first cargo whose rustc has Rust's own library for a target, such as Debian's behind the one of rustup."""
    found = cargos()
    fitting = [path for path in found if has_library(path, triple)] if len(found) > 1 else []
    if fitting:
        os.environ['CARGO'] = fitting[0]


def environment(cargo_path):
    """Cargo takes the rustc that lies beside it."""
    return dict(os.environ, PATH=os.path.dirname(cargo_path) + os.pathsep + os.environ['PATH'])


def from_debian(registry=REGISTRY):
    """The words by which cargo takes crates from Debian's folder alone, where they are there."""
    if not stand_in.versions(registry):
        return []
    return ['--offline', '--config', 'source.crates-io.replace-with="debian"',
            '--config', 'source.debian.directory="%s"' % registry] + stand_in.words(registry)


def missing_of_sheet():
    """Those crates of guillotiere-sheet that Debian's folder lacks."""
    there = os.listdir(REGISTRY) if os.path.isdir(REGISTRY) else []
    return [name for name in OF_SHEET if not any(re.fullmatch(name + r'-\d.*', each) for each in there)]


def packages_of_sheet(names):
    """The packages of Debian that have such crates."""
    return ' '.join('librust-%s-dev' % name.replace('_', '-') for name in names)


def words_of_sheet():
    """The words by which cargo takes them from there, where all are there."""
    return [] if missing_of_sheet() else from_debian()


def can_fetch(cargo_path, settings):
    """Whether cargo gets the crates of others that rust/guillotiere needs from where it takes them."""
    return not subprocess.run([cargo_path, 'fetch'], cwd=os.path.join(HERE, 'guillotiere'), env=dict(settings, CARGO_NET_RETRY='0'),
                              stdout=subprocess.DEVNULL, stderr=subprocess.DEVNULL).returncode


def unpack_debian():
    """Fetches Debian's packages of these crates and unpacks them below target: nothing is installed, which only root may do."""
    if shutil.which('apt-get') is None or shutil.which('dpkg') is None:
        return
    with tempfile.TemporaryDirectory() as folder:
        done = subprocess.run(['apt-get', 'download', '-q'] + PACKAGES, cwd=folder, stdout=subprocess.DEVNULL, stderr=subprocess.DEVNULL)
        for name in [] if done.returncode else os.listdir(folder):
            os.makedirs(UNPACKED, exist_ok=True)
            subprocess.run(['dpkg', '-x', os.path.join(folder, name), UNPACKED], check=True)


def crates_of_others(cargo_path, settings):
    """The words by which cargo takes the crates of others that rust/guillotiere needs: from Debian's folder, or from where it takes them
    by itself, or from Debian's packages, which are unpacked for it. None where they can't be had."""
    if from_debian():
        return from_debian()
    if can_fetch(cargo_path, settings):
        return []
    unpacked = UNPACKED + '/usr/share/cargo/registry'
    if not from_debian(unpacked):
        unpack_debian()
    return from_debian(unpacked) or None


class Build:
    """What cargo tells of a run: the files that it made, and what the compiler said."""

    def __init__(self, command, words, more=(), folder=HERE):
        path = cargo()
        done = subprocess.run([path, '--offline', command, '--release', '--message-format', 'json'] + list(words),
                              cwd=folder, env={**environment(path), **dict(more)}, stdout=subprocess.PIPE,
                              stderr=subprocess.PIPE, text=True)
        told = [json.loads(line) for line in done.stdout.splitlines() if line.startswith('{')]
        said = [each['message'] for each in told if each['reason'] == 'compiler-message']
        self.has_failed = done.returncode != 0
        self.notes = [each['message'] for each in said if each['level'] != 'error']
        self.errors = [each['rendered'] for each in said if each['level'] == 'error'] or [done.stderr.strip()]
        self.made = [each for each in told if each['reason'] == 'compiler-artifact']

    def require(self, target):
        if self.has_failed and any(re.search("can't find crate for `(core|std)`", error) for error in self.errors):
            raise Failure("this rustc has no standard library for %s: rustup target add, or Debian's libstd-rust-dev"
                          % target)
        if self.has_failed:
            raise Failure('cargo failed: %s' % '\n'.join(self.errors)[-3000:])


@functools.lru_cache(maxsize=None)
def erase():
    """Has the eraser write rust/erased, as the sources in crates/ are when this is first called."""
    path = cargo()
    words = ['run', '--quiet', '--offline', '--manifest-path', os.path.join(HERE, 'eraser', 'Cargo.toml'), '--', '--programs']
    done = subprocess.run([path] + words, env=environment(path), stdin=subprocess.DEVNULL, stdout=subprocess.PIPE,
                          stderr=subprocess.PIPE, text=True)
    if done.returncode:
        raise Failure('rust/erase --programs failed: %s' % done.stderr.strip()[-3000:])


def program(name, words=(), more=()):
    """A program of rust/erased, erased and built."""
    erase()
    build = Build('build', ['-p', name] + list(words), more, ERASED)
    build.require('this machine')
    return next(each['executable'] for each in build.made if each['target']['name'] == name and each['executable'])


def needs(prefix):
    """What a program that links the static library of rust/install links beside it."""
    found = re.search(r'^Libs\.private: (.*)$', read(prefix, 'lib', 'pkgconfig', 'guillotiere.pc'), re.M)
    return found[1].split() if found else []


def over_library(folder, source, standard='-std=c99'):
    """A program of one file in C over the library, which rust/install puts into the folder."""
    prefix, made = os.path.join(folder, 'prefix'), os.path.join(folder, 'program')
    call([os.path.join(HERE, 'install'), prefix])
    call(['gcc', standard, '-O2', '-I' + os.path.join(prefix, 'include'), '-o', made, source,
          os.path.join(prefix, 'lib', 'libguillotiere.a')] + needs(prefix))
    return made
