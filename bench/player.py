"""The program of bench/cliffs, which plays workloads, for bench/worst; and that of bench/uses, for bench/traces."""
import hashlib
import os
import platform
import re
import subprocess
import sys
import tempfile

sys.dont_write_bytecode = True
from measure import ROOT, Failure, absent, call, say  # noqa: E402

sys.path.append(os.path.join(ROOT, 'rust'))
import cargo_here  # noqa: E402

SOURCES = os.path.join(ROOT, 'bench', 'cliffs')
BUILDS = os.path.join(ROOT, 'bench', 'out', 'worst')
PACKAGE = """[package]
name = "cliffs"
version = "0.0.0"
edition = "2021"

[dependencies]
wollemigo-core = { path = "%s" }
wollemigo-support = { path = "%s", features = ["std"] }
%s
[profile.release]
panic = "abort"
lto = "fat"

[workspace]
"""
EUCLID = '[package]\nname = "euclid"\nversion = "0.0.0"\nedition = "2021"\n'
# The least Rust that builds bench/cliffs: 1.66, with which `black_box` came.
RUST = 66
STEPS = ['--cfg steps', '-C profile-generate=' + os.devnull, '-C llvm-args=-disable-vp']
PART = re.compile(r'(?<!\S)([a-z]+):(\d+):(\d+)')


def lacking(files):
    """What isn't there of these and of a cargo that can build bench/cliffs, in words, or ''."""
    wanting = absent(['cargo'], files)
    if wanting or cargo_here.minor() >= RUST:
        return wanting
    return 'the cargo is older than Rust 1.%d' % RUST


def read(path):
    with open(path) as file:
        return file.read()


def write(path, text):
    """Leaves a file that is already so, so that cargo doesn't build it again."""
    os.makedirs(os.path.dirname(path), exist_ok=True)
    if not os.path.exists(path) or read(path) != text:
        with open(path, 'w') as file:
            file.write(text)


def patched(oracle, allocator):
    """The crate's own code with the two changes, after which its answers are the same as here."""
    with tempfile.NamedTemporaryFile('r', suffix='.rs') as out:
        call([sys.executable, os.path.join(oracle, 'patch.py'), allocator, out.name, 'stale', 'ties'])
        return read(out.name)


def lay_out(here, core, crate, sources):
    """Writes the package; `crate` has the two paths of the Rust crate's own code, or none."""
    support = os.path.join(os.path.dirname(core), 'support')
    write(os.path.join(here, 'Cargo.toml'), PACKAGE % (core, support, 'euclid = { path = "euclid" }\n' if crate else ''))
    for name in os.listdir(sources):
        if name.endswith('.rs'):
            write(os.path.join(here, 'src', name), read(os.path.join(sources, name)))
    if crate:
        write(os.path.join(here, 'euclid', 'Cargo.toml'), EUCLID)
        write(os.path.join(here, 'euclid', 'src', 'lib.rs'), read(os.path.join(crate[0], 'euclid_shim.rs')))
        write(os.path.join(here, 'src', 'allocator.rs'), read(crate[1]))
        write(os.path.join(here, 'src', 'patched_allocator.rs'), patched(*crate))
        write(os.path.join(here, 'src', 'cache.rs'), read(os.path.join(ROOT, 'bench', 'cache.rs')))


def build(core, crate, has_steps, sources=SOURCES):
    """Builds a program of bench/ by cargo, in release; with steps if it is to count them. The plain one is as a user's program is."""
    core = os.path.abspath(core)
    name = hashlib.sha256('\n'.join([core] + list(crate) + [sources] * (sources != SOURCES)).encode()).hexdigest()[:12]
    here = os.path.join(BUILDS, name)
    lay_out(here, core, crate, sources)
    flags = ['-A warnings'] + (['--cfg crates'] if crate else []) + (STEPS if has_steps else [])
    target = 'steps' if has_steps else 'plain'
    path = cargo_here.cargo()
    say('building bench/%s over %s%s' % (os.path.basename(sources), core, ', with steps' if has_steps else ''))
    call([path] + (cargo_here.from_debian() or ['--offline']) + ['build', '--release', '-j2'], cwd=here,
         env=dict(cargo_here.environment(path), CARGO_TARGET_DIR=target, RUSTFLAGS=' '.join(flags)))
    return os.path.join(here, target, 'release', 'cliffs')


class Played:
    """What was played: calls and steps of each part, free boxes when asking began, and a checksum of all answers."""

    def __init__(self, line):
        self.parts = {name: (int(calls), int(steps)) for name, calls, steps in PART.findall(line)}
        self.holes = int(re.search(r'holes:(\d+)', line).group(1))
        self.sum = int(re.search(r'sum:(\d+)', line).group(1))

    def calls(self, part):
        return self.parts.get(part, (0, 0))[0]

    def each(self, part):
        """Steps a call."""
        calls, steps = self.parts.get(part, (0, 0))
        return steps / calls if calls else 0


def words_of(form, budget, bounds, part, genome):
    said = ','.join('%s:%d' % pair for pair in sorted(bounds.items())) or '-'
    return '%s %d %s %s %s\n' % (form, budget, said, part, genome)


class Player:
    """A program that runs and answers line by line. One that ended is begun again."""

    def __init__(self, program):
        self.program = program
        self.process = None

    def told(self, form, genome, budget=0, bounds=()):
        """What it answers, or '' where it didn't come to an end."""
        if self.process is None:
            self.process = subprocess.Popen([self.program], stdin=subprocess.PIPE, stdout=subprocess.PIPE, stderr=subprocess.DEVNULL,
                                            text=True, env=dict(os.environ, LLVM_PROFILE_FILE=os.devnull))
        try:
            self.process.stdin.write(words_of(form, budget, dict(bounds), '-', genome))
            self.process.stdin.flush()
            line = self.process.stdout.readline()
        except BrokenPipeError:
            line = ''
        if not line:
            self.process.wait()
            self.process = None
        return line

    def play(self, form, genome, budget=0, bounds=()):
        """None where it didn't come to an end."""
        line = self.told(form, genome, budget, bounds)
        return Played(line) if line else None


# The program says when counting begins and ends, but elsewhere, where callgrind is told the name of a function.
CALLGRIND = ['valgrind', '--tool=callgrind', '--instr-atstart=no' if platform.machine() == 'x86_64' else '--toggle-collect=*counted*']


# By one instruction, of which callgrind counts each byte, the C library fills and copies nothing then.
WORD_BY_WORD = {'GLIBC_TUNABLES': 'glibc.cpu.x86_rep_stosb_threshold=100000000:glibc.cpu.x86_rep_movsb_threshold=100000000'}


def by_callgrind(program, text, seconds, env=()):
    """Runs a program over a line. What it answered, and the instructions of each file that callgrind left, by their order; None
    where it took longer than so many seconds."""
    with tempfile.TemporaryDirectory() as folder:
        command = CALLGRIND + ['--callgrind-out-file=' + os.path.join(folder, 'out'), program]
        try:
            done = subprocess.run(command, input=text, capture_output=True, text=True, timeout=seconds, env=dict(os.environ, **dict(env)))
        except subprocess.TimeoutExpired:
            return None
        if done.returncode or not done.stdout:
            raise Failure('%s over %s\n%s' % (program, text, done.stderr[-500:]))
        numbers = sorted(int(name[4:]) for name in os.listdir(folder) if name[4:])
        files = [read(os.path.join(folder, name)) for name in ['out.%d' % number for number in numbers] or ['out']]
    return done.stdout, [int(re.search(r'^(?:totals|summary): (\d+)', text, re.M).group(1)) for text in files]


def counted(program, form, genome, part, bounds, seconds=None, env=()):
    """The instructions of a call of this part, as callgrind counts them; None where it took longer than so many seconds."""
    found = by_callgrind(program, words_of(form, 0, bounds, part, genome), seconds, env)
    if found is None:
        return None
    calls = Played(found[0]).calls(part)
    return found[1][0] / calls if calls else 0


def counted_calls(program, form, genome, numbers, seconds=None):
    """The instructions of each of these calls, by the number that `watch=steps` gave it; None where it took too long."""
    line = '%s watch=%s' % (genome, '+'.join(str(number) for number in sorted(numbers)))
    found = by_callgrind(program, words_of(form, 0, {}, '-', line), seconds)
    if found is None:
        return None
    if len(found[1]) < len(numbers):
        raise Failure('callgrind counted %d calls of %d: %s' % (len(found[1]), len(numbers), line))
    return dict(zip(sorted(numbers), found[1]))
