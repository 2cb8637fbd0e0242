"""What the tests of the library share: the library, and programs over it."""
import os
import re
import shutil
import sys

BINDINGS = os.path.dirname(os.path.dirname(os.path.abspath(__file__)))
ROOT = os.path.dirname(BINDINGS)
sys.path[:0] = [BINDINGS, os.path.join(ROOT, 'gate')]
import null_pointers  # noqa: E402
import package  # noqa: E402
from runner import Failure, call  # noqa: E402

CALLS = int(os.environ.get('CALLS', '1000000'))
WARNINGS = ['-Wall', '-Wextra', '-Wpedantic', '-Wshadow', '-Werror']
SANITIZED = ['-O1', '-g', '-fsanitize=address,undefined', '-fno-sanitize-recover=all']
REFUSING = ['-Wl,--wrap=malloc,--wrap=realloc,--wrap=free']
# How many slots an atlas may use, and how many in the library of check_slots.
MOST_SLOTS, FEW_SLOTS = ('pub const MOST_SLOTS: u32 = %d;' % slots for slots in (16777216, 64))
# What the archive of the kit takes from the C library.
NEEDED = {'malloc', 'realloc', 'free', 'memcpy', 'memmove', 'memset'}


class Library:
    """The library, installed in a folder of its own, and programs over it."""

    def __init__(self, folder, is_plain, words=()):
        os.makedirs(folder, exist_ok=True)
        self.folder = folder
        self.is_plain = is_plain
        self.prefix = os.path.join(folder, 'prefix')
        installer = os.path.join(ROOT, 'rust', 'install') if is_plain else os.path.join(BINDINGS, 'build')
        self.installation = [installer, self.prefix] + list(words)
        self.count = 0

    def archive(self):
        return os.path.join(self.prefix, 'lib', 'libguillotiere.a')

    def compiled(self, compiler, source, flags):
        """A program of one source file."""
        self.count += 1
        program = os.path.join(self.folder, 'program%d' % self.count)
        standard = '-std=c++17' if source.endswith('.cpp') else '-std=c99'
        more = ['-Wshadow-field'] if compiler == 'clang++' else []
        call([compiler, standard] + WARNINGS + more + flags + ['-I' + os.path.join(self.prefix, 'include'), '-o', program,
             os.path.join(BINDINGS, source), self.archive()])
        return program


def build(library):
    call(library.installation, timeout=None)


def names_in(file, *words):
    """The global names of a file: those that it defines, and those that it takes from others."""
    table = call(['nm', '--extern-only', '--portability'] + list(words) + [file])
    names = [line.split()[:2] for line in table.splitlines() if len(line.split()) > 1]
    return {name for name, kind in names if kind not in 'Uw'}, {name for name, kind in names if kind == 'U'}


def exports():
    return set(package.exports())


def run_program(library, compiler, source, flags, arguments=(), before=()):
    return call(list(before) + [library.compiled(compiler, source, flags)] + list(arguments))


def run_nulls(library, compiler, before=()):
    """Each call with each of its pointers null in turn."""
    source = null_pointers.written(library.folder)
    call(list(before) + [library.compiled(compiler, source, ['-O2', '-I' + os.path.join(BINDINGS, 'tests')])])


def run_stored_session(library, compiler, before=()):
    with open(os.path.join(ROOT, 'crates', 'atlas_tool', 'stdout')) as file:
        wanted = file.read()
    if run_program(library, compiler, 'c/examples/session.c', ['-O2'], (), before) != wanted:
        raise Failure('the replies differ from crates/atlas_tool/stdout')


def run_stored_cache(library, compiler, before=()):
    """The lines of caches whose replies were worked out by hand, over the exports."""
    program = library.compiled(compiler, 'tests/cache_lines.c', ['-O2'])
    stored = os.path.join(BINDINGS, 'tests', 'cache.')
    with open(stored + 'lines') as lines, open(stored + 'replies') as replies:
        wanted = replies.read()
        if len(wanted) < 10000 or call([*before, program], stdin=lines) != wanted:
            raise Failure('the replies differ from bindings/tests/cache.replies')


def check_plugin(library):
    """A shared library that links the archive has no name of it among its own."""
    source, plugin = os.path.join(library.folder, 'plugin.c'), os.path.join(library.folder, 'plugin.so')
    with open(source, 'w') as file:
        file.write('#include <guillotiere.h>\nuint32_t of_plugin(void);\n'
                   'uint32_t of_plugin(void) { return guillotiere_version(); }\n')
    call(['gcc', '-std=c99', '-shared', '-fPIC', '-I' + os.path.join(library.prefix, 'include'), '-o', plugin, source, library.archive()])
    defined, _ = names_in(plugin, '--dynamic')
    if not {'of_plugin'} <= defined or any(name.startswith('guillotiere') for name in defined):
        raise Failure('names of the plugin: %s' % sorted(defined))


def check_readers(library, compiler):
    """Each call whose handles are const, over memory that can't be written; and the program makes each of them."""
    with open(os.path.join(BINDINGS, 'c', 'guillotiere.h')) as file:
        found = re.findall(r'^(?:uint32_t|void|bool) (guillotiere_\w+)\(([^;]*)\);', file.read(), re.M)
    wanted = {name for name, words in found if re.search(r'const guillotiere_(atlas|simple|paged|cache) \*', words)}
    program = library.compiled(compiler, 'tests/readonly.c', ['-O2', '-pthread'] + REFUSING)
    if set(call([program, 'names']).split()) != wanted:
        raise Failure('tests/readonly.c makes other calls than those whose handles are const in guillotiere.h')
    call([program])


def check_slots(library):
    """A cache whose pages run out of slots, over a library of a copy of the sources in which an atlas may use 64."""
    copy = os.path.join(library.folder, 'few slots')
    for name in ('bindings', 'gate', 'rust'):
        shutil.copytree(os.path.join(ROOT, name), os.path.join(copy, name), ignore=shutil.ignore_patterns('target', '__pycache__'))
    source = os.path.join(copy, 'rust', 'core', 'src', 'atlas_model', 'allocation.rs')
    with open(source) as file:
        text = file.read()
    if text.count(MOST_SLOTS) != 1:
        raise Failure('there is no line ' + MOST_SLOTS)
    with open(source, 'w') as file:
        file.write(text.replace(MOST_SLOTS, FEW_SLOTS))
    few = Library(os.path.join(copy, 'library'), True)
    few.installation[0] = os.path.join(copy, 'rust', 'install')
    build(few)
    run_program(few, 'gcc', 'tests/slots.c', ['-O2'])


def digest_of(library, compiler, before=()):
    return run_program(library, compiler, 'tests/digest.c', ['-O2'], [str(CALLS)], before)
