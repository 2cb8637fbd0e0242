"""The library of `rust/install --lean` and `--std`, beside the one that it makes by itself, and programs that link nothing else."""
import os
import re

import cargo_here
from runner import Absent, Failure, call, expect, read
from suite import (BINDINGS, CALLS, NEEDED, REFUSING, WARNINGS, Library, build, check_plugin, check_readers, digest_of, exports, names_in,
                   run_nulls, run_program)

# What rustc has to be for a library without std: 1.68.
LEAST_WITHOUT_STD = 68
# The glibc of the oldest systems that are meant: RHEL 7, Steam's runtimes.
GLIBC = (2, 17)


def glibcs(library):
    """The versions of glibc that the shared library asks for."""
    with open(os.path.join(library.prefix, 'lib', 'libguillotiere.so'), 'rb') as file:
        return {(int(major), int(minor)) for major, minor in re.findall(rb'GLIBC_(\d+)\.(\d+)', file.read())}


def check_glibc(library):
    if not (0, 0) < max(glibcs(library)) <= GLIBC:
        raise Failure('it asks for glibc %s' % sorted(glibcs(library)))


def run_bare(library, flags=()):
    """A program that links the archive and nothing else."""
    program = os.path.join(library.folder, 'bare')
    call(['gcc', '-std=c11'] + WARNINGS + ['-O1', '-nostdlib', '-static', '-ffreestanding', '-fno-stack-protector'] + list(flags)
         + ['-I' + os.path.join(library.prefix, 'include'), '-o', program, os.path.join(BINDINGS, 'tests', 'bare.c'), library.archive()])
    call([program])


def is_new_enough():
    return cargo_here.minor() >= LEAST_WITHOUT_STD


def check_needed(library):
    """Both files of a library without std need of others what is said of them, and define the exports."""
    for file, words in ((library.archive(), []), (os.path.join(library.prefix, 'lib', 'libguillotiere.so'), ['--dynamic'])):
        defined, needed = names_in(file, *words)
        needed = {name.split('@')[0] for name in needed}
        if defined != exports() or needed != NEEDED | {'abort'}:
            raise Failure('%s: has %s, and needs %s' % (file, sorted(defined ^ exports()), sorted(needed)))


def run_shared(library, source):
    """A program over the shared library."""
    lib, program = os.path.join(library.prefix, 'lib'), os.path.join(library.folder, 'shared')
    call(['gcc', '-std=c99'] + WARNINGS + ['-I' + os.path.join(library.prefix, 'include'), '-o', program, os.path.join(BINDINGS, source),
                                           '-L' + lib, '-Wl,-rpath,' + lib, '-lguillotiere'])
    call([program])


def check_sizes(libraries):
    """What the page says of the sizes of the three forms, and of their glibc, where it was measured by this rustc."""
    page = read(os.path.join(BINDINGS, 'README.md'))
    table = re.search(r'On x86-64, by\s+rustc\s(\S+);.*?\n\n((?:\|[^\n]*\n)+)', page, re.S)
    version = re.search(r'1\.\d+', call([os.path.join(os.path.dirname(cargo_here.cargo()), 'rustc'), '--version']))[0]
    if os.uname().machine != 'x86_64' or version != table[1]:
        raise Absent('they were measured by rustc %s on x86-64' % table[1])
    rows = {cells[1].strip(' `'): cells[2:5] for cells in (line.split('|') for line in table[2].splitlines()[2:])}
    expect(sorted(rows), sorted(libraries), 'the forms on the page')
    for form, library in libraries.items():
        files = [library.archive(), os.path.join(library.prefix, 'lib', 'libguillotiere.so')]
        for told, file in zip(rows[form], files):
            told, size = int(told.replace(',', '')), os.path.getsize(file)
            if abs(told - size) > size // 50:
                raise Failure('%s has %d bytes, and the page says %d' % (file, size, told))
        expect(rows[form][2].strip(), '%d.%d' % max(glibcs(library)), 'the glibc of ' + form)


def compare_digests(library, other):
    if digest_of(library, 'gcc') != digest_of(other, 'gcc'):
        raise Failure('the digests differ')


def test_bare(suite, library):
    if os.uname().machine not in ('x86_64', 'aarch64'):
        suite.skip('a program without a C library', 'this is another processor')
    elif suite.has(['gcc'], 'a program without a C library'):
        for heap, flags in (("memory of its own, by guillotiere_set_memory", []), ('a malloc of its own', ['-DOWN_HEAP'])):
            suite.run('tests/bare.c, without a C library, with ' + heap, run_bare, library, flags)


def test_std(suite, library):
    """The library of `rust/install --std`."""
    other = Library(os.path.join(library.folder, 'std'), True, ['--std'])
    suite.run('the build with std', build, other)
    if os.path.isfile(other.archive()):
        suite.run('tests/cache.c, with std', run_program, other, 'gcc', 'tests/cache.c', ['-O2'])
        suite.run('tests/cache.c, over the shared library with std', run_shared, other, 'tests/cache.c')
        suite.run('%s random calls, answered as without std' % format(CALLS, ','), compare_digests, library, other)
    return other


def test_lean(suite, library):
    """The library of `rust/install --lean`."""
    lean = Library(os.path.join(library.folder, 'lean'), True, ['--lean'])
    suite.run('the build without std', build, lean)
    if not os.path.isfile(lean.archive()):
        return lean
    suite.run("its names, and those that it needs", check_needed, lean)
    suite.run('its shared library, and glibc', check_glibc, lean)
    suite.run("a plugin's names, without std", check_plugin, lean)
    for source in ('c/examples/glyph_cache.c', 'tests/cache.c', 'tests/hostile.c', 'tests/nulls.c', 'tests/paged.c', 'tests/sheet.c'):
        suite.run(source + ', without std', run_program, lean, 'gcc', source, ['-O2'])
    suite.run('each pointer in turn null, without std', run_nulls, lean, 'gcc')
    for source in ('tests/memory.c', 'tests/hook.c'):
        suite.run(source + ', without std', run_program, lean, 'gcc', source, ['-O2'] + REFUSING)
    suite.run('tests/readonly.c, without std', check_readers, lean, 'gcc')
    suite.run('tests/cache.c, over the shared library without std', run_shared, lean, 'tests/cache.c')
    suite.run('%s random calls, answered as those of the library for speed' % format(CALLS, ','), compare_digests, library, lean)
    test_bare(suite, lean)
    return lean


def test_without_std(suite, library):
    """The library of `rust/install` as it makes it by itself, and the two others."""
    if not suite.has(['cargo', 'gcc', 'nm', 'as', 'ld', 'objcopy', 'ar'], 'the library without std'):
        return
    if not is_new_enough():
        suite.skip('the library without std', 'it needs rustc 1.%d or newer' % LEAST_WITHOUT_STD)
        return
    suite.run('the names that the library needs', check_needed, library)
    suite.run('the shared library, and glibc', check_glibc, library)
    libraries = {'for speed': library, '--lean': test_lean(suite, library), '--std': test_std(suite, library)}
    suite.run("the sizes on bindings' page", check_sizes, libraries)
