"""The folder c/ as its users have it: guillotiere.c by `cc` alone, and by CMake, pkg-config and Meson."""
import os
import re
import shutil
import sys
import tempfile

from runner import Failure, call, expect, outcome, require

HERE = os.path.dirname(os.path.abspath(__file__))
FOLDER = os.path.dirname(HERE)
ROOT = os.path.dirname(FOLDER)
HEADERS = os.path.join(ROOT, 'bindings', 'c')
ANSWER = '20 by 60 at 0, 0\n'
VIEWER = os.path.join(ROOT, 'examples', 'viewer', 'test')
# What the compiler calls by name, and nothing else is on the path.
TOOLS = ('as', 'ld', 'ld.lld', 'ld.bfd')
# What a program in an empty environment must not find.
OTHERS = ('python', 'python3', 'cargo', 'rustc', 'rt', 'cmake', 'make', 'bash', 'perl')


def copied(room, source, has_cpp=True):
    """The folder with a printed file in it, as an archive of a release has it."""
    place = tempfile.mkdtemp(dir=room)
    names = ['guillotiere.h', 'CMakeLists.txt', 'guillotiere.pc.in', 'meson.build', 'tests/program.c']
    for path in [source, *(os.path.join(FOLDER, name) for name in names)] + ([os.path.join(HEADERS, 'guillotiere.hpp')] if has_cpp else []):
        shutil.copy(path, place)
    return place


def check_alone(room, source, compiler='cc'):
    """Ten lines and the file, by a compiler in an empty environment: no Python, no Rust, no kit, and no command but those it calls."""
    place, bare = copied(room, source, False), tempfile.mkdtemp(dir=room)
    for name in (compiler, *TOOLS):
        path = shutil.which(name)
        if path:
            os.symlink(os.path.realpath(path), os.path.join(bare, name))
    empty = ['env', '-i', 'PATH=' + bare]
    for name in OTHERS:
        if outcome(empty + ['/bin/sh', '-c', 'command -v ' + name]).returncode == 0:
            raise Failure('%s is on the path' % name)
    for name in os.listdir(place):
        if name not in ('guillotiere.c', 'guillotiere.h', 'program.c'):
            os.remove(os.path.join(place, name))
    call(empty + [os.path.join(bare, compiler), '-c', 'guillotiere.c'], cwd=place)
    call(empty + [os.path.join(bare, compiler), '-o', 'program', 'program.c', 'guillotiere.o'], cwd=place)
    expect(call(empty + ['./program'], cwd=place), ANSWER, 'the answer')
    lines = sum(1 for _ in open(os.path.join(place, 'program.c')))
    if lines > 10:
        raise Failure('the program has %d lines' % lines)


def check_readme(room, source):
    """README.md's program in C++, by the lines below it, which compile it for speed."""
    place = tempfile.mkdtemp(dir=room)
    with open(os.path.join(ROOT, 'README.md')) as page:
        section = re.search(r'^\*\*C and C\+\+\.\*\*(.*?)^\*\*', page.read(), re.M | re.S)[1]
    program, lines = re.search(r'^```cpp\n(.*?)^```\n\n((?:    [^\n]+\n)+)', section, re.M | re.S).groups()
    with open(os.path.join(place, 'program.cpp'), 'w') as file:
        file.write(program)
    for line in lines.splitlines():
        line = line.replace(' -O2 ', ' -O0 ').replace('CLONE/c/guillotiere.c', source).replace('CLONE', ROOT)
        call(['sh', '-c', line], cwd=place)
    expect(call([os.path.join(place, 'program')])[:5], 'box 3', 'the beginning of the answer')


def program_of(room, text):
    """A folder with the program, and lines for CMake."""
    place = tempfile.mkdtemp(dir=room)
    shutil.copy(os.path.join(HERE, 'program.c'), place)
    with open(os.path.join(place, 'CMakeLists.txt'), 'w') as lines:
        lines.write('cmake_minimum_required(VERSION 3.13)\nproject(program LANGUAGES C)\n' + text)
    return place


def compiled(place, *words):
    """A build by CMake. What is compiled for speed is compiled at -O0, which takes a fifth of the time."""
    call(['cmake', '-B', 'built', '-DCMAKE_C_FLAGS_RELEASE=-O0', *words, '.'], cwd=place)
    call(['cmake', '--build', 'built'], cwd=place)


def check_speed(place):
    """The file was compiled for speed, though nothing was said of that."""
    page = next(os.path.join(folder, 'flags.make') for folder, _, names in os.walk(place)
                if os.path.basename(folder) == 'guillotiere.dir' and 'flags.make' in names)
    with open(page) as file:
        told = file.read()
    if not re.search(r'^C_FLAGS =.*-O0\b', told, re.M):
        raise Failure('it was compiled otherwise: ' + told)


def built(place, *words):
    compiled(place, *words)
    expect(call([os.path.join(place, 'built', 'program')]), ANSWER, 'the answer')


def check_subdirectory(room, source):
    """As a part of a build by CMake."""
    place = program_of(room, 'add_subdirectory(guillotiere)\nadd_executable(program program.c)\n'
                             'target_link_libraries(program guillotiere::guillotiere)\n')
    shutil.copytree(copied(room, source), os.path.join(place, 'guillotiere'))
    built(place)
    check_speed(place)


def check_installed(room, source, *words):
    """Installed by CMake, then moved, and found by find_package and by pkg-config."""
    place, prefix = copied(room, source), os.path.join(tempfile.mkdtemp(dir=room), 'a prefix')
    compiled(place, *words)
    check_speed(place)
    call(['cmake', '--install', 'built', '--prefix', prefix + ' before'], cwd=place)
    os.rename(prefix + ' before', prefix)
    built(program_of(room, 'find_package(guillotiere 0.7 REQUIRED)\nadd_executable(program program.c)\n'
                           'target_link_libraries(program guillotiere::guillotiere)\n'), '-DCMAKE_PREFIX_PATH=' + prefix)
    if shutil.which('pkg-config') is None:
        return
    pages = next(folder for folder, _, names in os.walk(prefix) if 'guillotiere.pc' in names)
    environment = dict(os.environ, PKG_CONFIG_LIBDIR=pages, PKG_CONFIG_PATH='', LD_LIBRARY_PATH=os.path.dirname(pages))
    call(['sh', '-c', 'eval cc -o program program.c "$(pkg-config --cflags --libs guillotiere)"'], cwd=place, env=environment)
    expect(call([os.path.join(place, 'program')], env=environment), ANSWER, 'the answer')


def check_viewer(file):
    """examples/viewer over what CMake installs: each frame beside one that is drawn without a cache."""
    place, prefix = copied(file.folder, file.source), os.path.join(file.folder, 'installed')
    call(['cmake', '-B', 'built', '-DCMAKE_INSTALL_LIBDIR=lib', '.'], cwd=place)
    call(['cmake', '--build', 'built'], cwd=place)
    call(['cmake', '--install', 'built', '--prefix', prefix], cwd=place)
    call([VIEWER, '--prefix', prefix])


def test_viewer(suite, file):
    """It says by itself what of its libraries isn't there."""
    if not suite.has(['cmake', 'cc', 'g++', 'pkg-config'], 'the viewer'):
        return
    lacks = call([VIEWER, '--lacks']).strip()
    if lacks:
        suite.skip('the viewer', 'there is no ' + lacks)
    else:
        suite.run('examples/viewer over the file, each frame beside one without a cache', check_viewer, file)


def check_meson(room, source):
    """The lines of the page for Meson: a wrap that names the archive."""
    require('meson', 'ninja')
    place = tempfile.mkdtemp(dir=room)
    shutil.copy(os.path.join(HERE, 'program.c'), place)
    with open(os.path.join(FOLDER, 'README.md')) as page:
        wrap = re.search(r'^```ini\n(.*?)^```$', page.read(), re.M | re.S)[1]
    root = re.search(r'^directory = (.*)$', wrap, re.M)[1]
    os.makedirs(os.path.join(place, 'subprojects', 'packagefiles'))
    folder = copied(room, source)
    archive = os.path.join(place, 'subprojects', 'packagefiles', re.search(r'^source_filename = (.*)$', wrap, re.M)[1])
    call(['tar', 'czf', archive, '--transform', 's,^[.],%s,' % root, '.'], cwd=folder)
    wrap = wrap.replace('SUM', call(['sha256sum', archive]).split()[0])
    with open(os.path.join(place, 'subprojects', 'guillotiere.wrap'), 'w') as file:
        file.write(wrap)
    with open(os.path.join(place, 'meson.build'), 'w') as file:
        file.write("project('program', 'c')\nexecutable('program', 'program.c', dependencies: dependency('guillotiere'))\n")
    call(['meson', 'setup', '-Doptimization=0', 'built'], cwd=place)
    call(['meson', 'compile', '-C', 'built'], cwd=place)
    expect(call([os.path.join(place, 'built', 'program')]), ANSWER, 'the answer')


def test_alone(suite, room, source):
    for compiler in ('cc', 'clang'):
        what = 'a program of ten lines by %s alone, in an empty environment' % compiler
        if suite.has([compiler], what):
            suite.run(what, check_alone, room, source, compiler)
    if suite.has(['cc', 'c++'], "README.md's program in C++"):
        suite.run("README.md's program in C++, by the lines below it", check_readme, room, source)
    if suite.has(['cmake', 'cc'], 'a program by CMake'):
        suite.run('a program by CMake, with the folder in it', check_subdirectory, room, source)
        suite.run('a program by CMake and by pkg-config, over what was installed', check_installed, room, source)
        suite.run('the same of a shared library', check_installed, room, source, '-DBUILD_SHARED_LIBS=ON')
    if suite.has(['meson', 'ninja', 'cc'], "a program by Meson's wrap"):
        suite.run("a program by Meson's wrap", check_meson, room, source)
