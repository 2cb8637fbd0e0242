"""Strangers' programs: over the installed library by pkg-config and by CMake, and with the repository as a part of their own build. And how
the library is got: by which cargo, by cargo alone, and with which number of the interface.
"""
import os
import re
import shutil
import sys
import tempfile

import cargo_here
import package
from runner import Failure, call, module_of, read, write
from suite import BINDINGS as HERE
from suite import ROOT, Library
from without_std import is_new_enough


def use_readme(library):
    """The program of the repository's README.md, by the lines of CMake that README.md here has for it."""
    here = tempfile.mkdtemp(dir=library.folder)
    for folder, pattern, name in ((ROOT, r'```cpp\n(.*?)```', 'program.cpp'),
                                  (HERE, r'Its `CMakeLists.txt`:\n\n((?:    .*\n)+)', 'CMakeLists.txt')):
        with open(os.path.join(folder, 'README.md')) as page, open(os.path.join(here, name), 'w') as file:
            file.write(re.search(pattern, page.read(), re.S if name == 'program.cpp' else 0)[1])
    call(['cmake', '-B', 'build', '-DCMAKE_PREFIX_PATH=' + library.prefix], cwd=here)
    call(['cmake', '--build', 'build'], cwd=here)
    told = call([os.path.join(here, 'build', 'program')])
    if told != 'box 3 at 0, 0\n':
        raise Failure('the program says: ' + told)


def use_pkg_config(library):
    """A stranger's program, by the line of bindings/README.md; and that the package says how the library was made."""
    lib = os.path.join(library.prefix, 'lib')
    environment = dict(os.environ, PKG_CONFIG_PATH=os.path.join(lib, 'pkgconfig'), LD_LIBRARY_PATH=lib)
    source = os.path.join(HERE, 'c', 'examples', 'glyph_cache.c')
    call(['sh', '-c', 'gcc -o program %s $(pkg-config --cflags --libs guillotiere) && ./program' % source],
         cwd=library.folder, env=environment)
    told = call(['pkg-config', '--variable=proved', 'guillotiere'], env=environment)
    if told != ('no\n' if library.is_plain else 'yes\n'):
        raise Failure('pkg-config says of proved: ' + told)


def use_cmake(library, number, target):
    """The same by the lines of CMake in bindings/README.md: by find_package, and by pkg-config."""
    here = tempfile.mkdtemp(dir=library.folder)
    shutil.copy(os.path.join(HERE, 'c', 'examples', 'sheet.cpp'), here)
    lines = re.findall(r'```cmake\n(.*?)```', read(os.path.join(HERE, 'README.md')), re.S)[number]
    with open(os.path.join(here, 'CMakeLists.txt'), 'w') as file:
        file.write('cmake_minimum_required(VERSION 3.13)\nproject(stranger CXX)\nadd_executable(sheet sheet.cpp)\n'
                   + lines.replace('guillotiere::guillotiere', target))
        if target:
            file.write('if(NOT "${guillotiere_PROVED}" STREQUAL "%s")\n  message(FATAL_ERROR "guillotiere_PROVED")\nendif()\n'
                       % ('FALSE' if library.is_plain else 'TRUE'))
    environment = dict(os.environ, PKG_CONFIG_PATH=os.path.join(library.prefix, 'lib', 'pkgconfig'))
    build_folder = os.path.join(here, 'build')
    call(['cmake', '-S', here, '-B', build_folder, '-DCMAKE_PREFIX_PATH=' + library.prefix], env=environment)
    call(['cmake', '--build', build_folder], env=environment)
    call([os.path.join(build_folder, 'sheet')])


def use_sources(library, lines):
    """A stranger's program that has the repository as a part of its own build."""
    here = tempfile.mkdtemp(dir=library.folder)
    shutil.copy(os.path.join(HERE, 'c', 'examples', 'sheet.cpp'), here)
    with open(os.path.join(here, 'CMakeLists.txt'), 'w') as file:
        file.write('cmake_minimum_required(VERSION 3.14)\nproject(stranger C CXX)\nadd_executable(sheet sheet.cpp)\n' + lines
                   + 'target_link_libraries(sheet guillotiere::guillotiere)\ntarget_compile_features(sheet PRIVATE cxx_std_17)\n')
    build_folder = os.path.join(here, 'build')
    call(['cmake', '-S', here, '-B', build_folder])
    call(['cmake', '--build', build_folder])
    call([os.path.join(build_folder, 'sheet')])


def use_spaced_prefix(library):
    """The library where the name of a folder has a space, by pkg-config and by CMake."""
    spaced = Library(os.path.join(library.folder, 'in spaces'), library.is_plain)
    spaced.prefix = os.path.join(spaced.folder, 'pre fix')
    shutil.copytree(library.prefix, spaced.prefix, symlinks=True)
    package.install(spaced.prefix, not library.is_plain, shared='lib/libguillotiere.so.' + package.VERSION if library.is_plain else '')
    environment = dict(os.environ, PKG_CONFIG_PATH=os.path.join(spaced.prefix, 'lib', 'pkgconfig'),
                       LD_LIBRARY_PATH=os.path.join(spaced.prefix, 'lib'))
    source = os.path.join(HERE, 'c', 'examples', 'glyph_cache.c')
    call(['sh', '-c', 'eval gcc -o program %s "$(pkg-config --cflags --libs guillotiere)" && ./program' % source],
         cwd=spaced.folder, env=environment)
    if shutil.which('cmake') and shutil.which('c++'):
        use_cmake(spaced, 0, 'guillotiere::guillotiere')
        use_cmake(spaced, 1, '')


def script(folder, name, text):
    path = os.path.join(folder, name)
    write(path, '#!/bin/sh\n%s\n' % text)
    os.chmod(path, 0o755)


def use_second_cargo(library):
    """The first cargo on the path has a rustc without a library for the target: the second one builds."""
    here = tempfile.mkdtemp(dir=library.folder)
    script(here, 'cargo', 'exec %s "$@"' % cargo_here.cargo())
    script(here, 'rustc', 'echo "there is no library" >&2; exit 1')
    host = re.search(r'^host: (.*)$', call([cargo_here.cargo(), '-vV']), re.M)[1]
    environment = dict(os.environ, PATH=here + os.pathsep + os.environ['PATH'])
    call([sys.executable, library.installation[0], os.path.join(here, 'prefix'), '--target', host], env=environment)


def use_cargo_alone(library):
    """The lines of bindings/README.md for who has no Python, and a program over what they install."""
    here = tempfile.mkdtemp(dir=library.folder)
    for name in ('python', 'python3'):
        script(here, name, 'echo "there is a call of Python" >&2; exit 1')
    lines = re.search(r'\*\*By cargo alone\*\*[^:]*:\n\n((?:    .*\n)+)', read(os.path.join(HERE, 'README.md')))[1]
    environment = dict(os.environ, PATH=here + os.pathsep + os.environ['PATH'], CLONE=ROOT, PREFIX=os.path.join(here, 'prefix'))
    lines = re.sub(r'\b(CLONE|PREFIX)\b', r'$\1', lines.replace('program.c', os.path.join(HERE, 'c', 'examples', 'glyph_cache.c')))
    call(['sh', '-e', '-c', lines + '\n./program'], cwd=here, env=environment)


def use_sources_alone(library):
    """add_subdirectory where CMake finds no Python."""
    use_sources(library, 'set(CMAKE_DISABLE_FIND_PACKAGE_Python3 ON)\nadd_subdirectory("%s" guillotiere)\n' % HERE)


def check_interface(library):
    """What was in the interface may change or go only with its number; what is added leaves it. The shared library has it in its name."""
    asked = module_of(os.path.join(HERE, 'declarations'))
    kept = asked.read(asked.KEPT).splitlines()
    field = next(line for line in kept if line.startswith('struct guillotiere_size:'))
    status = next(line for line in kept if line.startswith('number GUILLOTIERE_SHORT '))
    number = next(line for line in kept if line.startswith('number GUILLOTIERE_INTERFACE '))
    version = next(line for line in kept if line.startswith('number GUILLOTIERE_VERSION_MINOR '))
    raised = 'number GUILLOTIERE_INTERFACE %d' % (package.INTERFACE + 1)
    for gone, added, count in (([], [], 0), ([], ['function void guillotiere_more()'], 0), ([field], [field + ', int32_t depth'], 1),
                               ([status], ['number GUILLOTIERE_SHORT 26'], 1), ([field, status], [], 2),
                               ([field, status, number], [raised], 0), ([version], ['number GUILLOTIERE_VERSION_MINOR 8'], 0)):
        told = asked.changes(kept, [line for line in kept if line not in gone] + added)
        if len(told) != count:
            raise Failure('without %s, with %s: %s' % (gone, added, told))
    if library.is_plain and not os.path.exists(os.path.join(library.prefix, 'lib', 'libguillotiere.so.%d' % package.INTERFACE)):
        raise Failure('the shared library has another number')


def test_installing(suite, library):
    if not suite.has(['cargo', 'gcc', 'as', 'ld', 'objcopy', 'ar'], 'other ways to the library'):
        return
    suite.run('the number of the interface', check_interface, library)
    suite.run('a cargo whose rustc has no library for the target', use_second_cargo, library)
    suite.run('by cargo alone', use_cargo_alone, library)
    if shutil.which('cmake') and shutil.which('c++'):
        suite.run('by cargo alone, in a build by CMake', use_sources_alone, library)


def test_strangers(suite, library):
    if suite.has(['gcc', 'pkg-config'], "a stranger's program by pkg-config"):
        suite.run("a stranger's program, by pkg-config", use_pkg_config, library)
        suite.run("a stranger's program, where a folder has a space", use_spaced_prefix, library)
    if suite.has(['cmake', 'c++'], "a stranger's program by CMake"):
        suite.run("a stranger's program, by find_package", use_cmake, library, 0, 'guillotiere::guillotiere')
        suite.run("README.md's program, by CMake", use_readme, library)
        if library.is_plain:
            suite.run("a stranger's program, by find_package, shared", use_cmake, library, 0, 'guillotiere::shared')
        if shutil.which('pkg-config'):
            suite.run("a stranger's program, by CMake and pkg-config", use_cmake, library, 1, '')
        if library.is_plain:
            lines = ('set(GUILLOTIERE_LEAN ON)\n' if is_new_enough() else '') + 'add_subdirectory("%s" guillotiere)\n' % HERE
            suite.run("a stranger's program, by add_subdirectory", use_sources, library, lines)
            suite.run("a stranger's program, by FetchContent", use_sources, library, 'include(FetchContent)\n'
                      'FetchContent_Declare(guillotiere SOURCE_DIR "%s" SOURCE_SUBDIR bindings)\n'
                      'FetchContent_MakeAvailable(guillotiere)\n' % ROOT)
    if library.is_plain:
        test_installing(suite, library)
