"""What an installation of the library has beside the library itself: the headers, the file of pkg-config, and the CMake
package. bindings/build and rust/install write the same.
"""
import os
import re
import shutil

HERE = os.path.dirname(os.path.abspath(__file__))
VERSION = '0.7.0'
# What find_package takes for another version: those that begin so.
SERIES = '0.7'
# GUILLOTIERE_INTERFACE, which is in the name of the shared library.
INTERFACE = 3
# What pkg-config says of a library that the kit proved and built, and of one that cargo built.
HOW = {True: ', proved and built by the Rattle kit', False: ' in plain Rust, from proved sources, and not proved itself'}
SONAME = 'libguillotiere.so.%d' % INTERFACE

PKG_CONFIG = """prefix=%(prefix)s
libdir=${prefix}/lib
includedir=${prefix}/include
proved=%(proved)s

Name: guillotiere
Description: An atlas allocator%(how)s
Version: %(version)s
Libs: -L"${libdir}" -lguillotiere
%(private)sCflags: -I"${includedir}"
"""


def place(prefix, *names):
    """A folder of the installation, made where it is absent."""
    folder = os.path.join(prefix, *names)
    os.makedirs(folder, exist_ok=True)
    return folder


def fill(template, folder, values):
    with open(os.path.join(HERE, 'c', template)) as file:
        text = file.read()
    for name, value in values.items():
        text = text.replace('@%s@' % name, value)
    with open(os.path.join(folder, template[:-len('.in')]), 'w') as file:
        file.write(text)


def exports():
    """The functions of the header."""
    with open(os.path.join(HERE, 'c', 'guillotiere.h')) as file:
        return re.findall(r'^(?:uint32_t |void |bool |const char \*)(guillotiere_\w+)\(', file.read(), re.M)


def hidden(names):
    """For the assembler: an object that makes these names hidden where it is merged with the one that has them. So a plugin that links
    the archive doesn't offer them as its own."""
    return ''.join('.hidden %s\n' % name for name in names) + '.section .note.GNU-stack,"",%progbits\n'


def install(prefix, is_proved, needs=(), shared='', imports='', pointer=8):
    """Installs all but the library.

    is_proved whether the kit proved and built the library
    needs     the words with which a program that links the static library links what that takes: '-lpthread'
    shared    where the shared library is below the prefix, if there is one
    imports   the same of its import library, under Windows
    pointer   the bytes of a pointer of the platform
    """
    for header in ('guillotiere.h', 'guillotiere.hpp'):
        shutil.copy(os.path.join(HERE, 'c', header), place(prefix, 'include'))
    private = 'Libs.private: %s\n' % ' '.join(needs) if needs else ''
    with open(os.path.join(place(prefix, 'lib', 'pkgconfig'), 'guillotiere.pc'), 'w') as file:
        file.write(PKG_CONFIG % {'prefix': prefix.replace(os.sep, '/'), 'version': VERSION, 'private': private,
                                 'proved': 'yes' if is_proved else 'no', 'how': HOW[is_proved]})
    values = {'VERSION': VERSION, 'SERIES': SERIES, 'NEEDS': ';'.join(needs), 'SHARED': shared, 'IMPORT': imports,
              'PROVED': 'TRUE' if is_proved else 'FALSE', 'SONAME': SONAME if '.so' in shared else '', 'POINTER': str(pointer)}
    for template in ('guillotiere-config.cmake.in', 'guillotiere-config-version.cmake.in'):
        fill(template, place(prefix, 'lib', 'cmake', 'guillotiere'), values)
