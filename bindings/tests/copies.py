"""Copies of a handle, which are a fault of the caller's: that what can notice it does."""
import os

from runner import Failure, call, outcome
from suite import SANITIZED, WARNINGS

OWNERS = {'atlas': 'atlas::make({8, 8})', 'simple_atlas': 'simple_atlas::make({8, 8})', 'cache': 'cache::make()'}


def ended(command):
    done = outcome(command)
    return done.returncode, done.stdout


def check_sanitized(library, compiler):
    """AddressSanitizer ends a program that frees both copies, and none that moved its handle."""
    program = library.compiled(compiler, 'tests/copied.c', SANITIZED)
    status, told = ended([program])
    if status == 0 or 'AddressSanitizer' not in told:
        raise Failure('freed twice: status %d, %s' % (status, told[-1000:]))
    call([program, 'moved'])


def check_watched(library):
    """valgrind tells the call of a copy whose allocator was freed, and that both were freed."""
    program = library.compiled('gcc', 'tests/copied.c', ['-O1', '-g'])
    for word in ('size', 'both', 'moved'):
        status, told = ended(['valgrind', '--quiet', '--error-exitcode=9', program, word])
        if (status == 0 and 'Invalid' not in told) != (word == 'moved'):
            raise Failure('%s: status %d, %s' % (word, status, told[-1000:]))


def check_owners(library, compiler):
    """No owner of C++ can be copied: the compiler refuses each line alone, and takes the same that moves."""
    source = os.path.join(library.folder, 'copied.cpp')
    for name, made in OWNERS.items():
        for way, is_taken in (('*one', False), ('std::move(*one)', True)):
            for line in ('{0} other({1}); (void)other.{2}();', '{0} other = {1}; (void)other.{2}();',
                         'auto two = {3}; *two = {1}; (void)two->{2}();'):
                with open(source, 'w') as file:
                    file.write('#include <guillotiere.hpp>\nusing namespace guillotiere;\nint main() {\n    auto one = %s;\n    %s\n}\n' % (
                        made, line.format(name, way, 'clear', made)))
                status, told = ended([compiler, '-std=c++17', '-fsyntax-only'] + WARNINGS
                                     + ['-I' + os.path.join(library.prefix, 'include'), source])
                if (status == 0) != is_taken or not is_taken and 'deleted' not in told:
                    raise Failure('%s of %s: %s' % (line, name, told[-1000:]))
