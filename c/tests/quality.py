"""guillotiere.c under other tools: ThreadSanitizer, MemorySanitizer, the front end of clang for MSVC, valgrind and Clang's analyzer, which
take long, and as a module of WebAssembly.
"""
import os
import re

import suite as linked
from copies import check_watched
from runner import Absent, Failure, call, expect, outcome

HERE = os.path.dirname(os.path.abspath(__file__))
ROOT = os.path.dirname(os.path.dirname(HERE))
HEADERS, BARE = os.path.join(ROOT, 'bindings', 'c'), os.path.join(HERE, 'bare')
THREADS = ['-O1', '-g', '-fsanitize=thread', '-pthread']
WATCHED = ['valgrind', '--quiet', '--leak-check=full', '--error-exitcode=9']


def check_threads(file, compiler):
    """Two threads that make the same call of the same handles, which only reads them."""
    linked.run_program(file, compiler, 'tests/readonly.c', THREADS, ['threads', '300'])


def check_undefined_reads(file):
    """MemorySanitizer of clang: nothing decides by what was never written."""
    flags = ['-O1', '-g', '-fsanitize=memory', '-fno-sanitize-recover=all']
    linked.run_program(file, 'clang', 'tests/digest.c', flags, [str(linked.CALLS // 20)])


def check_analyzed(file):
    """Clang's analyzer has nothing to say. (GCC's has no end on a file of this size: an hour, and 6 GB.)"""
    told = outcome(['clang', '--analyze', '--analyzer-output', 'text', '-std=c99', '-O0', '-I' + HEADERS, '-o', os.devnull, file.source])
    expect(told.returncode, 0, 'the status')
    found = re.findall(r'warning: .*', told.stdout)
    if found:
        raise Failure('%d reports: %s' % (len(found), '\n'.join(found[:5])))


def check_msvc(file, words):
    """The front end of clang takes it as it takes what is written for MSVC, without a warning of what GCC alone has."""
    strict = ['-pedantic', '-Wall', '-Wextra', '-Wconversion', '-Wvla', '-Wgnu', '-Wlanguage-extension-token', '-Werror']
    for target in ('x86_64-pc-windows-msvc', 'i686-pc-windows-msvc'):
        call(['clang', '--target=' + target, '-ffreestanding', *words, '-fsyntax-only', *strict, '-U__GNUC__', '-I' + HEADERS,
              '-isystem', BARE, file.source])
    with open(file.source) as text:
        plain = re.sub(r'/\*.*?\*/', '', text.read(), flags=re.S)
    guarded = re.sub(r'^#(?:if|elif) defined\(__(?:GNUC|clang)__\).*?^#(?:else|endif)', '', plain, flags=re.M | re.S)
    found = re.findall(r'__attribute__|__builtin_\w+|\(\{|__typeof__|\btypeof\b', guarded)
    if found:
        raise Failure('without a guard: %s' % sorted(set(found)))


def check_wasm(file, native):
    """Pointers of 32 bits: random calls in Node, as a module that clang makes without a C library."""
    module = os.path.join(file.folder, 'digest.wasm')
    if 'wasm32' not in call(['clang', '--print-targets']):
        raise Absent('this clang has no target wasm32')
    call(['clang', '--target=wasm32-unknown-unknown', '-std=c11', '-Os', '-ffreestanding', '-nostdlib', '-DDIGEST_BARE', '-I' + HEADERS,
          '-isystem', BARE, '-Wl,--no-entry', '-Wl,--export=digest_start', '-Wl,--export=digest_calls', '-o', module,
          os.path.join(linked.BINDINGS, 'tests', 'digest.c'), os.path.join(BARE, 'memory.c'), file.source])
    calls = str(linked.CALLS // 10)
    told = call(['node', os.path.join(ROOT, 'rust', 'wasm', 'digest.mjs'), module, calls])
    expect(told, linked.run_program(native, 'gcc', 'tests/digest.c', ['-O2'], [calls]), 'the digest')


def test_quality(suite, file, compilers):
    for compiler in compilers:
        what = 'two threads that read, by %s under ThreadSanitizer' % compiler
        if suite.has([compiler], what):
            suite.run(what, check_threads, file, compiler)
    if suite.has(['clang'], 'random calls under MemorySanitizer'):
        suite.run('random calls under MemorySanitizer', check_undefined_reads, file)
    if suite.has(['clang'], "the subset of MSVC, by clang's front end"):
        suite.run("the subset of MSVC in C, by clang's front end", check_msvc, file, ['-std=c99'])
        suite.run("the subset of MSVC in C++, by clang's front end", check_msvc, file, ['-std=c++17', '-x', 'c++'])


def test_watched(suite, file):
    if not suite.has(['gcc', 'valgrind'], 'programs under valgrind'):
        return
    for source in ('c/examples/glyph_cache.c', 'tests/cache.c', 'tests/hostile.c', 'tests/paged.c', 'tests/session.c', 'tests/sheet.c'):
        suite.run(source + ', under valgrind', linked.run_program, file, 'gcc', source, ['-O1', '-g'], [], WATCHED)
    suite.run('a handle that is copied, under valgrind', check_watched, file)
    suite.run('two threads that read, under helgrind', linked.run_program, file, 'gcc', 'tests/readonly.c', ['-O1', '-g', '-pthread'],
              ['threads', '100'], ['valgrind', '--quiet', '--tool=helgrind', '--error-exitcode=9'])


def test_analyzed(suite, file):
    if suite.has(['clang'], "Clang's analyzer"):
        suite.run("Clang's analyzer", check_analyzed, file)
