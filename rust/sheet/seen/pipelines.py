#!/usr/bin/env python3
"""What a build asks of guillotiere-sheet: that no picture vanishes in silence, that a reader never finds a picture of another set, that
nothing is done twice, and that what is left of earlier runs is named.

    rust/sheet/seen/pipelines.py PROGRAM

The last line is 'N passed, M failed'."""
import hashlib
import json
import os
import resource
import shutil
import subprocess
import sys
import tempfile
import time

sys.dont_write_bytecode = True
import common  # noqa: E402
from common import GOOD, PROGRAM, SUITE, USER, WHOLE, check, ended, outcome, put, wait_for, write, written  # noqa: E402
from common import grey as png  # noqa: E402

HERE = os.path.dirname(os.path.abspath(__file__))


def unreachable():
    """What a walk can't look at has a line each, and no set is written or called up to date: a folder that can be listed and not entered,
    for another user than root; a path beyond the system's limit; links in a loop that aren't called as pictures; a disk that fails. Not so
    a link to nothing, and what is hidden or excluded."""
    with tempfile.TemporaryDirectory() as room:
        put(room + '/in', {**GOOD, 'nothing': 'none'})
        os.chmod(room, 0o777)
        os.mkdir(room + '/out')
        program, library = shutil.copy(PROGRAM, room + '/program'), room + '/steps.so'
        os.chmod(room + '/out', 0o777)

        def told(what, lines, *more, **settings):
            for words in ([], ['--check']):
                done = ended([room + '/in', room + '/out/sheet', *words, *more], executable=program, **{**USER, **settings})
                good = (done.returncode, done.stdout, sorted(done.stderr.splitlines()), written(room + '/out')) == (
                    1, '', ['guillotiere-sheet: %s/in/%s' % (room, line) for line in lines], [])
                check(' '.join(['unreachable:', what, *words]), good, (done.returncode, done.stderr, written(room + '/out')))
        put(room + '/in', {'r/sub/b.png': WHOLE, 'to': 'r/sub'})
        os.chmod(room + '/in/r', 0o744)
        denied = 'Permission denied (os error 13)'
        told('a folder that is listed alone', ['r/sub: ' + denied, 'to: ' + denied])
        told('one that is excluded', ['to: ' + denied], '--exclude', 'sub')
        shutil.rmtree(room + '/in/r')
        os.remove(room + '/in/to')
        loops = ['%s: Too many levels of symbolic links (os error 40)' % name for name in 'cd']
        put(room + '/in', {'c': 'd', 'd': 'c', '.c': '.c', 'old': 'old'})
        told('links in a loop', loops, '--exclude', 'old')
        for name in ('c', 'd', 'old'):
            os.remove(room + '/in/' + name)
        put(room + '/in', {'r/b.png': WHOLE})
        if shutil.which('gcc') and sys.platform.startswith('linux'):
            source = os.path.join(HERE, 'steps.c')
            subprocess.run(['gcc', '-shared', '-fPIC', '-o', library, source, '-ldl'], check=True)
            for step in ('STEP_UNOPENED', 'STEP_UNREAD'):
                told('a disk that fails, ' + step, ['r: Input/output error (os error 5)'],
                     env=dict(os.environ, LD_PRELOAD=library, **{step: '/in/r'}))
        else:
            print('skipped disks that fail: there is no gcc')
        told('a path that is too long', [deep(room + '/in') + ': File name too long (os error 36)'])
        shutil.rmtree(room + '/in/' + 'x' * 250)
        done = ended([room + '/in', room + '/out/sheet'], executable=program, **USER)
        check('unreachable: a link to nothing', (done.returncode, done.stderr) == (0, ''), done.stderr)


def deep(folder):
    """Folders in one another, and a picture in the last. Gives the first one whose path the system doesn't take, by its place in the
    folder."""
    here, inside, name = os.getcwd(), '', 'x' * 250
    os.chdir(folder)
    while len(os.fsencode(folder)) + 1 + len(inside) < 4400:
        os.mkdir(name)
        os.chdir(name)
        inside += ('/' if inside else '') + name
    put('.', {'b.png': WHOLE})
    os.chdir(here)
    while len(os.fsencode(folder)) + 1 + len(inside) - 251 >= 4096:
        inside = inside[:-251]
    return inside


def sum_of(path):
    with open(path, 'rb') as file:
        return hashlib.sha256(file.read()).hexdigest()


def sums():
    """The records name the sums of their pictures, so that a reader can tell a picture of another set. The old .atlas has no place for
    it."""
    for form, ending in (('json-hash', 'json'), ('json-array', 'json'), ('phaser', 'json'), ('libgdx-new', 'atlas'), ('godot', 'tres'),
                         ('godot3', 'tres'), ('starling', 'xml'), ('css', 'css'), ('unity', 'json'), ('cocos', 'plist'),
                         ('cocos3', 'plist')):
        with tempfile.TemporaryDirectory() as room:
            put(room + '/in', {'%s.png' % letter: png(30, 30, ord(letter)) for letter in 'abcde'})
            done = ended([room + '/in', room + '/sheet', '--form', form, '--size', '64', '64', '--pages', '9'])
            text = ''.join(open(room + '/' + name).read() for name in written(room) if name.endswith('.' + ending))
            sums = [sum_of(room + '/sheet-%d.png' % number) for number in (0, 1)]
            check('sums: ' + form, done.returncode == 0 and all(text.count(each) == 1 for each in sums), (done.stderr, sums, text))


def by_content():
    """Pictures that are called by what they have: those of the set before stay until the run after the next, and then go, but where others
    need them; the record has one name. What isn't as it was written stays."""
    with tempfile.TemporaryDirectory() as room:
        os.mkdir(room + '/out')
        pictures = []

        def turn(value, *more, count=1):
            put(room + '/in', {'a.png': png(8, 8, value), 'b.png': png(9, 9, value)})
            done = ended([room + '/in', room + '/out/sheet', '--names', 'content', *more])
            found = [name for name in written(room + '/out') if name.endswith('.png')]
            assert done.returncode == 0 and all(name[-21:-4] == '.' + sum_of(room + '/out/' + name)[:16] for name in found), done.stderr
            with open(room + '/out/sheet.json') as file:
                pictures.append(json.load(file)['meta']['image'])
            told = done.stdout.split(':')[0]
            check('by content: %d' % value, (told, sorted(set(pictures[-count:]))) == (pictures[-1], sorted(found)), (pictures, found))
        turn(1)
        turn(2, count=2)
        # A run that changes nothing doesn't count.
        turn(2, count=3)
        turn(3, count=2)
        # One that comes again is of the set that is there.
        turn(2, count=2)
        # Another form needs it.
        done = ended([room + '/in', room + '/out/sheet', '--names', 'content', '--form', 'libgdx'])
        check('by content: another form', done.returncode == 0 and done.stderr == '', done.stderr)
        turn(4, count=2)
        turn(5, count=3)
    with tempfile.TemporaryDirectory() as room:
        for value in (1, 2, 3, 4):
            put(room + '/in', {'%s.png' % letter: png(30, 30, value * ord(letter) % 256) for letter in 'abcde'})
            done = ended([room + '/in', room + '/sheet', '--names', 'content', '--size', '64', '64', '--pages', '9', '--scale', '1,0.5'])
        names = written(room)
        check('by content: pages and scales', done.returncode == 0 and len([name for name in names if name.endswith('.png')]) == 6 + 5
              and {'sheet-0.json', 'sheet-0@0.5x.json'} < set(names), names)


# Reads the record and what it names again and again until a file comes, and prints how often it did, how often a file wasn't there, and how
# often one was of another set.
READER = """
import hashlib, json, os, sys
record, end = sys.argv[1:]
reads = absent = wrong = 0
while not os.path.exists(end):
    reads += 1
    try:
        waiting = [record]
        while waiting:
            with open(waiting.pop(), 'rb') as file:
                meta = json.loads(file.read())['meta']
            with open(os.path.join(os.path.dirname(record), meta['image']), 'rb') as file:
                wrong += hashlib.sha256(file.read()).hexdigest() != meta['sha256']
            waiting += [os.path.join(os.path.dirname(record), name) for name in meta.get('related_multi_packs', [])]
    except OSError:
        absent += 1
print(reads, absent, wrong)
"""


def beside_a_reader():
    """A thousand runs on two folders in turn, beside a reader: it always finds the record, and the pictures that belong to it."""
    with tempfile.TemporaryDirectory() as room:
        for value in (0, 1):
            put(room + '/%d' % value, {'%s.png' % letter: png(6, 6, ord(letter) + value) for letter in 'abcde'})
        words = [room + '/sheet', '--names', 'content', '--size', '16', '16', '--pages', '9']
        first = ended([room + '/0', *words])
        assert first.returncode == 0, first.stderr
        reader = common.begun([sys.executable, '-c', READER, room + '/sheet-0.json', room + '/end'], stdout=subprocess.PIPE, text=True)
        for number in range(1, 1001):
            done = ended([room + '/%d' % (number % 2), *words])
            assert (done.returncode, len(done.stdout.splitlines())) == (0, 2), done.stderr
        put(room, {'end': b''})
        reads, absent, wrong = map(int, reader.communicate(timeout=60)[0].split())
        check('beside a reader', reads > 1000 and (absent, wrong) == (0, 0), (reads, absent, wrong))
        print('beside a reader: %d reads' % reads)


class Runs:
    """Runs on one folder, of which each tells what it did."""

    def __init__(self, room, *more):
        self.room, self.words = room, [room + '/in', room + '/out/sheet', *more]
        os.mkdir(room + '/out')
        put(room + '/in', GOOD)

    def stamps(self):
        found = {name: os.stat(self.room + '/out/' + name) for name in written(self.room + '/out')}
        return {name: (file.st_ino, file.st_mtime_ns) for name, file in found.items()}

    def expect(self, what, is_changed, *more, status=0):
        """Whether a file is written, and the status."""
        before = self.stamps()
        done = ended([*self.words, *more])
        check('once: ' + what, (done.returncode, self.stamps() != before) == (status, is_changed), (done.returncode, done.stderr))
        return done


def seconds(words):
    """What a run takes of a processor."""
    before = resource.getrusage(resource.RUSAGE_CHILDREN)
    done = ended(words)
    after = resource.getrusage(resource.RUSAGE_CHILDREN)
    assert done.returncode == 0, done.stderr
    return after.ru_utime + after.ru_stime - before.ru_utime - before.ru_stime


def once():
    """What hasn't changed isn't done again, and what has is, by whatever it shows."""
    with tempfile.TemporaryDirectory() as room:
        runs = Runs(room)
        first = runs.expect('first', True)
        again = runs.expect('unchanged', False)
        check('once: the same lines', (first.stdout, first.stderr) == (again.stdout, again.stderr), again.stdout)
        os.utime(room + '/in/a.png')
        put(room + '/in', {'x.txt': b'x'})
        runs.expect('touched', False)
        old = os.stat(room + '/in/a.png')
        put(room + '/in', {'a.png': png(8, 8, 9)})
        os.utime(room + '/in/a.png', ns=(old.st_atime_ns, old.st_mtime_ns))
        assert os.stat(room + '/in/a.png').st_size == old.st_size
        runs.expect('as long and as old', True)
        runs.expect('unchanged again', False)
        for name in ('sheet.png', 'sheet.json'):
            os.remove(room + '/out/' + name)
            runs.expect('removed: ' + name, True)
            old = os.stat(room + '/out/' + name)
            with open(room + '/out/' + name, 'r+b') as file:
                file.write(b'x')
            os.utime(room + '/out/' + name, ns=(old.st_atime_ns, old.st_mtime_ns))
            runs.expect('up to date? ' + name, False, '--check', status=5)
            runs.expect('written over: ' + name, True)
        put(room + '/in', {'anchors.txt': b'a.png 1 1\n'})
        runs.expect('anchors', True)
        put(room + '/in', {'c.png': png(3, 3)})
        runs.expect('one more', True)
        os.remove(room + '/in/c.png')
        runs.expect('one less', True)
        runs.expect('another word', True, '--padding', '9')
        write(room + '/out/.sheet.json-hash.stamp', '{"made": 5')
        runs.expect('a bad stamp', True)
        runs.expect('up to date', False, '--check')
    with tempfile.TemporaryDirectory() as room:
        runs = Runs(room, '--size', '12', '12', '--leave-out')
        told = [runs.expect('left out', is_first, status=4).stderr for is_first in (True, False)]
        check('once: left out is told each time', told[0] == told[1] and 'left out of sheet: ' in told[0], told)


def many_names():
    """An unchanged folder takes less than a fifth of the first run, and a file to which several names lead counts once."""
    with tempfile.TemporaryDirectory() as room:
        for number in range(60):
            put(room + '/in', {'%d.png' % number: common.png(200, 200, 8, 6, [os.urandom(800) for _ in range(200)])})
            put(room + '/in', {'%d/%d.png' % (place, number): '../%d.png' % number for place in range(4)})
        words = [room + '/in', room + '/sheet']
        first, again = seconds(words), min(seconds(words) for _ in range(4))
        check('many names: again', 5 * again < first, (first, again))
        print('many names: %.3f and %.3f seconds' % (first, again))
    with tempfile.TemporaryDirectory() as room:
        put(room + '/in', {'a.png': png(512, 512), **{'%s.png' % name: 'a.png' for name in 'bcd'}})
        done = ended([room + '/in', room + '/sheet', '--memory', '3M'])
        check('many names: one file', done.returncode == 0 and done.stdout.endswith(' 4 sprites\n'), done.stderr)


def unwritable():
    """Where nothing has changed, the folder of the files needn't be one that can be written to."""
    with tempfile.TemporaryDirectory() as room:
        put(room + '/in', GOOD)
        os.mkdir(room + '/out')
        os.chmod(room, 0o777)
        program = shutil.copy(PROGRAM, room + '/program')
        words = [room + '/in', room + '/out/sheet']
        first = ended(words, executable=program)
        os.chmod(room + '/out', 0o555)
        again = ended(words, executable=program, **USER)
        check('unwritable: unchanged', (again.returncode, again.stdout, again.stderr) == (0, first.stdout, ''), again.stderr)
        os.utime(room + '/in/a.png')
        again = ended(words, executable=program, **USER)
        check('unwritable: touched', (again.returncode, again.stdout, again.stderr) == (0, first.stdout, ''), again.stderr)
        put(room + '/in', {'a.png': png(4, 4)})
        changed = ended(words, executable=program, **USER)
        os.chmod(room + '/out', 0o777)
        check('unwritable: changed', changed.returncode == 1 and "it can't be written there" in changed.stderr, changed.stderr)


def watched_files():
    """What --watch wrote is written again where it is taken away, also with its folder."""
    with tempfile.TemporaryDirectory() as room:
        put(room + '/in', GOOD)
        os.mkdir(room + '/out')
        words = [PROGRAM, room + '/in', room + '/out/sheet', '--watch']
        running = common.begun(words, stdout=subprocess.DEVNULL, stderr=subprocess.DEVNULL)

        def is_whole():
            return all(os.path.exists(room + '/out/' + name) for name in ('sheet.json', 'sheet.png'))
        check('watched files: first', wait_for(is_whole))
        for name in ('sheet.json', 'sheet.png'):
            time.sleep(0.5)
            os.remove(room + '/out/' + name)
            check('watched files: ' + name, wait_for(is_whole))
        for _ in range(2):
            time.sleep(0.5)
            shutil.rmtree(room + '/out')
            time.sleep(1)
            os.mkdir(room + '/out')
            check('watched files: the folder', wait_for(is_whole))
        running.terminate()
        check('watched files: ended', running.wait(timeout=20) == 130)


def left_over():
    """Files of earlier runs of the same form that a run doesn't write are named, --check says 5 of them, and --clean removes them, if they
    are as they were written."""
    with tempfile.TemporaryDirectory() as room:
        put(room + '/in', {'%s.png' % letter: png(30, 30, ord(letter)) for letter in 'abcdefghi'})
        put(room + '/out', {'sheet-9.json': b'mine', 'other.png': b'mine'})
        mine = ['other.png', 'sheet-9.json']

        def turn(what, status, lines, names, *more):
            done = ended([room + '/in', room + '/out/sheet', *more])
            line = "guillotiere-sheet: %s/out/%%s: it is of an earlier run and isn't written any more; --clean removes it" % room
            told = [line % name for name in lines]
            check('left over: ' + what, (done.returncode, sorted(done.stderr.splitlines()), written(room + '/out'))
                  == (status, told, sorted(mine + names)), (done.returncode, done.stderr, written(room + '/out')))
        three = ['sheet-%d.%s' % (number, ending) for number in (0, 1, 2) for ending in ('json', 'png')]
        turn('three', 0, [], three, '--size', '64', '64', '--pages', '9')
        both = ['--size', '128', '128', '--pages', '9']
        turn('fewer', 0, three[2:], three, *both)
        turn('unchanged', 0, three[2:], three, *both)
        turn('checked', 5, three[2:], three, *both, '--check')
        with open(room + '/out/sheet-2.json', 'a') as file:
            file.write('mine')
        turn('changed by hand', 0, three[2:4] + three[5:], three, *both)
        turn('cleaned', 0, [], three[:2] + ['sheet-2.json'], *both, '--clean')
        turn('checked again', 0, [], three[:2] + ['sheet-2.json'], *both, '--check')
        turn('without numbers', 0, three[:2], three[:2] + ['sheet-2.json', 'sheet.json', 'sheet.png'])
        # Another form has these.
        done = ended([room + '/in', room + '/out/sheet', *both, '--form', 'libgdx'])
        check('left over: another form', (done.returncode, done.stderr) == (0, ''), done.stderr)
        turn('of another form', 0, three[:1], three[:2] + ['sheet-2.json', 'sheet.atlas', 'sheet.json', 'sheet.png'])
        # What a stamp says of files elsewhere, or of others here, counts for nothing.
        put(room, {'sheet-mine.png': b'mine'})
        stamp = room + '/out/.sheet.json-hash.stamp'
        with open(stamp) as file:
            told = json.load(file)
        elsewhere = ['../sheet-mine.png', 'other.png', room + '/sheet-mine.png']
        more = [{'name': name, 'sum': hashlib.sha256(b'mine').hexdigest()} for name in elsewhere]
        with open(stamp, 'w') as file:
            json.dump({**told, 'left': told['left'] + more}, file)
        turn('not of another form', 0, [], three[1:2] + ['sheet-2.json', 'sheet.atlas', 'sheet.json', 'sheet.png'], '--clean')
        check('left over: elsewhere', os.path.exists(room + '/sheet-mine.png'), written(room))


MAKEFILE = """out/sheet.json:
\t"$(PROGRAM)" in out/sheet --depfile dep
-include dep
"""
NINJA = """rule sheet
  command = "%s" in out/sheet --depfile dep
  depfile = dep
build out/sheet.json: sheet
"""


def built():
    """make and ninja run it where a picture is changed, comes or goes, and else don't."""
    for tool, name, text in (('make', 'Makefile', MAKEFILE), ('ninja', 'build.ninja', NINJA % PROGRAM)):
        if shutil.which(tool) is None:
            SUITE.skip('built by ' + tool, 'there is no ' + tool)
            continue
        with tempfile.TemporaryDirectory() as room:
            put(room + '/in', {**GOOD, 'a b.png': WHOLE, '#1 $x.png': WHOLE, 'deep/er/c.png': WHOLE})
            put(room, {name: text.encode()})
            os.mkdir(room + '/out')

            def is_run(what, *wanted):
                for number, is_wanted in enumerate(wanted):
                    done = outcome([tool], cwd=room, env=dict(os.environ, PROGRAM=PROGRAM))
                    has_run = 'out/sheet --depfile' in done.stdout or '[1/1]' in done.stdout
                    check('built by %s: %s, %d' % (tool, what, number), (done.returncode, has_run) == (0, is_wanted), done.stdout)
            is_run('first', True, False)
            time.sleep(0.02)
            put(room + '/in', {'#1 $x.png': png(7, 7)})
            is_run('changed', True, False)
            os.utime(room + '/in/a b.png')
            is_run('touched', True, False)
            time.sleep(0.02)
            put(room + '/in', {'deep/er/d.png': WHOLE})
            is_run('one more', True, False)
            os.remove(room + '/in/a b.png')
            is_run('one less', True, False)
            shutil.rmtree(room + '/in/deep')
            is_run('a folder less', True, False)
            put(room + '/in', {'anchors.txt': b'a.png 1 1\n'})
            is_run('anchors', True, False)


for each in (unreachable, sums, by_content, once, many_names, unwritable, watched_files, left_over, built, beside_a_reader):
    each()
sys.exit(SUITE.end())
