#!/usr/bin/env python3
"""Gives guillotiere-sheet bad words, bad files, too little room and devices that fail: each has its one line and its status, and no
file is left.

    rust/sheet/seen/faults.py PROGRAM

The last line is 'N passed, M failed'."""
import os
import re
import resource
import shutil
import signal
import subprocess
import sys
import tempfile
import time

sys.dont_write_bytecode = True
from common import GOOD, PROGRAM, ROOT, SUITE, USER, WHOLE, check, chunk, ended, outcome, put, read, wait_for, written  # noqa: E402
from common import grey as png  # noqa: E402

# The head of a JPEG of 65535 by 65535.
GREAT_JPEG = b'\xff\xd8\xff\xc0\0\x11\x08' + b'\xff' * 4 + b'\3\1\x11\0\2\x11\0\3\x11\0'
# A WebP of one pixel, on a canvas of 65536 by 65535.
GREAT_WEBP = (b'RIFF\x2c\0\0\0WEBPVP8X\x0a\0\0\0' + bytes(4) + b'\xff\xff\0\xfe\xff\0'
              + b'VP8L\x0d\0\0\0\x2f\0\0\0\x10\7\x10\x11\x11\x88\x88\xfe\7\0')
NOT_THERE = r'No such file or directory \(os error 2\)'
CASES = [
    # What, files, words (F is the folder, O the sheet), status, lines.
    ('no words', GOOD, [], 2, [r'FOLDER and OUT are required; see --help']),
    ('one word', GOOD, ['F'], 2, [r'FOLDER and OUT are required; see --help']),
    ('three words', GOOD, ['F', 'O', 'x'], 2, [r".*'x'.*"]),
    ('unknown', GOOD, ['F', 'O', '--forms', 'css'], 2, [r".*'--forms'.*; did you mean --form\?"]),
    ('unlike all', GOOD, ['F', 'O', '--qqq'], 2, [r"(?!.*did you mean).*'--qqq'.*"]),
    ('form', GOOD, ['F', 'O', '--form', 'spine'], 2, [r".*'spine'.*"]),
    ('hidden form', GOOD, ['F', 'O', '--form', 'template'], 2, [r".*'template'.*"]),
    ('forms', GOOD, ['F', 'O', '--form', 'libgdk'], 2, [r".*'libgdk'.*; did you mean libgdx\?"]),
    ('padding', GOOD, ['F', 'O', '--padding', '65536'], 2, [r'.*65536.*']),
    ('extrude', GOOD, ['F', 'O', '--extrude', 'x'], 2, [r".*'x'.*"]),
    ('scale', GOOD, ['F', 'O', '--scale', '2'], 2, [r'.*above 0 and up to 1.*']),
    ('scales', GOOD, ['F', 'O', '--scale', '0.5,0.50'], 2, [r'the scale 0\.5 is asked for twice']),
    ('pages', GOOD, ['F', 'O', '--pages', '0'], 2, [r".*'0'.*"]),
    ('size', GOOD, ['F', 'O', '--size', '64'], 2, [r'.*--size.*']),
    ('side', GOOD, ['F', 'O', '--size', '64', '0'], 2, [r'a side of --size, --width or --align is below 1']),
    ('great side', GOOD, ['F', 'O', '--size', '64', '70000'], 2, [r'a side of a sheet is above 65536']),
    ('kinds', GOOD, ['F', 'O', '--square', '--power-of-two'], 2, [r'.*cannot be used with.*']),
    ('greatest', GOOD, ['F', 'O', '--greatest', '0'], 2, [r'--least is below 1, or --greatest below it']),
    ('page', GOOD, ['F', 'O', '--page'], 2, [r'--page needs --form css']),
    ('turn', GOOD, ['F', 'O', '--turn', '--form', 'godot'], 2, [r"--turn can't be used with --form godot or godot3: .*"]),
    *(('turn ' + form, GOOD, ['F', 'O', '--turn', '--form', form], 2, [r"--turn can't be used with --form " + line])
      for form, line in (('godot3', 'godot or godot3: .*'), ('unity', 'unity: .*'))),
    ('turn in several scales', GOOD, ['F', 'O', '--turn', '--form', 'css', '--scale', '1,0.5'], 2, [r'--turn with --form css and .*']),
    ('filter', GOOD, ['F', 'O', '--filter', 'nearest'], 2, [r'--filter and --wrap need --form libgdx or libgdx-new']),
    ('no template', GOOD, ['F', 'O', '--template', 'none.json.tera'], 1, [r'none\.json\.tera: ' + NOT_THERE]),
    ('template and form', GOOD, ['F', 'O', '--template', 'x.json.tera', '--form', 'css'], 2, [r'.*cannot be used with.*']),
    ('a folder for a template', GOOD, ['F', 'O', '--template', 'F'], 1, [r".*: it isn't a file"]),
    ('a folder for anchors', {**GOOD, 'anchors.txt/x': b''}, ['F', 'O'], 1, [r".*anchors\.txt: it isn't a file"]),
    ('bad template', {**GOOD, 'x.json.tera': b'{{ pages'}, ['F', 'O', '--template', 'F/x.json.tera'], 1,
     [r'x\.json\.tera: Failed to parse .*']),
    *(('ending ' + name, {**GOOD, name: b'x'}, ['F', 'O', '--template', 'F/' + name], 2,
       [re.escape(name).replace('\\\n', r'\\n') + ": its files can't have this ending"])
      for name in ('x.PNG.tera', 'x.each.png.tera', 'x...tera', 'x.a .tera', 'x.a\nb.tera')),
    ('nothing of this name', {**GOOD, 'x.json.tera': b'{{ pager }}'}, ['F', 'O', '--template', 'F/x.json.tera'], 1,
     [r'x\.json\.tera: Failed to render .*: Variable `pager` not found .*']),
    *(('name ' + out, GOOD, ['F', out], 2, [r'OUT is the name of the sheet, without its ending'])
      for out in ('O/', 'O/.', 'O/..', 'O/./', 'O/.png', 'O/..png')),
    ('OUT not UTF-8', GOOD, ['F', 'O/a\udcff'], 2, [r"OUT isn't UTF-8"]),
    ('.png not UTF-8', GOOD, ['F', 'O/\udcff.png'], 2, [r"OUT isn't UTF-8"]),
    ('control in OUT', GOOD, ['F', 'O/a\nb'], 2, [r'OUT has a control character']),
    ('inside', GOOD, ['F', 'F/sheet'], 2, [r'.*it is inside the folder of pictures.*']),
    ('no folder', GOOD, ['F/none', 'O'], 1, [r'.*none: .*']),
    ('a file', GOOD, ['F/a.png', 'O'], 1, [r".*a\.png: it isn't a folder"]),
    ('nowhere', GOOD, ['F', 'O/none/sheet'], 1, [r'.*none: there is no such folder to write to']),
    ('unwritable', GOOD, ['F', '/proc/sheet'], 1, [r"/proc/sheet\.png: it can't be written there: .*"]),
    ('empty', {'x.txt': b''}, ['F', 'O'], 1, [r'.*it contains no picture that is read']),
    ('bad files', {**GOOD, 'c.png': b'no', 'd.jpg': b'\xff\xd8\xff\xe0', 'e.png': WHOLE[:-30], 'f.webp': b'RIFF....WEBP'}, ['F', 'O'], 1,
     [r'.*c\.png: not a PNG, JPEG, WebP, GIF, BMP, TIFF or TGA',
      *(r'.*%s: the file is damaged \(.+\)' % name for name in (r'd\.jpg', r'e\.png', r'f\.webp'))]),
    ('checksum', {'a.png': WHOLE[:40] + bytes([WHOLE[40] ^ 1]) + WHOLE[41:]}, ['F', 'O'], 1,
     [r'.*a\.png: the file is damaged \(CRC error: .*\)']),
    ('no sides', {'a.png': b'\x89PNG\r\n\x1a\n' + chunk(b'IHDR', bytes(8) + b'\x08\0\0\0\0')}, ['F', 'O'], 1, [r'.*a\.png: .*']),
    ('great', {'a.png': b'\x89PNG\r\n\x1a\n' + chunk(b'IHDR', b'\x7f\xff\xff\xff' * 2 + b'\x08\6\0\0\0') + WHOLE[33:]}, ['F', 'O'], 1,
     [r'.*a\.png: it is too large']),
    ('great JPEG', {**GOOD, 'c.jpg': GREAT_JPEG}, ['F', 'O'], 1, [r'.*c\.jpg: it is too large']),
    ('great WebP', {**GOOD, 'c.webp': GREAT_WEBP}, ['F', 'O'], 1, [r'.*c\.webp: it is too large']),
    ('link to nowhere', {**GOOD, 'c.png': 'none.png'}, ['F', 'O'], 1, [r'.*/c\.png: ' + NOT_THERE]),
    ('links in a loop', {**GOOD, 'c.png': 'd.png', 'd.png': 'c.png'}, ['F', 'O'], 1,
     [r'.*/%s\.png: Too many levels of symbolic links .*' % name for name in 'cd']),
    ('not UTF-8', {**GOOD, b'\xff.png': WHOLE}, ['F', 'O'], 1, [r".*its name isn't UTF-8"]),
    ('control', {**GOOD, 'x\ny.png': WHOLE}, ['F', 'O'], 1, [r'.*x\\ny\.png.*its name has a control character']),
    ('same name', {'a.png': WHOLE, 'a.jpg': WHOLE}, ['F', 'O', '--drop-extension'], 1, [r'.*a\.jpg and .*a\.png have the same name.*']),
    ('colon', {'a:b.png': WHOLE}, ['F', 'O', '--form', 'libgdx'], 2, [r'"a:b\.png": a name in an \.atlas can\'t contain a colon.*']),
    ('space', {'a .png': WHOLE}, ['F', 'O', '--form', 'libgdx', '--drop-extension'], 2, [r'"a ": a name in an \.atlas can\'t .* end with a space']),
    ('no XML', {'a\uffff.png': WHOLE, 'b.png': WHOLE}, ['F', 'O', '--form', 'starling'], 2,
     [r'"a\\u\{ffff\}\.png": XML can\'t contain U\+FFFE or U\+FFFF']),
    ('classes', {'a b.png': WHOLE, 'a-b.png': WHOLE}, ['F', 'O', '--form', 'css'], 2, [r'.*have the same class in CSS, .*']),
    ('too large', {**GOOD, 'c.png': png(100, 3), 'd.png': png(3, 64)}, ['F', 'O', '--size', '64', '64'], 3,
     [r"c\.png: 100x3 with padding 1 doesn't fit a sheet of 64x64; a larger sheet, --leave-out or --exclude would do",
      r"d\.png: 3x64 .*; a larger sheet, --border 0, --leave-out or --exclude would do"]),
    ('no room', {'%d.png' % n: png(30, 30, n) for n in range(10, 19)}, ['F', 'O', '--size', '64', '64', '--pages', '2'], 3,
     [r'2 sheets don\'t take all pictures, 64x64 at most: \d+\.png found no place; --pages 3, a larger sheet or --leave-out would do']),
    ('no room for groups', {'%d/%d.png' % (n // 3, n): png(30, 30, n) for n in range(9)},
     ['F', 'O', '--size', '64', '64', '--pages', '2', '--group'], 3,
     [r'2 sheets don\'t take all pictures, .*; --pages 3, a larger sheet or --leave-out would do']),
    ('no room in one', {'%d/%d.png' % (n // 3, n): png(30, 30, n) for n in range(9)}, ['F', 'O', '--size', '64', '64', '--group'], 3,
     [r'one sheet doesn\'t take all pictures, .*; --pages 3 without --group, a larger sheet or --leave-out would do']),
    ('much too few', {'%d.png' % n: png(30, 30, n) for n in range(41)}, ['F', 'O', '--size', '64', '64', '--pages', '9'], 3,
     [r'9 sheets don\'t take all pictures, .*; --pages 11, a larger sheet or --leave-out would do']),
    ('memory', GOOD, ['F', 'O', '--memory', '1.5G'], 2, [r'.*memory is a whole number of bytes, or of K, M or G, as 500M.*']),
    ('much memory', {'%d.png' % n: png(512, 512, n) for n in range(4)}, ['F', 'O', '--memory', '3M'], 3,
     [r'the pictures take 4\.0M at four bytes a pixel, and --memory allows 3\.0M']),
    ('great sheet', GOOD, ['F', 'O', '--size', '1024', '1024', '--memory', '3M'], 3,
     [r'the pictures and the sheets take 4\.0M at four bytes a pixel, and --memory allows 3\.0M']),
    ('greater sheet', GOOD, ['F', 'O', '--size', '65536', '65536', '--memory', '8G'], 3, [r'.* take 16\.0G at .*']),
    ('pattern', GOOD, ['F', 'O', '--exclude', 'a[b'], 2, [r"--exclude: error parsing glob 'a\[b': .*"]),
    ('all excluded', GOOD, ['F', 'O', '--exclude', '*.png'], 1, [r'.*it contains no picture that is read']),
    ('pattern of animations', GOOD, ['F', 'O', '--animations', 'a['], 2, [r"--animations: error parsing glob 'a\[': .*"]),
    ('animations or none', GOOD, ['F', 'O', '--animations', 'a', '--no-animations'], 2, [r'.*cannot be used with.*']),
    ('border and alignment', GOOD, ['F', 'O', '--border', '0', '--align', '4', '4'], 2, [r'.*cannot be used with.*']),
    ('no room at all', GOOD, ['F', 'O', '--size', '8', '8', '--border', '5'], 3,
     [r"[ab]\.png: \dx\d with padding 1 and border 5 doesn't fit a sheet of 8x8; .*"] * 2),
    ('all too large', GOOD, ['F', 'O', '--size', '4', '4', '--leave-out'], 3,
     [r"[ab]\.png: \dx\d with padding 1 doesn't fit a sheet of 4x4; .*"] * 2),
    ('a folder', GOOD, ['F', 'O'], 1, [r'.*sheet\.json: it is a folder']),
    ('a folder for the picture', GOOD, ['F', 'O'], 1, [r'.*sheet\.png: it is a folder']),
]
# What lies in OUT's folder before.
BEFORE = {'a folder': ['sheet.json'], 'a folder for the picture': ['sheet.png']}


def case(what, files, words, status, lines):
    with tempfile.TemporaryDirectory() as room:
        folder, out = os.path.join(room, 'in'), os.path.join(room, 'out')
        put(folder, files)
        os.mkdir(out)
        before = BEFORE.get(what, [])
        for name in before:
            os.mkdir(os.path.join(out, name))
        given = written(folder)
        places = {'F': folder, 'O': os.path.join(out, 'sheet'), 'O/': out + '/'}
        done = ended([places.get(word) or re.sub(r'^([FO])/', lambda m: {'F': folder, 'O': out}[m.group(1)] + '/', word) for word in words])
        told = done.stderr.splitlines()
        good = (done.returncode == status and len(told) == len(lines) and done.stdout == ''
                and all(re.fullmatch('guillotiere-sheet: ' + line, each) for line, each in zip(lines, told))
                and written(out) == before and written(folder) == given)
        check(what, good, (done.returncode, told, done.stdout, written(out)))


def left_out():
    with tempfile.TemporaryDirectory() as room:
        put(room + '/in', {'%d.png' % n: png(30, 30, n) for n in range(5)})
        done = ended([room + '/in', room + '/sheet', '--size', '64', '64', '--leave-out'])
        is_named = re.fullmatch(r'guillotiere-sheet: left out of sheet: \d\.png\n', done.stderr)
        check('left out', done.returncode == 4 and is_named and written(room + '/in') == ['%d.png' % n for n in range(5)]
              and os.path.exists(room + '/sheet.json'), (done.returncode, done.stderr))


def told():
    """The line of a sheet; with --pages its file has a number even where it is the only one."""
    with tempfile.TemporaryDirectory() as room:
        put(room + '/in', {'a.png': WHOLE})
        for words, name, line in (([], 'one', 'one.png: 10x10, 1 sprite\n'), (['--pages', '1'], 'two', 'two-0.png: 10x10, 1 sprite\n'),
                                  (['--pages', '9', '--scale', '0.5'], 'three', 'three-0@0.5x.png: 6x6, 1 sprite\n')):
            done = ended([room + '/in', room + '/' + name] + words)
            stem = line.split('.png:')[0]
            is_there = [each for each in written(room) if each.startswith(name)] == [stem + '.json', stem + '.png']
            check('told: ' + name, (done.returncode, done.stdout, done.stderr) == (0, line, '') and is_there, (done.stdout, written(room)))


def no_space():
    """A file that may not grow, whether the signal of that is ignored or would end the program: an earlier sheet stays as it was."""
    for how in (signal.SIG_IGN, signal.SIG_DFL):
        with tempfile.TemporaryDirectory() as room:
            put(room + '/in', GOOD)
            os.mkdir(room + '/out')
            ended([room + '/in', room + '/out/sheet'])
            before = {name: open(room + '/out/' + name, 'rb').read() for name in os.listdir(room + '/out')}
            put(room + '/in', {'c%d.png' % n: png(5, 5, n) for n in range(60)})

            def limit():
                signal.signal(signal.SIGXFSZ, how)
                resource.setrlimit(resource.RLIMIT_FSIZE, (1200, 1200))
            done = ended([room + '/in', room + '/out/sheet'], preexec_fn=limit)
            after = {name: open(room + '/out/' + name, 'rb').read() for name in os.listdir(room + '/out')}
            is_told = re.fullmatch(r"guillotiere-sheet: .*/sheet\.(png|json): it can't be written there: File too large .*\n", done.stderr)
            check('no space, %s' % how.name, done.returncode == 1 and is_told and before == after and len(before) == 3,
                  (done.returncode, done.stderr, sorted(after)))


def no_permission():
    """A file, a folder of pictures or OUT's folder that is closed."""
    denied = r'Permission denied \(os error 13\)'
    for closed, mode, line in (('in/c.png', 0, r'.*/in/c\.png: ' + denied), ('in/new', 0, r'.*/in/new: ' + denied),
                               *(('out', mode, r".*/out/sheet\.png: it can't be written there: " + denied) for mode in (0o555, 0o333))):
        with tempfile.TemporaryDirectory() as room:
            put(room + '/in', {**GOOD, 'c.png': WHOLE, 'new/d.png': WHOLE})
            os.mkdir(room + '/out')
            # That user may not come to PROGRAM.
            program = shutil.copy(PROGRAM, room + '/program')
            for path in ('', '/in', '/in/new', '/out', '/program'):
                os.chmod(room + path, 0o777)
            os.chmod(room + '/' + closed, mode)
            done = ended([room + '/in', room + '/out/sheet'], executable=program, **USER)
            os.chmod(room + '/' + closed, 0o777)
            is_told = re.fullmatch('guillotiere-sheet: ' + line + '\n', done.stderr)
            check('no permission: %s, %o' % (closed, mode),
                  done.returncode == 1 and done.stdout == '' and is_told and written(room + '/out') == [],
                  (done.returncode, done.stderr, written(room + '/out')))


def strangers():
    """What has one of the hidden names and isn't the program's stays as it is, and so does what a link leads to."""
    made = {'a pipe': os.mkfifo, 'a folder': os.mkdir, 'a file': lambda path: put('/', {path: b'x'}),
            'a link': lambda path: os.symlink('../mine', path), 'a file of others': lambda path: put(path, {'keep.txt': b'x'}),
            'another sheet': lambda path: put(path, {'00000000-other.json': b'x'})}
    for name, kinds in (('lock', ['a pipe', 'a folder', 'a link']), ('part', ['a pipe', 'a file', 'a link']),
                        ('ready', ['a pipe', 'a file', 'a link', 'a file of others', 'another sheet'])):
        for kind in kinds:
            with tempfile.TemporaryDirectory() as room:
                put(room, {**{'in/' + each: data for each, data in GOOD.items()}, 'mine/keep.txt': b'x', 'out/x.txt': b''})
                made[kind](room + '/out/.sheet.' + name)
                before = written(room)
                done = ended([room + '/in', room + '/out/sheet'], timeout=30)
                line = "guillotiere-sheet: %s/out/.sheet.%s: it isn't of this program's making; remove it\n"
                is_told = done.stderr == line % (room, name)
                check('strangers: %s, %s' % (name, kind), done.returncode == 1 and is_told
                      and set(written(room)) - {'.sheet.lock'} == set(before) - {'.sheet.lock'}, (done.stderr, written(room)))


def another_form():
    """A record of another form is named as soon as its picture is another one, and never before."""
    with tempfile.TemporaryDirectory() as room:
        put(room + '/in', GOOD)
        put(room + '/out', {'my sheet.json.meta': b'my sheet.png', 'my sheet-x.json': b'my sheet.png', 'other.json': b'my sheet.png'})

        def told(what, names, *words):
            done = ended([room + '/in', room + '/out/my sheet', *words])
            done.stderr = re.sub(r'.* it is of an earlier run .*\n', '', done.stderr)
            lines = [re.fullmatch('guillotiere-sheet: .*/out/(.*): it tells where sprites lay in an earlier (.*): '
                                  'run again with its --form, or remove it', line) for line in done.stderr.splitlines()]
            check('another form: ' + what, done.returncode == 0 and all(lines) and [line.groups() for line in lines] == names, done.stderr)
        told('first', [])
        told('the same picture', [], '--form', 'css')
        put(room + '/in', {'c.png': png(40, 40)})
        told('another picture', [('my sheet.json', 'my sheet.png')], '--form', 'css')
        told('both', [])
        told('as before', [], '--form', 'css')
        put(room + '/in', {'d.png': png(60, 60)})
        told('its name in a URL', [('my sheet.css', 'my sheet.png')])
        put(room + '/in', {'d.png': png(60, 60, 9)})
        told('other pixels', [('my sheet.css', 'my sheet.png')])
        told('others', [], '--pages', '2', '--form', 'libgdx', '--scale', '1,0.5')
        put(room + '/in', {'e.png': png(80, 80)})
        told('numbers', [('my sheet.atlas', 'my sheet-0.png'), ('my sheet@0.5x.atlas', 'my sheet-0@0.5x.png')],
             '--pages', '2', '--scale', '1,0.5')


def devices():
    """Where standard output fails the sheets are there, and a line tells it; where standard error fails nothing can."""
    full = r'guillotiere-sheet: standard output: No space left on device .*\n'
    for what, to, more, status, line in (('closed', '>&-', [], 0, ''), ('full', '>/dev/full', [], 1, full),
                                         ('closed errors', '2>&-', ['--effort', '9'], 0, ''),
                                         ('full errors', '2>/dev/full', ['--effort', '9'], 0, '')):
        with tempfile.TemporaryDirectory() as room:
            put(room + '/in', GOOD)
            os.mkdir(room + '/out')
            done = ended(['-c', '"$0" "$@" ' + to, PROGRAM, room + '/in', room + '/out/sheet'] + more, executable='/bin/sh')
            check('device: ' + what, done.returncode == status and re.fullmatch(line, done.stderr)
                  and written(room + '/out') == ['sheet.json', 'sheet.png'], (done.returncode, done.stderr, written(room + '/out')))
    with open('/dev/full', 'w') as device:
        for what, words, status, line in (('help', ['--help'], 1, full), ('version', ['--version'], 1, full)):
            done = ended(words, stdout=device)
            check('device: ' + what, done.returncode == status and re.fullmatch(line, done.stderr), (done.returncode, done.stderr))
        done = outcome([PROGRAM], stderr=device)
        check('device: a fault', done.returncode == 2 and done.stdout == '', done.returncode)
    with tempfile.TemporaryDirectory() as room:
        put(room + '/in', GOOD)
        reader, writer = os.pipe()
        os.close(reader)
        done = ended([room + '/in', room + '/sheet'], stdout=writer)
        os.close(writer)
        check('device: no reader', done.returncode == 1 and os.path.exists(room + '/sheet.json')
              and re.fullmatch(r'guillotiere-sheet: standard output: Broken pipe .*\n', done.stderr), (done.returncode, done.stderr))


class Watch:
    """A run that follows its folder."""

    def __init__(self, room, *more):
        self.room, self.errors = room, open(room + '/errors', 'w+')
        words = [PROGRAM, room + '/in', room + '/sheet', '--watch', *more]
        self.running = subprocess.Popen(words, stdout=subprocess.DEVNULL, stderr=self.errors)

    def text(self):
        path = self.room + '/sheet.json'
        return open(path).read() if os.path.exists(path) else ''

    def lines(self):
        return open(self.room + '/errors').read().splitlines()

    def stamps(self):
        return [os.stat(self.room + '/' + name).st_mtime_ns for name in ('sheet.json', 'sheet.png')]

    def __enter__(self):
        return self

    def __exit__(self, *_):
        self.running.terminate()
        self.running.wait()
        self.errors.close()


def watched():
    """The sheet follows its folder; while a file is bad the last sheet stays."""
    with tempfile.TemporaryDirectory() as room:
        put(room + '/in', GOOD)
        with Watch(room) as watch:
            check('watch: first', wait_for(lambda: '"b.png"' in watch.text()))
            put(room + '/in', {'new/c.png': png(5, 6)})
            check('watch: a new one', wait_for(lambda: '"new/c.png"' in watch.text()))
            put(room + '/in', {'new/d.png': b'bad'})
            is_told = wait_for(lambda: any('d.png: not a PNG' in line for line in watch.lines()))
            check('watch: a bad one', is_told and '"new/c.png"' in watch.text())
            os.remove(room + '/in/new/d.png')
            os.remove(room + '/in/a.png')
            check('watch: one less', wait_for(lambda: '"a.png"' not in watch.text()) and watch.running.poll() is None)
            lines = watch.lines()
            time.sleep(1)
            check('watch: rests', watch.lines() == lines)


def replaced():
    """A folder that is removed and made again is followed as before, each time, also where one is moved to its place."""
    with tempfile.TemporaryDirectory() as room:
        put(room + '/in', GOOD)
        with Watch(room) as watch:
            check('replaced: first', wait_for(lambda: '"b.png"' in watch.text()))
            for number in range(2):
                shutil.rmtree(room + '/in')
                is_told = wait_for(lambda: sum('in: No such file' in line for line in watch.lines()) == number + 1)
                check('replaced: removed', is_told and watch.text() and watch.running.poll() is None, watch.lines())
                put(room + '/in', {'new%d.png' % number: png(5, 6)})
                check('replaced: made again', wait_for(lambda: '"new%d.png"' % number in watch.text()), watch.lines())
                put(room + '/in', {'more%d.png' % number: png(6, 6)})
                check('replaced: followed', wait_for(lambda: '"more%d.png"' % number in watch.text()), watch.lines())
            put(room + '/other', {'other.png': png(7, 6)})
            os.rename(room + '/in', room + '/away')
            os.rename(room + '/other', room + '/in')
            check('replaced: another', wait_for(lambda: '"other.png"' in watch.text()), watch.lines())


def linked():
    """What links lead to is followed too, also by links that come later, and a file that is as long and as old as the one before it."""
    def has_side(text):
        return re.search(r'"file\.png":\s*{\s*"frame":\s*{[^}]*"w":\s*30\b', text)

    with tempfile.TemporaryDirectory() as room:
        put(room + '/in', GOOD)
        put(room + '/else', {'c.png': png(3, 3)})
        put(room, {'d.png': png(3, 5)})
        with Watch(room) as watch:
            check('linked: first', wait_for(lambda: '"b.png"' in watch.text()))
            os.symlink('../else', room + '/in/folder')
            os.symlink('../d.png', room + '/in/file.png')
            check('linked: links', wait_for(lambda: '"folder/c.png"' in watch.text() and '"file.png"' in watch.text()))
            put(room + '/else', {'e.png': png(4, 3)})
            check('linked: in the folder', wait_for(lambda: '"folder/e.png"' in watch.text()), watch.lines())
            put(room, {'d.png': png(30, 50)})
            check('linked: the file', wait_for(lambda: has_side(watch.text())), watch.lines())
            picture, old = open(room + '/sheet.png', 'rb').read(), os.stat(room + '/in/a.png')
            put(room, {'a.png': png(8, 8, 8)})
            os.utime(room + '/a.png', ns=(old.st_atime_ns, old.st_mtime_ns))
            is_alike = os.stat(room + '/a.png').st_size == old.st_size
            os.rename(room + '/a.png', room + '/in/a.png')
            check('linked: as long and as old', is_alike and wait_for(lambda: open(room + '/sheet.png', 'rb').read() != picture))


def templated():
    """The template is followed, wherever it lies, also where another file gets its name; while it is bad the last record stays."""
    with tempfile.TemporaryDirectory() as room:
        put(room + '/in', GOOD)
        put(room, {'own.json.tera': b'{{ stem }} 1'})
        with Watch(room, '--template', room + '/own.json.tera') as watch:
            check('templated: first', wait_for(lambda: watch.text() == 'sheet 1'))
            put(room, {'own.json.tera': b'{{ stem }} of 2'})
            check('templated: changed', wait_for(lambda: watch.text() == 'sheet of 2'), watch.lines())
            put(room, {'next': b'{{ stem'})
            os.rename(room + '/next', room + '/own.json.tera')
            check('templated: bad', wait_for(lambda: any('own.json.tera: ' in line for line in watch.lines()))
                  and watch.text() == 'sheet of 2', watch.lines())
            put(room, {'own.json.tera': b'3'})
            check('templated: good again', wait_for(lambda: watch.text() == '3'), watch.lines())


def never_ending():
    """Pipes in the place of a text that is read."""
    for name, words in (('anchors.txt', []), ('x.json.tera', ['--template', 'in/x.json.tera'])):
        with tempfile.TemporaryDirectory() as room:
            put(room + '/in', GOOD)
            os.mkfifo(room + '/in/' + name)
            done = ended([room + '/in', room + '/sheet'] + words, cwd=room, timeout=30)
            check('never ending: ' + name, done.returncode == 1 and done.stderr.endswith(name + ": it isn't a file\n")
                  and written(room) == sorted(['in', *GOOD, name]), (done.returncode, done.stderr, written(room)))


def unmoved():
    """What doesn't count changes nothing: other files, hidden and excluded ones, and a touch."""
    with tempfile.TemporaryDirectory() as room:
        put(room + '/in', GOOD)
        with Watch(room, '--exclude', '*_old.png') as watch:
            check('unmoved: first', wait_for(lambda: '"b.png"' in watch.text()))
            time.sleep(0.5)
            before = watch.stamps()
            put(room + '/in', {'x.txt': b'text', '.hidden.png': b'bad', 'a_old.png': b'bad', '.git/a.png': b'bad'})
            os.utime(room + '/in/a.png')
            os.remove(room + '/in/x.txt')
            time.sleep(1.5)
            line = 'guillotiere-sheet: --exclude *_old.png: nothing is like it'
            check('unmoved: untouched', watch.stamps() == before and watch.lines() == [line], watch.lines())
            put(room + '/in', {'anchors.txt': b'a.png 0.5 0.5\n'})
            check('unmoved: anchors count', wait_for(lambda: '"anchor"' in watch.text()))


def checked():
    """Up to date or not, by status; nothing is written."""
    with tempfile.TemporaryDirectory() as room:
        put(room + '/in', GOOD)
        os.mkdir(room + '/out')

        def told(status, *names):
            before = written(room + '/out')
            done = ended([room + '/in', room + '/out/sheet', '--check'])
            lines = [line.split('/out/')[1] for line in done.stderr.splitlines()]
            check('checked: %d' % status, (done.returncode, lines, done.stdout, before)
                  == (status, ["%s: it isn't up to date" % name for name in names], '', written(room + '/out')), (done.returncode, lines))
        told(5, 'sheet.png', 'sheet.json')
        ended([room + '/in', room + '/out/sheet'])
        told(0)
        put(room + '/in', {'x.txt': b''})
        os.utime(room + '/in/a.png')
        told(0)
        put(room + '/in', {'a.png': png(8, 8, 9)})
        told(5, 'sheet.png', 'sheet.json')
        ended([room + '/in', room + '/out/sheet'])
        told(0)
        os.remove(room + '/out/sheet.json')
        told(5, 'sheet.json')


def printed():
    """The manual page has each word and no fault of troff's; shells take what completes the words."""
    told = ended(['--help']).stdout
    switches = set(re.findall(r'^ +(?:-\w, )?(--[a-z-]+)', told, re.M)) - {'--help', '--version'}
    page = ended(['--man']).stdout
    check('printed: all words', len(switches) > 40 and not {each for each in switches if each.replace('-', r'\-') not in page}, switches)
    check('printed: alone', ended(['--man', 'F', 'O']).returncode == 2)
    engines = ['PixiJS', 'Phaser', 'libGDX', 'Godot 4', 'Godot 3', 'Starling', 'Web pages', 'Unity', 'cocos2d']
    check('printed: engines', all(engine in told for engine in engines), engines)
    with tempfile.TemporaryDirectory() as room:
        put(room, {'page.1': page.encode(), 'words': ended(['--completions', 'bash']).stdout.encode()})
        if shutil.which('man') and shutil.which('groff'):
            done = outcome(['man', '--warnings', '-l', room + '/page.1'], stderr=subprocess.PIPE, env=dict(os.environ, MANPAGER='cat'))
            check('printed: troff', done.returncode == 0 and done.stderr == '' and 'EXIT STATUS' in done.stdout, done.stderr)
        done = outcome(['bash', '-n', room + '/words'])
        check('printed: bash', done.returncode == 0 and '--power-of-two' in open(room + '/words').read(), done.stdout)


def on_the_page():
    """docs/PACK.md has each switch in its table, and begins with lines that do what they say."""
    page = read(os.path.join(ROOT, 'docs', 'PACK.md'))
    switches = set(re.findall(r'^ +(?:-\w, )?(--[a-z-]+)', ended(['--help']).stdout, re.M))
    rows = ' '.join(line.split(' | ')[0] for line in page.splitlines() if line.startswith('| `--'))
    # Of these two the first is the default, and stands in the row of the other.
    lacking = {each for each in switches if each + '`' not in rows and each + ' ' not in rows} - {'--keep-numbers'}
    check('on the page: all words', len(switches) > 40 and not lacking and '`--keep-numbers`' in page, lacking)
    start = page.split('## ')[1]
    check('on the page: it begins', start.startswith('Quick start') and start.count('\n    ') <= 14, start)
    lines = re.findall(r'^    guillotiere-sheet (icons game/icons .*?)(?: +#.*)?$', page, re.M)
    check('on the page: lines', len(lines) >= 9, lines)
    options = ''.join(re.search(r'^`sheet\.toml` is .*\n\n((?:    .*\n)+)', page, re.M).group(1).split('    '))
    for line in lines:
        if ' webp' in line and shutil.which('cwebp') is None:
            SUITE.skip('on the page: ' + line, 'there is no cwebp')
            continue
        with tempfile.TemporaryDirectory() as room:
            put(room + '/icons', {'%d/%d.png' % (number % 2, number): png(8 + number, 8, number) for number in range(9)})
            os.mkdir(room + '/game')
            os.symlink(os.path.join(ROOT, 'rust'), room + '/rust')
            put(room, {'sheet.toml': options.encode()})
            words = line.split()
            done = ended([word for word in words if word != '--watch'], cwd=room)
            check('on the page: ' + line, done.returncode == (5 if '--check' in words else 0)
                  and ('--check' in words) == (written(room + '/game') == []), (done.returncode, done.stderr))


for each in CASES:
    case(*each)
for each in (left_out, told, no_space, no_permission, strangers, another_form, devices, printed, on_the_page, watched, replaced, linked,
             templated, never_ending, unmoved, checked):
    each()
sys.exit(SUITE.end())
