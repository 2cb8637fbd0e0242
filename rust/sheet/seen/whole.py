#!/usr/bin/env python3
"""Kills guillotiere-sheet at each step that changes OUT's folder, runs it twice at once, and stops it by signals: whoever finds a record
finds the pictures that belong to it, and the next run leaves nothing but the set. And long work: a search that ends in time, what a
terminal shows of it, and smaller PNG files.

    rust/sheet/seen/whole.py PROGRAM

The last line is 'N passed, M failed'. It needs Pillow, and gcc on Linux."""
import io
import os
import pty
import shutil
import signal
import subprocess
import sys
import time

sys.dont_write_bytecode = True
import icons  # noqa: E402
import readers  # noqa: E402
from common import PROGRAM, begun, ended, main, read, test  # noqa: E402
from common import run as run_well  # noqa: E402
from PIL import Image  # noqa: E402

HERE = os.path.dirname(os.path.abspath(__file__))
# The forms with one record and with several, and how many sheets there are.
WAYS = [('libgdx', []), ('json-hash', []), ('phaser', ['--pages', '9']), ('json-hash', ['--pages', '9']), ('starling', ['--pages', '9'])]
RECORD = {'libgdx': '.atlas', 'json-hash': '.json', 'phaser': '.json', 'starling': '.xml'}


def run(words, library=None, **steps):
    settings = dict(os.environ, **({'LD_PRELOAD': library} if library else {}), **{name: str(value) for name, value in steps.items()})
    return ended(words, env=settings, timeout=120)


def pictures(room, name, count, side):
    """A folder of pictures: their colours tell the folder and the number."""
    folder = os.path.join(room, name)
    for number in range(count):
        icons.save(folder, '%dx.png' % number, Image.new('RGBA', (side + number, side), (number, side, 7, 255)))
    return folder, icons.originals(folder)


def found(form, out):
    """The pictures of the set, or none if its record isn't there."""
    record = RECORD[form]
    if not any(os.path.exists(out + number + record) for number in ('', '-0')):
        return None
    return {name: picture.tobytes() for name, picture in readers.read(form, out).items()}


def told(originals):
    return {name: picture.tobytes() for name, picture in originals.items()}


def hidden(folder):
    return [name for name in os.listdir(folder) if name.startswith('.') and not name.endswith('.stamp')]


def killed(form, more, library, room):
    """After each kill the old set is there, or the new one, or none; the next run ends the work."""
    old, new = pictures(room, 'old', 6, 20), pictures(room, 'new', 6, 26)
    sizes = ['--size', '64', '64'] if more else []
    step, before, none = 0, 0, 0
    while True:
        step += 1
        inside = os.path.join(room, 'out')
        shutil.rmtree(inside, ignore_errors=True)
        os.mkdir(inside)
        out = os.path.join(inside, 'sheet')
        words = [out, '--form', form, *more, *sizes]
        assert run([old[0]] + words).returncode == 0
        done = run([new[0]] + words, library, STEP_KILL=step)
        if done.returncode == 0:
            break
        assert done.returncode == -signal.SIGKILL, (done.returncode, done.stderr)
        there = found(form, out)
        assert there in (None, told(old[1]), told(new[1])), (step, os.listdir(inside))
        before += there == told(old[1])
        none += there is None
        # A run that can't read its pictures ends the work of the one before all the same.
        bad = run([os.path.join(room, 'none'), *words])
        assert bad.returncode == 1
        assert run([new[0]] + words).returncode == 0
        assert found(form, out) == told(new[1]) and not hidden(inside), (step, os.listdir(inside))
    assert step > 6 and before > 1 and none > 0, (step, before, none)
    assert found(form, out) == told(new[1]) and not hidden(inside)


def ready(library, room):
    """What was complete at the kill gets its places by the next run, though that finds no pictures."""
    old, new = pictures(room, 'first', 6, 20), pictures(room, 'second', 6, 26)
    empty, inside = os.path.join(room, 'empty'), os.path.join(room, 'placed')
    os.mkdir(empty)
    seen = set()
    for step in range(1, 9):
        shutil.rmtree(inside, ignore_errors=True)
        os.mkdir(inside)
        out = os.path.join(inside, 'sheet')
        assert run([old[0], out]).returncode == 0
        run([new[0], out], library, STEP_KILL=step)
        was_ready = '.sheet.ready' in hidden(inside)
        assert run([empty, out]).returncode == 1
        there = found('json-hash', out)
        assert there == told((new if was_ready else old)[1]) or not was_ready and there == told(new[1]), step
        assert not hidden(inside)
        seen.add(was_ready)
    assert seen == {False, True}


def two(library, room):
    """Two runs for one OUT, which differ: in the end the set is that of one of them."""
    folder, originals = pictures(room, 'both', 9, 20)
    inside = os.path.join(room, 'two')
    os.mkdir(inside)
    out = os.path.join(inside, 'sheet')
    settings = dict(os.environ, LD_PRELOAD=library, STEP_WAIT='30000')
    waited = 0
    for turn in range(6):
        sides = [['--size', '128', '128'], ['--power-of-two']][::1 if turn % 2 else -1]
        running = [begun([PROGRAM, folder, out, *more], env=settings, stdout=subprocess.DEVNULL, stderr=subprocess.PIPE, text=True)
                   for more in sides]
        lines = [each.communicate(timeout=60)[1] for each in running]
        assert [each.returncode for each in running] == [0, 0], lines
        waited += sum(line == 'guillotiere-sheet: sheet: waiting for another run that writes it\n' for line in lines)
        assert found('json-hash', out) == told(originals) and not hidden(inside)
    assert waited > 0


def stopped(library, room):
    """By Ctrl-C, or as a service is ended: while it packs, while it writes, and while it watches. Nothing is left half done."""
    folder, originals = pictures(room, 'many', 40, 20)
    for number, (how, more, steps, seconds) in enumerate((
            (signal.SIGINT, ['--effort', '100000000'], {}, 1), (signal.SIGTERM, ['--effort', '100000000'], {}, 1),
            (signal.SIGINT, [], {'LD_PRELOAD': library, 'STEP_WAIT': '400000'}, 0.6),
            (signal.SIGINT, [], {'LD_PRELOAD': library, 'STEP_WAIT': '400000'}, 1.1), (signal.SIGTERM, ['--watch'], {}, 1))):
        inside = os.path.join(room, 'stopped %d' % number)
        os.mkdir(inside)
        out = os.path.join(inside, 'sheet')
        running = begun([PROGRAM, folder, out, *more], env=dict(os.environ, **steps), stdout=subprocess.DEVNULL,
                        stderr=subprocess.DEVNULL)
        time.sleep(seconds)
        running.send_signal(how)
        assert running.wait(timeout=20) in (0, 130), (number, running.returncode)
        assert not hidden(inside), (number, os.listdir(inside))
        assert found('json-hash', out) in (None, told(originals)), number
        if '--effort' in more:
            assert running.returncode == 130 and os.listdir(inside) == []


def to_the_disk(library, room):
    """All files and both folders are on the disk before the first one gets its place; then the record goes, where a picture is replaced,
    and comes after the pictures, and the stamp last."""
    folder, _ = pictures(room, 'disk', 9, 20)
    inside = os.path.join(room, 'on disk')
    os.mkdir(inside)
    for number in (1, 2):
        log = os.path.join(room, 'log %d' % number)
        assert run([folder, os.path.join(inside, 'sheet'), *['--trim'][:number - 1]], library, STEP_LOG=log).returncode == 0
        steps = read(log).split()
        # At the end the folder of parts, which isn't there any more, and the lock.
        replaced = ['unlink', 'fsync'] if number == 2 else []
        assert steps == ['mkdir', 'fsync', 'fsync', 'fsync', 'fsync', 'rename', 'fsync', *replaced, 'rename', 'rename', 'rename', 'fsync',
                         'rmdir', 'unlink', 'unlink'], steps
        icons.save(folder, '0x.png', Image.new('RGBA', (40, 30), (1, 1, 1, 255)))


def hung_up(room):
    """A run that nohup began goes on where the terminal is closed."""
    folder, originals = pictures(room, 'hung up', 4, 20)
    out = os.path.join(room, 'hung')
    running = begun([PROGRAM, folder, out, '--watch'], stdout=subprocess.DEVNULL, stderr=subprocess.DEVNULL,
                    preexec_fn=lambda: signal.signal(signal.SIGHUP, signal.SIG_IGN))
    end = time.time() + 30
    while not os.path.exists(out + '.json') and time.time() < end:
        time.sleep(0.05)
    running.send_signal(signal.SIGHUP)
    time.sleep(0.5)
    assert running.poll() is None and found('json-hash', out) == told(originals)
    running.terminate()
    assert running.wait(timeout=20) == 130 and not os.path.exists(os.path.join(room, '.hung.lock'))


def asked_to_end(room):
    """By signals, also where a hangup is ignored, as by nohup: nothing is left half done, and with --keep-best the best is written."""
    folder, originals = pictures(room, 'asked', 40, 20)
    for how, is_by_nohup in ((signal.SIGINT, False), (signal.SIGINT, True), (signal.SIGTERM, True)):
        for more, status in (([], 130), (['--keep-best'], 0)):
            inside = os.path.join(room, 'asked %d %d %d' % (how, is_by_nohup, status))
            os.mkdir(inside)
            out = os.path.join(inside, 'sheet')
            running = begun([PROGRAM, folder, out, '--effort', '100000000', *more], stdout=subprocess.DEVNULL, stderr=subprocess.PIPE,
                            preexec_fn=(lambda: signal.signal(signal.SIGHUP, signal.SIG_IGN)) if is_by_nohup else None)
            # The first sheet that is found is told.
            assert b'so far a sheet of ' in running.stderr.readline()
            if is_by_nohup:
                running.send_signal(signal.SIGHUP)
            time.sleep(0.3)
            assert running.poll() is None
            running.send_signal(how)
            running.stderr.close()
            assert running.wait(timeout=60) == status, (how, more, running.returncode)
            assert not hidden(inside) and found('json-hash', out) == (told(originals) if status == 0 else None), os.listdir(inside)


def untouched(room):
    """A run that changes nothing leaves the files as they are, and one that changes a single file's bytes brings it back."""
    folder, _ = pictures(room, 'same', 9, 20)
    inside = os.path.join(room, 'untouched')
    os.mkdir(inside)
    words = [folder, os.path.join(inside, 'sheet'), '--size', '64', '64', '--pages', '9']

    def stamps():
        files = {name: os.stat(os.path.join(inside, name)) for name in os.listdir(inside) if not name.endswith('.stamp')}
        return {name: (file.st_mtime_ns, file.st_ino) for name, file in files.items()}
    assert run(words).returncode == 0
    first = stamps()
    assert len(first) == 4 and run(words).returncode == 0 and stamps() == first
    with open(os.path.join(inside, 'sheet-1.png'), 'r+b') as file:
        file.write(b'x')
    assert run(words).returncode == 0
    second = stamps()
    assert second['sheet-0.png'] == first['sheet-0.png'] and second['sheet-1.png'] != first['sheet-1.png']
    assert found('json-hash', os.path.join(inside, 'sheet')) is not None


def side(out):
    with Image.open(out + '.png') as sheet:
        return sheet.size[0]


def in_time(folder, room):
    """It ends in time with a sheet that isn't larger than one without tries, or before, where so many tries are done."""
    plain, out = os.path.join(room, 'plain'), os.path.join(room, 'timed')
    run_well(folder, plain)
    for more, least, most in ((['--time', '2'], 2, 60), (['--time', '500', '--effort', '30'], 0, 200),
                              (['--time', '2', '--scale', '1,0.5'], 2, 60),
                              (['--time', '2', '--size', '256', '256', '--pages', '9'], 0, 60)):
        begun = time.time()
        run_well(folder, out, *more)
        assert least <= time.time() - begun < most, (more, time.time() - begun)
        if '--pages' not in more:
            assert side(out) <= side(plain), more
            icons.compare(readers.read('json-hash', out), icons.originals(folder), False)
    assert run_well(folder, out, '--time', '-1', status=2).stdout == ''
    run_well(folder, out, '--keep-best', status=2)


def shown(folder, room):
    """On a terminal a line says how far it is; elsewhere nothing does."""
    out = os.path.join(room, 'shown')
    assert run_well(folder, out).stderr == ''
    ours, theirs = pty.openpty()
    running = begun([PROGRAM, folder, out, '--time', '2'], stdout=subprocess.DEVNULL, stderr=theirs,
                    env=dict(os.environ, TERM='xterm'))
    os.close(theirs)
    text = b''
    while True:
        try:
            part = os.read(ours, 65536)
        except OSError:
            break
        if not part:
            break
        text += part
    os.close(ours)
    assert running.wait(timeout=60) == 0 and b'packing' in text and b'so far a sheet of ' in text, text[-2000:]


def small(room):
    """The same pixels in fewer bytes: about what Pillow makes with `optimize`, and with a palette or without alpha where that does."""
    folder = os.path.join(room, 'small')
    icons.fill(folder, count=40)
    few = os.path.join(room, 'few')
    for number in range(9):
        icons.save(few, '%dx.png' % number, Image.new('RGBA', (9 + number, 9), (number, 1, 2, 255 - 20 * number)))
    solid = os.path.join(room, 'solid')
    gradients = [Image.linear_gradient('L'), Image.linear_gradient('L').rotate(90), Image.radial_gradient('L')]
    icons.save(solid, 'a.png', Image.merge('RGB', gradients).resize((64, 64)))
    for inside, more, mode in ((folder, ['--trim'], 'RGBA'), (few, [], 'P'), (solid, ['--border', '0'], 'RGB'),
                               (few, ['--extrude', '1'], 'P')):
        out, plain = os.path.join(room, 'small sheet'), os.path.join(room, 'large sheet')
        run_well(inside, out, '--compress', *more)
        run_well(inside, plain, *more)
        icons.compare(readers.read('json-hash', out), icons.originals(inside), '--trim' in more)
        with Image.open(out + '.png') as ours, Image.open(plain + '.png') as theirs:
            assert ours.mode == mode, (ours.mode, more)
            assert ours.convert('RGBA').tobytes() == theirs.tobytes()
            smaller = io.BytesIO()
            theirs.save(smaller, 'png', optimize=True)
        sizes = [os.path.getsize(path + '.png') for path in (out, plain)] + [len(smaller.getvalue())]
        assert sizes[0] <= sizes[1] and sizes[0] <= 1.04 * sizes[2], sizes


def all_tests(room):
    folder = os.path.join(room, 'icons')
    icons.fill(folder, count=60)
    test('in time', in_time, folder, room)
    test('shown', shown, folder, room)
    test('small', small, room)
    test('untouched', untouched, room)
    test('hung up', hung_up, room)
    test('asked to end', asked_to_end, room)
    library = os.path.join(room, 'steps.so')
    compiler = shutil.which('gcc')
    if compiler is None or not sys.platform.startswith('linux'):
        print('skipped kills of guillotiere-sheet: there is no gcc')
        return
    subprocess.run([compiler, '-shared', '-fPIC', '-O1', '-o', library, os.path.join(HERE, 'steps.c'), '-ldl'], check=True)
    for number, (form, more) in enumerate(WAYS):
        inside = os.path.join(room, str(number))
        os.mkdir(inside)
        test('killed, %s' % ' '.join([form, *more]), killed, form, more, library, inside)
    test('to the disk', to_the_disk, library, room)
    test('ready', ready, library, room)
    test('two at once', two, library, room)
    test('stopped', stopped, library, room)


main(all_tests)
