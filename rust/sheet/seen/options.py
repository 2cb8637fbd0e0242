#!/usr/bin/env python3
"""Options of guillotiere-sheet: a file that has them, and what turning sprites may cost.

    rust/sheet/seen/options.py PROGRAM

The last line is 'N passed, M failed'."""
import json
import os
import random
import re
import shutil
import sys
import tempfile
import time

sys.dont_write_bytecode = True
from common import PROGRAM, SUITE, begun, check, ended, put, wait_for  # noqa: E402
from common import grey as png  # noqa: E402

PICTURES = {'%s.png' % letter: png(8 + number, 9, number) for number, letter in enumerate('abcdef')}


def made(folder):
    """Its files with what they have, but for the stamps."""
    return {name: open(folder + '/' + name, 'rb').read() for name in sorted(os.listdir(folder)) if not name.endswith('.stamp')}


# A file, the words of the command line beside it, and the words that both together stand for.
SAME = [
    ('', '', ''),
    ('trim = true\nturn = false\npadding = 3', '', '--trim --padding 3'),
    ('size = [32, 40]\npages = 9\nscale = [1, 0.5]', '', '--size 32 40 --pages 9 --scale 1,0.5'),
    ('exclude = ["a*", "b.png"]\nanchor = [0.5, 1]', '', '--exclude a* --exclude b.png --anchor 0.5,1'),
    ('exclude = "a*"\nanchor = "-0.5,1"\nform = "phaser"', '', '--exclude a* --anchor=-0.5,1 --form phaser'),
    ('# a comment\nframe-rate = 12.5\ndrop-extension = true\n', '', '--frame-rate 12.5 --drop-extension'),
    ('padding = 3\nexclude = ["a*", "b*"]\nsize = [32, 40]', '--padding 5 --exclude c* --size 64 64',
     '--padding 5 --exclude c* --size 64 64'),
    ('form = "css"\npage = true', '--form=css', '--form css --page'),
    ('trim-threshold = 9', '--trim', '--trim --trim-threshold 9'),
    ('seed = "18446744073709551615"\neffort = 9', '', '--seed 18446744073709551615 --effort 9'),
    ('template = "own.txt.tera"', '', '--template own.txt.tera'),
    ('exclude = []', '', ''),
]


def of_a_file():
    """Keys stand for options, and those of the command line take their place."""
    for text, words, wanted in SAME:
        with tempfile.TemporaryDirectory() as room:
            put(room, {'options.toml': text.encode(), 'own.txt.tera': b'{{ stem }} {{ frame_rate }}'})
            put(room, {'%d/x' % out: b'' for out in range(3)})
            put(room + '/in', PICTURES)
            runs = [ended(['in', '0/sheet', '--config', 'options.toml', *words.split()], cwd=room),
                    ended([*words.split(), 'in', '1/sheet', '--config=options.toml'], cwd=room),
                    ended(['in', '2/sheet', *wanted.split()], cwd=room)]
            told = [(done.returncode, done.stdout, done.stderr) for done in runs]
            check('a file of options: %r %s' % (text, words), told == [(0, told[0][1], told[0][2])] * 3
                  and made(room + '/0') == made(room + '/1') == made(room + '/2'), told)


# A file, and what is said of it.
REFUSED = [
    ('trimm = true', 'no option that it can have is called "trimm"; did you mean trim?'),
    ('power_of_two = true', 'no option that it can have is called "power_of_two"; did you mean power-of-two?'),
    *(('%s = true' % name, 'no option that it can have is called "%s"' % name) for name in ('config', 'help', 'man', 'version', '-')),
    ('[trim]\nx = 1', 'trim is true or false'),
    ('trim = "yes"', 'trim is true or false'),
    ('padding = true', 'padding is a text, a number or a list of these'),
    ('padding = [[1]]', 'padding is a text, a number or a list of these'),
    ('padding = -1', "Invalid value '-1' for '--padding <N>': .*"),
    ('padding = [1, 2]', "Invalid value '1,2' for '--padding <N>': .*"),
    ('size = 64', 'size is a list of 2 numbers'),
    ('form = "spine"', "'spine' isn't a valid value for '--form <FORM>' .*"),
    ('trim', 'expected an equals, .* at line 1 column 5'),
    ('trim = true\ntrim = true', 'duplicate key: `trim` .*'),
]


def refused():
    """A fault of the file names it, also where the command line has the option."""
    for text, line in REFUSED:
        with tempfile.TemporaryDirectory() as room:
            put(room, {'options.toml': text.encode()})
            put(room + '/in', PICTURES)
            done = ended(['in', 'sheet', '--config', 'options.toml', '--padding', '5'], cwd=room)
            pattern = 'guillotiere-sheet: options.toml: %s\n' % re.escape(line).replace(r'\.\*', '.*')
            check('a file of options, refused: %r' % text, (done.returncode, done.stdout) == (2, '')
                  and re.fullmatch(pattern, done.stderr), done.stderr)
    with tempfile.TemporaryDirectory() as room:
        put(room + '/in', PICTURES)
        done = ended(['in', 'sheet', '--config', 'none.toml'], cwd=room)
        check('a file of options, absent', done.returncode == 1 and 'none.toml: No such file' in done.stderr, done.stderr)
        put(room, {'options.toml': b'square = true'})
        done = ended(['in', 'sheet', '--config', 'options.toml', '--power-of-two'], cwd=room)
        check('a file of options, against the words', done.returncode == 2 and 'cannot be used with' in done.stderr, done.stderr)


def beside_others():
    """Another file with the same options changes nothing; make and ninja go by it, and --watch follows it."""
    with tempfile.TemporaryDirectory() as room:
        put(room, {'options.toml': b'padding = 3', 'other.toml': b'# again\npadding = 3'})
        put(room + '/in', PICTURES)
        for _ in range(2):
            ended(['in', 'sheet', '--config', 'options.toml'], cwd=room)
            # What was written just now is compared once more.
            time.sleep(0.2)
        before = os.stat(room + '/.sheet.json-hash.stamp')
        done = ended(['in', 'sheet', '--config', 'other.toml', '--depfile', 'd'], cwd=room)
        after = os.stat(room + '/.sheet.json-hash.stamp')
        check('a file of options: nothing again', done.returncode == 0 and before.st_mtime_ns == after.st_mtime_ns, done.stderr)
        check('a file of options: the rule', 'other.toml' in open(room + '/d').read().split('\n\n')[0], open(room + '/d').read())
    with tempfile.TemporaryDirectory() as room:
        put(room, {'options.toml': b'padding = 3', 'errors': b''})
        put(room + '/in', PICTURES)

        def change(text):
            # At once: a file that is written in its place is empty for a moment, which asks for nothing.
            put(room, {'next': text})
            os.rename(room + '/next', room + '/options.toml')

        def names():
            return json.load(open(room + '/sheet.json'))['frames'] if os.path.exists(room + '/sheet.json') else {}
        with open(room + '/errors', 'w') as errors:
            running = begun([PROGRAM, 'in', 'sheet', '--config', 'options.toml', '--watch'], cwd=room, stderr=errors, stdout=errors)
        check('a file of options, followed: first', wait_for(lambda: len(names()) == 6))
        change(b'exclude = "a*"')
        check('a file of options, followed: changed', wait_for(lambda: len(names()) == 5))
        change(b'exclud = "a*"')
        check('a file of options, followed: bad', wait_for(lambda: 'did you mean exclude?' in open(room + '/errors').read())
              and len(names()) == 5)
        change(b'drop-extension = true')
        check('a file of options, followed: good again', wait_for(lambda: sorted(names()) == sorted('abcdef')), names())
        running.terminate()
        running.wait()


# Kinds of pictures, seeds and words for which changes of the order alone ended at a larger set with --turn.
TURNED = [('near', 2, [], 20), ('near', 2, ['--dense'], 300), ('near', 4, ['--pages', '9', '--greatest', '64'], 20),
          ('near', 7, ['--width', '100'], 300), ('squares', 0, ['--pages', '9', '--greatest', '64'], 20), ('squares', 7, [], 300),
          ('squares', 7, ['--dense'], 300), ('squares', 1, ['--pages', '9', '--greatest', '64'], 300), ('bars', 1, [], 50)]


def sides(kind, seed):
    random_ = random.Random(seed)
    for _ in range(30):
        if kind == 'squares':
            yield (random_.choice([8, 11, 12, 16, 24]),) * 2
        elif kind == 'bars':
            yield random_.choice([(6, 30), (7, 28), (10, 20), (24, 5), (5, 33)])
        else:
            yield random_.randint(10, 22), random_.randint(10, 22)


def turned():
    """With --turn a set is never larger than without it, by the same effort: it has no more sheets, and of as many no more pixels. Each
    sheet that is told is smaller than the one before."""
    for kind, seed, more, effort in TURNED:
        with tempfile.TemporaryDirectory() as room:
            put(room + '/in', {'%d.png' % number: png(*side, number) for number, side in enumerate(sides(kind, seed))})
            costs = []
            for words in ([], ['--turn'], ['--turn', '--time', '100'], ['--turn', '--leave-out']):
                done = ended([room + '/in', room + '/sheet', '--no-animations', '--effort', str(effort), *more, *words])
                found = [(int(wide), int(high)) for wide, high in re.findall(r': (\d+)x(\d+),', done.stdout)]
                told = [int(wide) * int(high) for wide, high in re.findall(r'so far a sheet of (\d+)x(\d+) ', done.stderr)]
                assert done.returncode == 0 and told == sorted(set(told), reverse=True), (done.stdout, done.stderr)
                costs.append((len(found), sum(wide * high for wide, high in found)))
            check('turned: %s %d %s' % (kind, seed, ' '.join(more)), max(costs) == costs[0], costs)
            shutil.rmtree(room + '/in')


for each in (of_a_file, refused, beside_others, turned):
    each()
sys.exit(SUITE.end())
