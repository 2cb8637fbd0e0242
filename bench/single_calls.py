"""The dearest single calls of the lines of bench/worst, by steps first and then counted."""
import math
import re

import cliff_list
import player

WATCHED = re.compile(r'watched:(\w+):(\w+):(\d+):(\S+?):(\S+?):(\S+)')
AT = (4, 16)
SECONDS = 900
HEAD = '| instructions of one call | free boxes | call | calls | 99th of 100 | dearest | that moves slots | bytes |'


def numbers(text):
    """Calls as `watched` tells them: their numbers, their steps, and the bytes that they were given."""
    return [] if text == '-' else [tuple(int(word) for word in call.split('.')) for call in text.split('+')]


def found(program, genome):
    """What was watched of each part and call, and how many free boxes there were when asking began."""
    line = program.told('here', genome + ' watch=steps')
    calls = [(part, call, int(count), numbers(rare), numbers(dear), numbers(given))
             for part, call, count, rare, dear, given in WATCHED.findall(line)]
    return calls, int(re.search(r'holes:(\d+)', line).group(1))


def rows(line, at, program, counting):
    """A row for each part and call of a line."""
    genome = '%s at=%d' % (line.genome, at)
    calls, holes = found(program, genome)
    picked = {number for _, _, _, rare, dear, given in calls for number, _, _ in rare + dear + given[:1]}
    counts = player.counted_calls(counting, 'here', genome, picked, SECONDS) or {}
    for part, call, count, rare, dear, given in calls:
        worst = max((counts.get(number, 0) for number, _, _ in dear), default=math.nan)
        moved = given[0] if given else None
        cells = [line.name, '{:,}'.format(holes), '%s, %s' % (part, call), '{:,}'.format(count)]
        cells += [cliff_list.shown(counts.get(rare[0][0], math.nan) if rare else math.nan), cliff_list.shown(worst)]
        cells += ['{:,}'.format(counts.get(moved[0], 0)), '{:,}'.format(moved[2])] if moved else ['', '']
        yield '| ' + ' | '.join(cells) + ' |'


def run(path, program, counting):
    print(HEAD + '\n' + '|---' * (HEAD.count('|') - 1) + '|')
    for line in cliff_list.lines(path):
        if line.name and line.genome.split()[0] in ('atlas', 'simple', 'taken'):
            for at in AT:
                for row in rows(line, at, program, counting):
                    print(row, flush=True)
    return 0
