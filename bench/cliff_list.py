"""The fixed list of bench/worst, counted, beside what docs/BENCH.md says of it, and as a test."""
import concurrent.futures
import math
import os
import re

import player
from measure import ROOT, Failure
from runner import Suite

PATH = os.path.join(ROOT, 'bench', 'cliffs', 'list')
PAGE = os.path.join(ROOT, 'docs', 'BENCH.md')
# How much a call may grow from n to 4n, how much more than it is known to, and how much dearer it may be than the page says.
MOST, MORE, WORSE = 1.5, 1.25, 1.1
SECONDS = 900
# How many calls of the patched copy are counted: it looks at every box.
PATCHED_CALLS = 100
HEAD = '| instructions of a call | n | 4n | 16n | grows by | the crate, n | 4n | ratio | patched, 4n | ratio |'


class Line:
    """A line of the list: its genome, its name or '', the growth that is known or None, and whether the test leaves it out."""

    def __init__(self, text):
        text, _, name = text.partition('#')
        words = text.split()
        self.is_dear = words[0] == 'dear'
        words = words[self.is_dear:]
        known = re.match(r'grows=([0-9.]+)$', words[0])
        self.known = float(known.group(1)) if known else None
        self.genome = ' '.join(words[bool(known):])
        self.name = name.strip()
        part = re.search(r' part=(\w+)', self.genome)
        self.part = part.group(1) if part else 'ask'

    def has(self, form):
        """Whether a form has this workload."""
        kind = self.genome.split()[0]
        is_atlas = kind in ('atlas', 'simple', 'taken') and 'do=can_fit' not in self.genome
        return form == 'here' or is_atlas or form == 'crate' and kind == 'cache' and 'do=keep' not in self.genome

    def counted(self, program, form, at):
        """Instructions of a call, or nan."""
        if not self.has(form):
            return math.nan
        bounds = {self.part: PATCHED_CALLS} if form == 'patched' and self.part == 'ask' else {}
        return player.counted(program, form, '%s at=%d' % (self.genome, at), self.part, bounds, SECONDS) or math.nan


def lines(path):
    with open(path) as file:
        return [Line(text) for text in file if text.partition('#')[0].strip()]


def table_lines(text):
    """The lines of the page's table: the first one, and the one after the last."""
    lines = text.split('\n')
    if HEAD not in lines:
        raise Failure('%s has no table %s' % (PAGE, HEAD))
    first = lines.index(HEAD)
    end = first
    while lines[end].startswith('|'):
        end += 1
    return lines, first, end


def said():
    """What the page says of each row: the numbers of its cells, nan where one is empty."""
    text, first, end = table_lines(player.read(PAGE))
    rows = [[cell.strip() for cell in line.split('|')[1:-1]] for line in text[first + 2:end]]
    return {cells[0]: [float(cell.replace(',', '') or 'nan') for cell in cells[1:]] for cells in rows}


def verdict(line, small, large, page):
    """What the test says of a line, and whether it passes."""
    told = page.get(line.name) if line.name else None
    if line.name and not told:
        return 'IS NOT ON THE PAGE', False
    if told and (small > WORSE * told[0] or large > WORSE * told[1]):
        return 'IS WORSE than the page says, %.0f and %.0f' % tuple(told[:2]), False
    if large / small > (MORE * line.known if line.known else MOST):
        return 'GROWS', False
    return ('no longer grows: delete its first word' if line.known and large / small <= MOST else 'passes'), True


def test(path, program):
    """Counts the lines that aren't dear, at n and at 4n."""
    suite, page = Suite(), said()
    listed = [line for line in lines(path) if not line.is_dear]
    with concurrent.futures.ThreadPoolExecutor(2) as pool:
        futures = [pool.submit(lambda line: [line.counted(program, 'here', at) for at in (1, 4)], line) for line in listed]
        for line, future in zip(listed, futures):
            small, large = future.result()
            what, passes = verdict(line, small, large, page)
            suite.passed, suite.failed = suite.passed + passes, suite.failed + (not passes)
            print('%s: %.0f, %.0f at 4n: %s' % (line.name or line.genome, small, large, what), flush=True)
    return suite.end()


def shown(number, places=0):
    return '' if math.isnan(number) else '{:,.{}f}'.format(number, places)


def places(ratio):
    return 1 if ratio >= 0.1 else 2 if ratio >= 0.01 else 4


class Row:
    """A row of the page's table."""

    def __init__(self, line, program, told):
        """What the page tells of it, or None where the crate's own code is counted too."""
        self.name = line.name
        self.here = [line.counted(program, 'here', at) for at in (1, 4, 16)]
        if told:
            self.crate, self.patched = told[4:6], told[7]
        else:
            self.crate = [line.counted(program, 'crate', at) for at in (1, 4)]
            self.patched = line.counted(program, 'patched', 4)
        self.growth = max((large / small for small, large in zip(self.here, self.here[1:]) if large == large), default=math.nan)
        # At 4n, or at n where the crate's filling takes too long at 4n.
        at = 0 if math.isnan(self.crate[1]) else 1
        self.ratio = self.here[at] / self.crate[at]

    def shown(self):
        beside = self.here[1] / self.patched
        cells = [self.name] + [shown(each) for each in self.here] + [shown(self.growth, 2)] + [shown(each) for each in self.crate]
        cells += [shown(self.ratio, places(self.ratio)), shown(self.patched), shown(beside, places(beside))]
        return '| ' + ' | '.join(cells) + ' |'


def table(path, program, has_crate, is_written):
    """Prints the rows with a name, the worst beside the crate first, and writes them into the page if asked to. Without the crate's own
    code its columns are those of the page."""
    rows, page = [], {} if has_crate else said()
    named = [line for line in lines(path) if line.name]
    if not has_crate and any(line.name not in page for line in named):
        raise Failure('%s lacks a row: it needs ORACLE and ALLOCATOR' % PAGE)
    with concurrent.futures.ThreadPoolExecutor(2) as pool:
        for row in pool.map(lambda line: Row(line, program, page.get(line.name)), named):
            print(row.shown(), flush=True)
            rows.append(row)
    rows.sort(key=lambda row: (math.isnan(row.ratio), -row.ratio if row.ratio == row.ratio else -row.here[1]))
    all_lines = [HEAD, '|---' * (HEAD.count('|') - 1) + '|'] + [row.shown() for row in rows]
    print('\n' + '\n'.join(all_lines))
    if is_written:
        text, first, end = table_lines(player.read(PAGE))
        player.write(PAGE, '\n'.join(text[:first] + all_lines + text[end:]))
    return 0
