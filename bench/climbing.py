"""The search of bench/worst: genomes are drawn, played and changed, and the worst are kept."""
import concurrent.futures
import math
import random
import time

import genomes
import player
from measure import say

# The steps of a part, and the seconds of a count.
BUDGET = 10_000_000
SECONDS = 40
# The least calls of a part that is compared, and the least steps of a call that is dear.
CALLS, DEAR = 64, 60
KEPT = 40
DRAWN_FIRST = 60
COUNTED_CALLS = 400
HEAD = '| %s, by steps | part | instructions a call, n | 4n | growth | the crate, 4n | ratio | genome |'


class Find:
    """A genome, the part of it that is bad, how bad, and in which way."""

    def __init__(self, genome, part, value, way, calls):
        self.genome, self.part, self.value, self.way, self.calls = genome, part, value, way, calls
        self.line = genomes.line(genome)

    def likeness(self):
        return (self.way,) + genomes.likeness(self.genome, self.part)


def bounds_of(played):
    """The calls of all parts after the filling."""
    return {part: max(16, played.calls(part)) for part in played.parts if part not in ('fill', 'free')}


def parts_of(genome, played):
    """The parts that are compared. A cache that isn't full yet evicts nothing, so its filling isn't."""
    return [part for part in played.parts if part != 'fill' or genome[''] != 'cache']


def growths(genome, large, small):
    """How much dearer a call of each part is at 4n. What is dear at last counts for more."""
    for part in parts_of(genome, large):
        if min(large.calls(part), small.calls(part)) >= CALLS and large.each(part) >= DEAR and small.each(part) > 0:
            growth = large.each(part) / small.each(part)
            yield Find(genome, part, min(growth, 6) * math.log(large.each(part)), 'growth', large.calls(part))


def ratios(genome, here, crate):
    """How many times the crate's steps a call of each part takes."""
    if crate.calls('fill') < here.calls('fill') * 0.9:
        return
    for part in parts_of(genome, here):
        if min(here.calls(part), crate.calls(part)) >= CALLS and here.each(part) >= DEAR:
            yield Find(genome, part, here.each(part) / max(crate.each(part), 10), 'ratio', here.calls(part))


def found(program, genome, has_crate):
    """What is bad in a genome."""
    line = genomes.line(genome)
    large = program.play('here', line + ' at=4', BUDGET)
    small = program.play('here', line, BUDGET, bounds_of(large)) if large else None
    if not small:
        say('ended badly: ' + line)
        return []
    finds = list(growths(genome, large, small))
    if has_crate and genome[''] != 'sheet':
        crate = program.play('crate', line + ' at=4', BUDGET, bounds_of(large))
        finds += list(ratios(genome, large, crate)) if crate else []
    return finds


class Kept:
    """The worst finds of each way; of those that are alike one."""

    def __init__(self):
        self.finds = {}

    def add(self, find):
        known = self.finds.get(find.likeness())
        if known is None or known.value < find.value:
            self.finds[find.likeness()] = find

    def worst(self, way, count, alike=3):
        """So many; of those that came of one genome, and so have its seed, at most a few."""
        some, seeds = [], {}
        for find in sorted((find for find in self.finds.values() if find.way == way), key=lambda find: -find.value):
            seed = find.genome['seed']
            seeds[seed] = seeds.get(seed, 0) + 1
            if seeds[seed] <= alike and len(some) < count:
                some.append(find)
        return some


def climb(program, counting, has_crate, minutes, seed):
    """Plays for so many minutes, and prints the ten worst of each way."""
    chance, kept, played, end = random.Random(seed), Kept(), 0, time.monotonic() + 60 * minutes
    ways = ['growth', 'ratio'] if has_crate else ['growth']
    while time.monotonic() < end:
        parents = kept.worst(ways[played % len(ways)], KEPT)
        if played < DRAWN_FIRST or not parents or chance.random() < 0.25:
            genome = genomes.drawn(chance)
        else:
            # A low place is likelier than a high one.
            genome = genomes.mutated(chance, parents[int(len(parents) * chance.random() ** 2)].genome)
        played += 1
        for find in found(program, genome, has_crate):
            kept.add(find)
    print('%d genomes played, seed %d.' % (played, seed), flush=True)
    with concurrent.futures.ThreadPoolExecutor(2) as pool:
        for way in ways:
            print('\n' + HEAD % way + '\n' + '|---' * 8 + '|')
            for line in pool.map(lambda find: row(counting, find, has_crate), kept.worst(way, 10, 2)):
                print(line, flush=True)
    return 0


def row(counting, find, has_crate):
    """A find, counted by callgrind: over the first calls of its part."""
    calls = min(find.calls, COUNTED_CALLS)
    is_asked = find.part not in ('fill', 'free', 'rearrange', 'clear')

    def count(form, at):
        bounds = {find.part: calls} if is_asked else {}
        each = player.counted(counting, form, '%s at=%d' % (find.line, at), find.part, bounds, SECONDS) if counting else None
        return each or math.nan

    small, large = count('here', 1), count('here', 4)
    crate = count('crate', 4) if has_crate and not find.line.startswith('sheet') else math.nan
    cells = ['%.1f' % find.value, find.part] + ['%.0f' % each for each in (small, large)] + ['%.2f' % (large / small)]
    return '| ' + ' | '.join(cells + ['%.0f' % crate, '%.1f' % (large / crate), '`%s`' % find.line]) + ' |'
