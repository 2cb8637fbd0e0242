"""Workloads drawn anew, for bench/worst: which of them cost more than so many times what they cost the Rust crate, and why."""
import json
import math
import os
import random

import climbing
import genomes
import player
from measure import say

# The steps of a part, here and in the crate's code, and the seconds of a count.
BUDGET, CRATE_BUDGET, SECONDS = 3_000_000, 12_000_000, 120
# From this ratio of steps on a part is counted in instructions: they are 0.5 to 1 times the ratio of instructions, of freeings up to 2.
SUSPECT, SUSPECT_FREE, MOST = 3.5, 1.5, 3.0
COUNTED_CALLS = 400
AT = 4
# What the cache over the crate's code does too.
BOTH = ('new', 'hit', 'draw', 'repack')


def drawn(chance):
    """A genome that the crate has too."""
    while True:
        genome = genomes.drawn(chance)
        if genome[''] != 'sheet':
            return genome


def suspects(program, genome):
    """The parts of a genome that took more than so many times the crate's steps, and the calls of each part."""
    if genome[''] == 'cache' and genome['do'] not in BOTH:
        return []
    line = '%s at=%d' % (genomes.line(genome), AT)
    here = program.play('here', line, BUDGET)
    bounds = {part: here.calls(part) for part in here.parts} if here else {}
    crate = program.play('crate', line, CRATE_BUDGET, {part: calls for part, calls in bounds.items() if part != 'free'}) if here else None
    if not here or not crate:
        say('ended badly: ' + line)
        return None
    if crate.calls('fill') < here.calls('fill') * 0.9:
        return []
    parts = []
    for part in climbing.parts_of(genome, here):
        # Each `clear` with a request after it costs the same: docs/BENCH.md, "What the smallest calls cost".
        if part != 'clear' and min(here.calls(part), crate.calls(part)) >= climbing.CALLS and here.each(part) >= climbing.DEAR:
            ratio = here.each(part) / max(crate.each(part), 5)
            if ratio >= (SUSPECT_FREE if part == 'free' else SUSPECT):
                parts.append({'line': line, 'part': part, 'steps': here.each(part), 'ratio': ratio, 'bounds': bounds,
                              'likeness': list(genomes.likeness(genome, part))})
    return parts


def count(counting, find):
    """Adds the instructions of a call here, by the crate's own code and by the patched one."""
    bounds = {part: calls for part, calls in find['bounds'].items() if part != 'free'}
    if find['part'] not in ('fill', 'free', 'rearrange', 'clear', 'grow'):
        bounds[find['part']] = min(bounds[find['part']], COUNTED_CALLS)
    for form in ('here', 'crate') + (() if find['line'].startswith('cache') else ('patched',)):
        find[form] = player.counted(counting, form, find['line'], find['part'], bounds, SECONDS)
        if form == 'crate' and find['here'] and find['crate'] and find['here'] <= MOST * find['crate']:
            return find
    return find


def over(find):
    """How many times the crate's instructions, or nan."""
    return find['here'] / find['crate'] if find.get('here') and find.get('crate') else math.nan


def run(program, counting, seed, many, path):
    """Plays so many genomes, counts the suspects, prints those above `MOST`, and leaves all in a file."""
    chance, found, played = random.Random(seed), [], 0
    for _ in range(many):
        some = suspects(program, drawn(chance))
        played += some is not None
        found += some or []
        if played % 100 == 0:
            say('%d played, %d parts above %.1f by steps' % (played, len(found), SUSPECT))
    os.makedirs(os.path.dirname(path), exist_ok=True)
    found.sort(key=lambda find: -find['ratio'])
    for place, find in enumerate(found):
        count(counting, find)
        if place % 10 == 9 or place == len(found) - 1:
            say('%d of %d counted' % (place + 1, len(found)))
            with open(path, 'w') as file:
                json.dump({'seed': seed, 'played': played, 'found': found}, file, indent=1)
    bad = sorted((find for find in found if over(find) > MOST), key=lambda find: -over(find))
    print('%d genomes, seed %d: %d parts counted, %d above %.1f times the crate; %d not counted in %d seconds' % (
        played, seed, len(found), len(bad), MOST, sum(math.isnan(over(find)) for find in found), SECONDS))
    print('| here | the crate | ratio | the patched crate | ratio | part | genome |\n%s|' % ('|---' * 7))
    for find in bad:
        patched = find.get('patched') or math.nan
        print('| %.0f | %.0f | %.1f | %.0f | %.2f | %s | `%s` |' % (
            find['here'], find['crate'], over(find), patched, find['here'] / patched, find['part'], find['line']))
    return 0
