"""Genomes: lines that say what bench/cliffs plays. How they are drawn and changed, for bench/worst."""

# Powers of two, what is next to them, and the sides at which the tables of the search begin another band.
SIDES = [1, 1, 2, 3, 4, 5, 8, 12, 15, 16, 17, 20, 24, 31, 32, 33, 48, 63, 64, 65, 72, 96, 127, 128, 129, 136, 144, 192, 256, 257, 264, 320]
SPANS = [1, 2, 3, 8, 16, 40, 77, 100, 300]
STEPS = [1, 1, 1, 2, 8, 8, 16, 32]
ATLASES = ['512x512', '1024x1024', '1024x1024', '2048x2048', '2048x2048', '4096x256', '256x4096', '16384x256', '32x32768']
CHOICES = {
    'align': ['1x1', '1x1', '1x1', '4x4', '8x8', '16x1', '1x16', '32x32'],
    'thresholds': ['32x256', '32x256', '32x256', '1x1', '8x64', '64x1024', '10000x10000', '256x256', '1x10000', '300x600'],
    'freed': ['none', 'second', 'second', 'share:30', 'share:50', 'share:70', 'share:90', 'share:98', 'oldest:50', 'newest:50', 'rows',
              'columns', 'part:0', 'all'],
    'order': ['given', 'given', 'shuffled'],
    'do': ['refill', 'refill', 'pair', 'one', 'one', 'one-oldest', 'one-newest', 'rounds'],
    'then': ['none', 'none', 'none', 'grow', 'rearrange', 'clear', 'grow+rearrange+clear'],
    'scale': ['both', 'both', 'both', 'wide', 'high'],
    'boxes': ['1000', '4000', '10000', '40000', '200000'],
    'calls': ['500', '1000', '4000'],
    'size': ATLASES,
}
CACHES = {
    'page': ['64x64', '128x128', '256x256', '512x512'],
    'pages': ['1', '1', '2', '4', '16', '64'],
    'padding': ['0', '0', '1'],
    'held': ['200', '1000', '4000', '10000'],
    'blanks': ['0', '0', '0', '1000', '10000'],
    'do': ['new', 'new', 'hit', 'draw', 'repack', 'trim', 'clear', 'remove', 'shrink', 'unusable', 'older'],
    'scale': ['both', 'pages', 'none'],
    'calls': ['200', '500'],
}
SHEETS = {
    'do': ['pack', 'fill', 'pages', 'groups', 'dense'],
    'allowed': ['squares', 'powers', 'heights:32', 'heights:256', 'one:64', 'one:128', 'one:256', 'area:70', 'area:100', 'area:130'],
    'boxes': ['60', '125', '250', '500'],
    'groups': ['pairs:2', 'pairs:8', 'round:2', 'round:60'],
    'turn': ['0', '0', '1'],
    'padding': ['0', '0', '1'],
}
# What is left out of a line.
USUAL = {'align': '1x1', 'thresholds': '32x256', 'order': 'given', 'then': 'none', 'scale': 'both', 'padding': '0', 'blanks': '0',
         'turn': '0'}
WORDS = {'atlas': CHOICES, 'taken': CHOICES, 'simple': CHOICES, 'cache': CACHES, 'sheet': SHEETS}
KINDS = ['atlas'] * 14 + ['taken', 'simple', 'simple', 'cache', 'cache', 'sheet']


def side(random):
    low = random.choice(SIDES)
    if random.random() < 0.6:
        return str(low)
    step = random.choice(STEPS)
    return '%d-%d%s' % (low, low + step * random.choice(SPANS), '/%d' % step if step > 1 else '')


def sizes(random):
    parts = ['%sx%s' % (side(random), side(random)) for _ in range(random.choice([1, 1, 1, 2, 2, 3]))]
    if len(parts) == 2 and random.random() < 0.4:
        parts[1] = '%sx%s' % (parts[0].split('x')[0], side(random))
    order = random.choice(['', '', 'turn:', 'turn:', 'rising:', 'falling:'])
    return order + '+'.join(parts)


def drawn(random):
    """A genome by chance."""
    kind = random.choice(KINDS)
    genome = {'': kind, 'fill': sizes(random), 'seed': str(random.randrange(1, 1_000_000))}
    for word, values in WORDS[kind].items():
        genome[word] = random.choice(values)
    if kind in ('atlas', 'taken', 'simple'):
        genome['ask'] = genome['fill'] if random.random() < 0.5 else changed_sizes(random, genome['fill'])
    if kind in ('taken', 'simple'):
        genome.update(then='none', do='refill')
    return genome


def changed_number(random, number):
    return str(max(1, random.choice([number * 2, number // 2, number + 1, number - 1, number + 8, number - 8, number + 64])))


def changed_sizes(random, text):
    """With another number, another order or a part more or less."""
    order, _, parts = text.rpartition(':')
    parts = parts.split('+')
    choice = random.randrange(6)
    if choice == 0:
        order = random.choice(['', 'turn', 'rising', 'falling'])
    elif choice == 1:
        parts = parts[1:] if len(parts) > 1 else parts + ['%sx%s' % (side(random), side(random))]
    elif choice == 2:
        return sizes(random)
    else:
        place = random.randrange(len(parts))
        sides = parts[place].split('x')
        which = random.randrange(2)
        sides[which] = changed_number(random, int(sides[which])) if sides[which].isdigit() else side(random)
        parts[place] = 'x'.join(sides)
    return (order + ':' if order else '') + '+'.join(parts)


def mutated(random, genome):
    genome = dict(genome)
    for _ in range(random.choice([1, 1, 2, 3])):
        word = random.choice(sorted(WORDS[genome['']]) + ['fill', 'ask', 'ask', 'fill'])
        if word == 'ask' and genome[''] in ('cache', 'sheet'):
            word = 'fill'
        if word in ('fill', 'ask'):
            genome[word] = changed_sizes(random, genome[word])
            if word == 'fill' and 'ask' in genome and random.random() < 0.5:
                genome['ask'] = genome['fill']
        elif genome[''] not in ('taken', 'simple') or word not in ('then', 'do'):
            genome[word] = random.choice(WORDS[genome['']][word])
    return genome


def line(genome):
    words = ['%s=%s' % pair for pair in genome.items() if pair[0] and USUAL.get(pair[0]) != pair[1]]
    return ' '.join([genome['']] + words)


def likeness(genome, part):
    """Genomes that are alike in this are one find."""
    order, _, parts = genome['fill'].rpartition(':')
    equal = ','.join('%d' % sum(each.isdigit() for each in some.split('x')) for some in parts.split('+'))
    return genome[''], genome['do'], genome.get('freed', '').split(':')[0], order, equal, part
