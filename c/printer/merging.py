"""Prints once what the types of two uses make alike: structs, and functions, of one name in the sources with one text. Says which functions
are put where they are called, and prints some loops twice."""
import collections
import re

WORD = re.compile(r'\b[A-Za-z_]\w*\b')
# Lines that compute nothing.
BESIDE = re.compile(r'    (?:const )?\w+ \*?\w+;|    \(void\)\w+;|\s*\}')
# How a function begins that tests a field of what a parameter points to; and a call of names.
TEST = re.compile(r'    if \((\w+)\(&(\w+)->(\w+)\)\) \{')
CALL = re.compile(r'\b(\w+)\(([^()]*)\)')


class Piece:
    """A struct or a function: its name in C, what it is called in the sources, and its lines."""

    def __init__(self, name, source, lines):
        self.name, self.source, self.lines = name, source, lines

    def key(self):
        """Equal for those that differ in their own name alone."""
        return self.source, tuple(re.sub(r'\b%s\b' % self.name, '@', line) for line in self.lines)


def renamed(line, names):
    return WORD.sub(lambda match: names.get(match[0], match[0]), line)


def round_of(pieces):
    """Which pieces are like an earlier one, and the name of that."""
    first, names = {}, {}
    for piece in pieces:
        key = piece.key()
        if key in first:
            names[piece.name] = first[key]
        else:
            first[key] = piece.name
    return names


def merged(groups, others):
    """Groups of pieces without those that are like another; lines of others follow the new names."""
    while True:
        names = {}
        for pieces in groups:
            names.update(round_of(pieces))
        if not names:
            return groups, others
        groups = [[piece for piece in pieces if piece.name not in names] for pieces in groups]
        for pieces in groups:
            for piece in pieces:
                piece.lines = [renamed(line, names) for line in piece.lines]
        others = [renamed(line, names) for line in others]


class Calls:
    """Which functions are put where they are called: those that are called at one place; those of which all copies but one have at most
    `more` lines, with what is put into them; and those of at most `most` lines without a loop, which have at most `whole` with it. A cold
    one never is, and its lines don't count where it is called. `others` are lines that call some too."""

    def __init__(self, functions, others, cold, most, more, whole):
        self.cold, self.most, self.more, self.whole = cold, most, more, whole
        self.bodies = {piece.name: [line for line in piece.lines[1:-1] if not BESIDE.fullmatch(line)] for piece in functions}
        self.called = {name: collections.Counter(self.names_in(body)) for name, body in self.bodies.items()}
        self.places = sum(self.called.values(), collections.Counter(self.names_in(others)))
        self.weight, self.begun, self.placed = {}, set(), set()
        for name in self.bodies:
            self.visit(name)

    def names_in(self, lines):
        return [word for line in lines for word in WORD.findall(line) if word in self.bodies]

    def visit(self, name):
        """Decides of a function after those that it calls; one that leads back to itself stays."""
        if name in self.begun:
            return
        self.begun.add(name)
        called = self.called[name]
        for each in called:
            self.visit(each)
        body = self.bodies[name]
        self.weight[name] = len(body) + sum(count * (self.weight[each] - 1) for each, count in called.items() if each in self.placed)
        if name in self.cold or any(each not in self.weight or each == name for each in called):
            return
        is_small = len(body) <= self.most and self.weight[name] <= self.whole and not any('for (;;)' in line for line in body)
        if is_small or (self.places[name] - 1) * self.weight[name] <= self.more:
            self.placed.add(name)


class Loops:
    """Which loops are printed twice, in both arms of a test: those that write to locals alone and call a function that begins with a test
    of a field, to which a parameter points. For at -O2 compilers leave such a test in a loop, which says nothing new each time."""

    def __init__(self, functions):
        self.heads = {piece.name: piece.lines[0] for piece in functions}
        self.bodies = {piece.name: [line for line in piece.lines[1:-1] if not BESIDE.fullmatch(line)] for piece in functions}

    def is_plain(self, name):
        """Whether a function is one expression, which calls only such functions."""
        body = self.bodies.get(name, ())
        return len(body) == 1 and body[0].startswith('    return ') and all(map(self.is_plain, re.findall(r'(\w+)\(', body[0])))

    def parameters(self, name):
        head = self.heads[name]
        return head[head.index('(') + 1:head.rindex(')')].split(', ')

    def is_alike(self, lines):
        """Whether these write to locals alone, as far as is seen, and none has a label."""
        called = [name for line in lines for name in WORD.findall(line) if name in self.heads]
        return not any(' = ' in line and not re.match(r' +\w+ = ', line) or line.endswith(':') for line in lines) and not any(
            '*' in each and not each.startswith('const ') for name in called for each in self.parameters(name))

    def test(self, name, lines):
        """What a call in these lines of a function tests first, of a parameter of the function that stays as it is; None if none does."""
        for called, given in (found for line in lines for found in CALL.findall(line)):
            begun = TEST.match((self.bodies.get(called) or [''])[0])
            if begun and self.is_plain(begun[1]):
                names = [each.split()[-1].lstrip('*') for each in self.parameters(called)]
                word = given.split(', ')[names.index(begun[2])] if begun[2] in names else ''
                is_constant = any(re.fullmatch(r'const \w+ \*%s' % re.escape(word), each) for each in self.parameters(name))
                if is_constant and not any(line.lstrip().startswith(word + ' = ') for line in self.bodies[name]):
                    return '%s(&%s->%s)' % (begun[1], word, begun[3])
        return None

    def lines(self, piece):
        """The lines of a function, with its first loop printed twice if it is one of these."""
        if '    for (;;) {' not in piece.lines:
            return piece.lines
        first = piece.lines.index('    for (;;) {')
        last = piece.lines.index('    }', first) + 1
        loop = piece.lines[first:last]
        test = self.test(piece.name, loop) if self.is_alike(loop) else None
        if test is None:
            return piece.lines
        inner = ['    ' + line for line in loop]
        return piece.lines[:first] + ['    if (%s) {' % test] + inner + ['    } else {'] + inner + ['    }'] + piece.lines[last:]
