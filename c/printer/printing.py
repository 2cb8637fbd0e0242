"""The whole file: functions as they are reached from the exports, types, constants, and what they stand on."""
import collections
import os
import re

import border
from bodies import Body
from merging import WORD, Calls, Loops, Piece, merged
from mir import Unknown, only
from shapes import Shapes, declaration, is_library, word

HERE = os.path.dirname(os.path.abspath(__file__))
Key = collections.namedtuple('Key', ['name', 'types', 'methods'])
# Of functions that are put where they are called: how many lines one has, how many all copies but one, and how many with all in it.
SMALL = (12, 300, 620)
LONGEST = 140
# What has no body: it stands in heap.c.
FOREIGN = {'libc::heap::rattle_alloc', 'libc::heap::rattle_realloc', 'libc::heap::rattle_dealloc'}


def support(name):
    with open(os.path.join(HERE, name)) as file:
        return file.read().rstrip('\n').split('\n')


class Printer:
    def __init__(self, world, names, headers=None):
        self.world, self.names = world, names
        self.shapes = Shapes(world, names, headers)
        self.called, self.taken, self.queue, self.printed = {}, {}, [], []
        self.statics, self.makers, self.foreign, self.count = [], {}, set(), 0

    # Functions

    @staticmethod
    def key(name, types=(), methods=()):
        return Key(name, tuple(types), tuple(methods))

    def name(self, key):
        if key not in self.called:
            words = [self.shapes.short(each) for each in key.types if not self.shapes.is_empty(each)]
            name = base = re.sub(r'\W+', '_', '_'.join([key.name] + words))
            number = 2
            while name in self.taken:
                name, number = '%s_%d' % (base, number), number + 1
            self.taken[name] = key
            self.called[key] = name
        return self.called[key]

    def use(self, key):
        """The name of a function, which is printed then."""
        if key not in self.called:
            self.queue.append(key)
        return self.name(key)

    def callee(self, node, within):
        kind, held = only(node)
        if kind == 'Fn':
            return self.instance(held[0], (), (), held[1], within)
        if kind == 'Method':
            _, name, types, methods = self.methods(held[0], within)
            return self.instance(self.world.method(name, held[1]), types, methods, held[2], within)
        raise Unknown('callee ' + kind)

    def instance(self, name, types, methods, more, within):
        return self.key(name, types + tuple(self.shapes.of(each, within.types) for each in more['types']),
                        methods + tuple(self.methods(each, within) for each in more['dicts']))

    def methods(self, node, within):
        """Which impl stands for a bound."""
        kind, held = only(node)
        if kind == 'Given':
            return within.methods[held]
        if kind == 'Impl':
            return ('Impl', held[0], tuple(self.shapes.of(each, within.types) for each in held[1]),
                    tuple(self.methods(each, within) for each in held[2]))
        raise Unknown('methods ' + kind)

    def run(self):
        while self.queue:
            key = self.queue.pop(0)
            function = self.world.function(key.name)
            generics = function['generics']
            if len(key.types) != len(generics['types']) or len(key.methods) != len(generics['bounds']):
                raise Unknown('%s has other parameters' % key.name)
            if only(function['body'][0])[0] == 'Foreign':
                self.foreign_one(key)
                continue
            try:
                self.printed.append((key,) + Body(self, key).lines())
            except Unknown as fault:
                raise Unknown('%s, in %s' % (fault, key.name)) from None

    def foreign_one(self, key):
        if key.name not in FOREIGN:
            raise Unknown('the foreign function ' + key.name)
        self.foreign.add(key.name)

    # Values that are made

    def maker(self, kind, variant):
        """The function that makes a struct of its parts."""
        name = 'new_' + self.shapes.name(kind) + ('' if variant is None else '_' + self.shapes.variant(kind, variant))
        if (kind, variant) not in self.makers:
            self.makers[kind, variant] = (name, self.maker_lines(name, kind, variant))
        return name

    def maker_lines(self, name, kind, variant):
        if kind[0] == 'Array':
            given = [(kind[1], 'at_%d' % each, 'at[%d]' % each, None) for each in range(kind[2])]
        else:
            form, parts = self.shapes.shape(kind)
            parts, first = (parts, 0) if variant is None else (parts[variant], 1)
            given = [(part, self.shapes.field(kind, variant, index + first), self.shapes.path(kind, variant, index + first),
                      self.shapes.outer(kind, index) if variant is None else None)
                     for index, part in enumerate(parts) if not self.shapes.is_empty(part)]
        words = ', '.join(self.shapes.fixed(part, field) for part, field, _, _ in given) or 'void'
        lines = ['MAKER %s %s(%s) {' % (self.shapes.c(kind), name, words), '    %s it;' % self.shapes.c(kind)]
        if variant is not None:
            lines.append('    it.tag = %du;' % variant)
        for part, field, path, outer in given:
            cast = '(%s)' % outer if outer and part[0] == 'Int' and outer != self.shapes.c(part) else ''
            lines.append('    it.%s = %s%s;' % (path, cast, field))
        return lines + ['    return it;', '}', '']

    def repeater(self, kind):
        """The function that makes an array of equal elements."""
        name = 'all_' + self.shapes.name(kind)
        if (kind, 'all') not in self.makers:
            head = 'MAKER %s %s(%s) {' % (self.shapes.c(kind), name, self.shapes.fixed(kind[1], 'each'))
            lines = [head, '    %s it;' % self.shapes.c(kind), '    uint64_t i;',
                     '    for (i = 0; i < %d; i++) it.at[i] = each;' % kind[2], '    return it;', '}', '']
            self.makers[kind, 'all'] = (name, lines)
        return name

    def static(self, kind, constant):
        """The name of a constant that has an address."""
        text = 'const %s = %s;' % (declaration(self.shapes.c(kind), '%s'), self.constant(constant, kind))
        if text not in self.statics:
            self.statics.append(text)
        return 'constant_%d' % (self.statics.index(text) + 1)

    def constant(self, node, kind):
        form, held = only(node)
        if form in ('True', 'False'):
            return form.lower()
        if form == 'Bool':
            return 'true' if held else 'false'
        if form == 'Int':
            return '%du' % held['value'] if held['value'] <= 0xffffffff else 'UINT64_C(%d)' % held['value']
        if form == 'Ints':
            return '{{%s}}' % ', '.join('%du' % each for each in held['values'])
        if form == 'Parts' and kind[0] == 'Array':
            return '{{%s}}' % ', '.join(self.constant(each, kind[1]) for each in held)
        if form == 'Parts':
            return self.constant_parts(held, kind)
        raise Unknown('constant ' + form)

    def constant_parts(self, held, kind):
        form, parts = self.shapes.shape(kind)
        if form == 'Fields':
            words = [self.constant(each, part) for each, part in zip(held, parts) if not self.shapes.is_empty(part)]
            return '{%s}' % ', '.join(words)
        tag, filled = held[0]['Int']['value'], self.shapes.filled(kind)
        words = [self.constant(each, part) for each, part in zip(held[1:], parts[tag]) if not self.shapes.is_empty(part)]
        if words and filled != [tag]:
            raise Unknown('a constant of one of several variants')
        return '{%du%s}' % (tag, ', {%s}' % ', '.join(words) if filled and words else '')

    # The file

    def documentation(self, key):
        known = self.names.function(key.name)
        if known is None:
            return ['/* %s */' % key.name]
        lines = ['/* ' + line.replace('*/', '* /') for line in known.documentation + [known.place]]
        return lines[:1] + [' * ' + line[3:] for line in lines[1:]] + [' */'] if len(lines) > 1 else [lines[0] + ' */']

    def is_cold(self, key):
        """Whether its source says that it is seldom called."""
        known = self.names.function(key.name)
        return known is not None and known.is_cold

    def structs(self):
        """Each struct, and for a reader the name in the sources of those that aren't of a library."""
        pieces, told = [], {}
        for kind in self.shapes.order():
            pieces.append(Piece(self.shapes.name(kind), kind[1] if kind[0] == 'Named' else kind[0], self.shapes.definition(kind)))
            if kind[0] == 'Named' and not is_library(kind[1]):
                told[self.shapes.name(kind)] = ['/* %s */' % kind[1]]
        return pieces, told

    def sizes(self):
        """The sizes that proofs took, and those of the header's structs, asserted where pointers have 64 bits."""
        outer = {kind: self.shapes.sized(kind)[0] for kind in self.shapes.found if self.shapes.is_outer(kind)}
        return ['sizeof(%s) == %d' % (self.shapes.c(kind), size) for kind, size in {**self.shapes.strides, **outer}.items()]

    def text(self, wrappers=()):
        """All of the file, after run()."""
        structs, told = self.structs()
        makers = [Piece(name, 'maker', lines) for name, lines in self.makers.values()]
        functions = [Piece(self.name(key), key.name, [head + ' {'] + lines + ['}']) for key, head, lines in self.printed]
        notes = {self.name(key): self.documentation(key) for key, _, _ in self.printed}
        cold = {self.name(key) for key, _, _ in self.printed if self.is_cold(key)}
        statics = ['static ' + text % ('constant_%d' % (index + 1)) for index, text in enumerate(self.statics)]
        groups, others = merged([structs, makers, functions], statics + ['//'] + self.sizes() + ['//'] + list(wrappers))
        statics, sizes, wrappers = parted(others)
        self.count = len(groups[2])
        inner = (support('heap.c') if self.foreign else []) + (support('lanes.c') if self.shapes.has_lanes else []) + ['']
        called = set(WORD.findall('\n'.join([line for piece in groups[2] for line in piece.lines] + wrappers)))
        made = [line for piece in groups[1] if piece.name in called for line in piece.lines]
        parts = [support('support.c'), ['', *typed(groups[0], told)], asserted(sizes), inner, made, statics, [''],
                 written(groups[2], notes, cold, wrappers), wrappers]
        return '\n'.join(each for part in parts for line in part for each in folded(line)).rstrip('\n') + '\n'


def folded(line):
    """A line of code that isn't long, or those that it is folded into, behind commas or before `&&` and `||`."""
    if line[:1] in ('#', '/') or line.startswith(' *') or '"' in line:
        return [line]
    lines, pad = [], re.match(' *', line)[0] + '        '
    while len(line) > LONGEST:
        at = max(line.rfind(', ', 0, LONGEST) + 1, line.rfind(' && ', 0, LONGEST), line.rfind(' || ', 0, LONGEST))
        if at <= len(pad):
            break
        lines.append(line[:at])
        line = pad + line[at:].lstrip()
    return lines + [line]


def parted(lines):
    """Three lists, where lines `//` divide them."""
    one = lines.index('//')
    other = lines.index('//', one + 1)
    return lines[:one], lines[one + 1:other], lines[other + 1:]


def typed(structs, told):
    lines = ['typedef struct %s %s;' % (piece.name, piece.name) for piece in structs] + ['']
    for piece in structs:
        lines += told.get(piece.name, []) + piece.lines + ['']
    return lines


def asserted(sizes):
    tests = ['typedef char size_%d[%s ? 1 : -1];' % (index + 1, test) for index, test in enumerate(sorted(set(sizes)))]
    return ['#if UINTPTR_MAX > 0xffffffffu'] + tests + ['#endif', '']


def written(functions, notes, cold, wrappers):
    """Declarations, and then the functions; some are put where they are called, and some loops are printed twice."""
    loops = Loops(functions)
    for piece in functions:
        piece.lines = loops.lines(piece)
    inner = Calls(functions, wrappers, cold, *SMALL).placed
    heads = {piece.name: '%s %s' % ('COLD' if piece.name in cold else 'SMALL' if piece.name in inner else 'PART', piece.lines[0])
             for piece in functions}
    lines = [heads[piece.name][:-2] + ';' for piece in functions] + ['']
    for piece in functions:
        lines += notes[piece.name] + [heads[piece.name]] + piece.lines[1:] + ['']
    return lines


def of(world, names):
    """guillotiere.c: all exports of the header, and what they reach."""
    with open(os.path.join(border.ROOT, 'bindings', 'c', 'guillotiere.h')) as file:
        header = border.Header(file.read())
    printer = Printer(world, names, border.types_of_header(header, world))
    wrappers = ['/* The exports, as the header declares them. */', '']
    for export in header.exports:
        wrappers += border.Wrapper(printer, *export).lines()
    printer.run()
    return printer, printer.text(wrappers + border.status_text())
