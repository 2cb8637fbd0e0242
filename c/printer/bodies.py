"""A function of the MIR, for some types, as a function in C."""
import copy
import re

from mir import Unknown, only, parse
from shapes import declaration, word
from uses import Uses, is_through_pointer, places
from values import MEMORY, Value, Values
from webs import split

STEP = '    '
KINDS = {'Bool': 'is', 'Ptr': 'at', 'Ref': 'at'}
JUMP = re.compile(r'\s*(?:return\b.*|break|continue|goto \w+|UNREACHABLE\(\));$')


class Target:
    """A block or a loop that is open, to which an exit leads."""

    def __init__(self, kind, name, around_loop=False):
        self.kind, self.name, self.around_loop, self.is_used = kind, name, around_loop, False


class Body(Values):
    def __init__(self, printer, key):
        super().__init__(printer.shapes, key.types)
        self.printer, self.key = printer, key
        self.function = printer.world.function(key.name)
        self.kinds = [self.shapes.of(each['ty'], key.types) for each in self.function['locals']]
        self.count = self.function['params']
        self.tree = None
        self.lent, self.seen, self.targets, self.labels, self.held = set(), set(), [], 0, None
        known = printer.names.function(key.name)
        self.given_names = known.parameters if known and len(known.parameters) == self.count else None

    def name(self, local):
        self.seen.add(local)
        if local == 0:
            return 'result'
        if local > self.count:
            kind = self.kinds[local]
            named = 'n' if kind[0] == 'Int' else KINDS.get(kind[0]) or self.shapes.short(kind).split('_')[0].lower()
            return '%s_%d' % (named, local)
        name = self.given_names[local - 1] if self.given_names else '_'
        alone = name != '_' and self.given_names.count(name) == 1 and not re.fullmatch(r'[a-z]+_\d+|u?int\d+_t', name)
        return word(name) if alone else 'given_%d' % local

    def head(self):
        result = self.kinds[0]
        changed = self.uses.changed | self.lent
        given = [(declaration(self.shapes.c(self.kinds[each]), self.name(each)) if each in changed
                  else self.shapes.fixed(self.kinds[each], self.name(each)))
                 for each in range(1, self.count + 1) if not self.shapes.is_empty(self.kinds[each])]
        kind = 'void' if self.shapes.is_empty(result) else self.shapes.c(result)
        return '%s(%s)' % (declaration(kind, self.printer.name(self.key)), ', '.join(given) or 'void')

    def lines(self):
        """The function's body, between its braces."""
        body = copy.deepcopy(self.function['body'])
        self.tree = parse(body)
        split(self.tree, body, self.kinds, self.count)
        self.uses = Uses(self.tree, self.is_nothing)
        self.lent = self.uses.lent
        self.type_pointers()
        head = self.head()
        self.seen = set()
        tail = {'end'} if self.shapes.is_empty(self.kinds[0]) else set()
        lines = self.node(self.tree, 1, tail) + self.flush(1)
        text = '\n'.join(lines)
        declared = [STEP + declaration(self.shapes.c(self.kinds[each]), self.name(each)) + ';' for each in sorted(self.seen)
                    if not 1 <= each <= self.count and re.search(r'\b%s\b' % self.name(each), text)]
        unused = [STEP + '(void)%s;' % self.name(each) for each in range(1, self.count + 1)
                  if not self.shapes.is_empty(self.kinds[each]) and not re.search(r'\b%s\b' % self.name(each), text)]
        return head, declared + unused + lines

    def is_nothing(self, place):
        return self.shapes.is_empty(self.kind_of(place))

    def type_pointers(self):
        """A pointer without a type, behind which one type lies, has that type."""
        for local, found in self.uses.behind.items():
            if local > self.count and self.kinds[local] == ('Ptr',) and len(found) == 1 and local not in self.lent:
                self.kinds[local] = ('Ref', self.shapes.of(found[0], self.given), 'Mut')

    # What is computed and not printed yet

    def flush(self, depth, spoiled=None):
        """Prints what is pending: all of it, or what reads one of these locals."""
        lines = self.give_up_call(depth)
        for local, value in list(self.pending.items()):
            if spoiled is None or value.reads & spoiled:
                del self.pending[local]
                lines += self.assigned(depth, local, value)
        return lines

    def assigned(self, depth, local, value):
        """Sets a local. A large struct, made of what doesn't read it, is filled where it stands: it would be made beside, and copied."""
        if value.fills and local not in value.reads and local not in self.lent:
            return ['%s%s.%s = %s;' % (STEP * depth, self.name(local), path, text) for path, text in value.fills]
        return ['%s%s = %s;' % (STEP * depth, self.name(local), value.text)]

    def give_up_call(self, depth):
        if self.held is None:
            return []
        (local, text), self.held = self.held, None
        return ['%s%s = %s;' % (STEP * depth, self.name(local), text)]

    def base(self, local):
        if self.held is not None and self.held[0] == local:
            (_, text), self.held = self.held, None
            return Value(text, 0, self.kinds[local])
        return super().base(local)

    def takes_call(self, node):
        """Whether a statement begins with what the call before it gave, and reads nothing else."""
        if self.held is None:
            return True
        own = {'Assign': lambda: None if node[1]['steps'] else node[2].get('Opd') if isinstance(node[2], dict) else None,
               'If': lambda: node[1], 'Switch': lambda: None}.get(node[0], lambda: None)()
        return own == {'Copy': {'local': self.held[0], 'steps': []}}

    def written(self, place):
        """What an assignment to a place spoils."""
        local = place['local']
        if is_through_pointer(place):
            return {MEMORY}
        return {local, MEMORY} if local in self.lent else {local}

    # Statements

    def node(self, node, depth, tail):
        before = [] if self.takes_call(node) else self.give_up_call(depth)
        return before + getattr(self, 'print_' + node[0])(node, depth, tail)

    def print_Seq(self, node, depth, tail):
        lines = []
        for index, each in enumerate(node[1]):
            more = self.node(each, depth, tail if index == len(node[1]) - 1 else set())
            lines = joined(lines, more)
            if lines and JUMP.match(lines[-1]):
                break
        return lines

    def print_Skip(self, node, depth, tail):
        return []

    def print_Unreachable(self, node, depth, tail):
        return self.flush(depth) + [STEP * depth + 'UNREACHABLE();']

    def print_Return(self, node, depth, tail):
        lines = self.flush(depth)
        if self.shapes.is_empty(self.kinds[0]):
            return lines + ([] if 'end' in tail else [STEP * depth + 'return;'])
        return lines + ['%sreturn %s;' % (STEP * depth, self.name(0))]

    def print_Block(self, node, depth, tail):
        lines = self.flush(depth)
        self.labels += 1
        target = Target('Block', 'after_%d' % self.labels, node[1][0] == 'Loop')
        self.targets.append(target)
        lines += self.node(node[1], depth, tail | {target}) + self.flush(depth)
        self.targets.pop()
        return lines + (['%s%s:;' % (STEP * (depth - 1), target.name)] if target.is_used else [])

    def print_Loop(self, node, depth, tail):
        lines = self.flush(depth)
        self.labels += 1
        target = Target('Loop', 'again_%d' % self.labels)
        self.targets.append(target)
        inner = self.node(node[1], depth + 1, {target}) + self.flush(depth + 1)
        self.targets.pop()
        label = ['%s%s:;' % (STEP * depth, target.name)] if target.is_used else []
        return lines + [STEP * depth + 'for (;;) {'] + inner + label + [STEP * depth + '}']

    def print_Exit(self, node, depth, tail):
        target = self.targets[-1 - node[1]]
        lines = self.flush(depth)
        if target in tail:
            return lines
        loops = [each for each in self.targets if each.kind == 'Loop']
        around = self.targets.index(target) + 1
        if loops and loops[-1] is target:
            return lines + [STEP * depth + 'continue;']
        if loops and target.around_loop and loops[-1] is self.targets[around]:
            return lines + [STEP * depth + 'break;']
        target.is_used = True
        return lines + ['%sgoto %s;' % (STEP * depth, target.name)]

    def print_If(self, node, depth, tail):
        test = self.operand(node[1])
        lines = self.flush(depth)
        one = self.node(node[2], depth + 1, tail) + self.flush(depth + 1)
        other = self.node(node[3], depth + 1, tail) + self.flush(depth + 1)
        return lines + branches(STEP * depth, [(test.text, one)], other)

    def print_Switch(self, node, depth, tail):
        value = self.operand(node[1])
        lines = self.flush(depth)
        arms = [(tags, self.node(each, depth + 1, tail) + self.flush(depth + 1)) for tags, each in node[2]]
        if node[3] is not None:
            rest = self.node(node[3], depth + 1, tail) + self.flush(depth + 1)
        else:
            rest = arms.pop()[1]
        tests = [(' || '.join('%s == %du' % (value.operand(), tag) + self.told(value, tag) for tag in tags), each) for tags, each in arms]
        return lines + branches(STEP * depth, tests, rest)

    def told(self, value, tag):
        """The name of a variant, for readers, behind its tag."""
        known = self.shapes.names.variants.get(value.tag_of[1], []) if value.tag_of else []
        return ' /* %s */' % known[tag][0] if tag < len(known) else ''

    def print_Assign(self, node, depth, tail):
        _, place, right = node
        local, kind = place['local'], self.kinds[place['local']]
        if not place['steps']:
            if local in self.uses.products or self.shapes.is_empty(kind) or local in self.uses.dead:
                return self.drop(right, depth)
            is_call = self.held is not None
            value = self.right(right, kind)
            if self.uses.is_single(local) and local > self.count:
                self.held = (local, value.text) if is_call else None
                self.pending.update({} if is_call else {local: value})
                return []
            lines = self.flush(depth, self.written(place))
            return lines + self.assigned(depth, local, value)
        at = self.place(place)
        value = self.right(right, at.kind)
        if self.shapes.is_empty(at.kind):
            return []
        lines = self.flush(depth, self.written(place))
        cast = '(%s)' % at.outer if at.outer else ''
        return lines + ['%s%s = %s;' % (STEP * depth, at.text, cast + (value.operand() if cast else value.text))]

    def drop(self, right, depth):
        """What isn't read, or has no bytes, is not printed; a call that it waits for is."""
        if self.held is not None and any(place['local'] == self.held[0] for place, _ in places(right)):
            text, self.held = self.held[1], None
            return ['%s(void)%s;' % (STEP * depth, text)]
        for place, _ in places(right):
            self.pending.pop(place['local'], None)
        return []

    def print_LendStatic(self, node, depth, tail):
        _, place, form, constant = node
        at = self.place(place)
        kind = self.shapes.of(form, self.given)
        lines = self.flush(depth, self.written(place))
        text = '&nothing' if self.shapes.is_empty(kind) else '&' + self.printer.static(kind, constant)
        return lines + ['%s%s = (%s)%s;' % (STEP * depth, at.text, self.shapes.c(at.kind), text)]

    def print_Call(self, node, depth, tail):
        _, callee, given, place = node
        key = self.printer.callee(callee, self.key)
        function = self.printer.world.function(key.name)
        kinds = [self.shapes.of(each['ty'], key.types) for each in function['locals'][:function['params'] + 1]]
        words = []
        for each, kind in zip(given, kinds[1:]):
            value = self.as_kind(self.operand(each), kind)
            if not self.shapes.is_empty(kind):
                words.append(value.text)
        text = '%s(%s)' % (self.printer.use(key), ', '.join(words))
        return self.store_call(text, kinds[0], place, depth)

    def store_call(self, text, kind, place, depth):
        local = place['local']
        if place['steps']:
            lines = self.flush(depth, self.written(place) | {MEMORY})
            at = self.place(place)
        else:
            lines = self.flush(depth, {local, MEMORY})
            at = Value(None, 0, self.kinds[local])
        if self.shapes.is_empty(at.kind):
            return lines + ['%s%s;' % (STEP * depth, text)]
        if at.text is None and local in self.uses.dead:
            return lines + ['%s(void)%s;' % (STEP * depth, text)]
        value = self.as_kind(Value(text, 0, kind), at.kind)
        if at.outer:
            value = Value('(%s)%s' % (at.outer, value.operand()), 1, kind)
        if at.text is None and self.uses.is_single(local) and local > self.count:
            self.held = (local, value.text)
            return lines
        return lines + ['%s%s = %s;' % (STEP * depth, at.text or self.name(local), value.text)]

    def right_Op2(self, held, kind):
        operator, _ = only(held[0])
        form, of = only(held[2])
        if operator == 'Offset' and form == 'Copy' and not of['steps'] and of['local'] in self.uses.products:
            product = self.right_Op2(self.uses.products[of['local']], ('Int', 64))
            return self.offset(self.operand(held[1]), product, kind)
        return super().right_Op2(held, kind)

    def right_Aggregate(self, held, kind):
        values = [self.operand(each) for each in held]
        reads = frozenset().union(*(each.reads for each in values)) if values else frozenset()
        if self.shapes.is_empty(kind):
            return Value('nothing', 0, kind)
        variant, parts = None, None
        if kind[0] == 'Array':
            parts = [kind[1]] * len(values)
        else:
            form, parts = self.shapes.shape(kind)
            if form == 'Variants':
                variant = values.pop(0).number
                if variant is None:
                    raise Unknown('a variant that is computed')
                parts = parts[variant]
        if len(parts) != len(values):
            raise Unknown('%d parts of %s' % (len(values), self.shapes.c(kind)))
        given = [(index, self.as_kind(value, part)) for index, (value, part) in enumerate(zip(values, parts))
                 if not self.shapes.is_empty(part)]
        text = '%s(%s)' % (self.printer.maker(kind, variant), ', '.join(value.text for _, value in given))
        return Value(text, 0, kind, reads, fills=self.fills(kind, variant, given))

    def fills(self, kind, variant, given):
        """The paths to parts of a large struct, each with what it is set to."""
        if kind[0] == 'Array' or not self.shapes.is_large(kind):
            return []
        fills = [] if variant is None else [('tag', '%du' % variant)]
        for index, value in given:
            path = self.shapes.path(kind, variant, index if variant is None else index + 1)
            outer = self.shapes.outer(kind, index) if variant is None else None
            if value.fills:
                fills += [('%s.%s' % (path, inner), text) for inner, text in value.fills]
            else:
                cast = '(%s)' % outer if outer and value.kind[0] == 'Int' and outer != self.shapes.c(value.kind) else ''
                fills.append((path, cast + value.operand() if cast else value.text))
        return fills

    def right_Repeat(self, held, kind):
        value = self.operand(held[0])
        if self.shapes.number(held[1], self.given) != kind[2]:
            raise Unknown('a repetition of another length')
        return Value('%s(%s)' % (self.printer.repeater(kind), value.text), 0, kind, value.reads)


def joined(lines, more):
    """Lines, and those that follow; what is set and then returned at once is returned."""
    if len(more) == 1 and lines and more[0].strip() == 'return result;':
        match = re.fullmatch(r'(\s*)result = (.*);', lines[-1])
        if match and match[1] == more[0][:len(match[1])]:
            return lines[:-1] + ['%sreturn %s;' % (match[1], match[2])]
    return lines + more


def branches(pad, tests, rest):
    """Tests in a row, each with its lines, and the lines where all fail."""
    if len(tests) == 1 and not tests[0][1]:
        if not rest:
            return []
        return ['%sif (%s) {' % (pad, negated(tests[0][0]))] + rest + [pad + '}']
    lines = []
    for index, (test, inner) in enumerate(tests):
        lines += ['%s%sif (%s) {' % (pad, '} else ' if index else '', test)] + inner
    if not rest:
        return lines + [pad + '}']
    if all(inner and JUMP.match(inner[-1]) for _, inner in tests):
        return lines + [pad + '}'] + [line[len(STEP):] if line.startswith(STEP) else line for line in rest]
    return lines + [pad + '} else {'] + rest + [pad + '}']


def negated(test):
    return '!' + test if re.fullmatch(r'[\w.>\-]+(?:\([\w, .>\-]*\))?', test) else '!(%s)' % test
