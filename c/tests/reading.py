"""A second reading of the MIR, which shares nothing with the printer: each function becomes one in Python, over the bytes of a memory.

Numbers and pointers are numbers without a sign, structs, variants and arrays are bytes. What has bytes and isn't one number lies in memory,
as does what is lent. Each statement does what it says, at its place: nothing is printed elsewhere, and no local is shared.
"""
import struct

from layout import Strange, Types, one

FRAMES, HEAP, NOTHING = 1 << 20, 1 << 24, 64
SCALARS = {1: 'B', 2: 'H', 4: 'I', 8: 'Q'}
SIGNS = {'Add': '+', 'Sub': '-', 'Mul': '*', 'WrapAdd': '+', 'WrapSub': '-', 'WrapMul': '*', 'And': '&', 'Or': '|', 'Xor': '^', 'Shl': '<<'}
COMPARED = {'Lt': '<', 'Le': '<=', 'Eq': '==', 'Ne': '!=', 'PtrEq': '=='}


def with_sign(value, bits):
    return value - (1 << bits) if value >> bits - 1 else value


def divided(first, second, bits, is_rest):
    """The quotient or the rest of numbers with signs, towards zero."""
    first, second = with_sign(first, bits), with_sign(second, bits)
    quotient = abs(first) // abs(second) * (-1 if (first < 0) != (second < 0) else 1)
    return (first - quotient * second if is_rest else quotient) & (1 << bits) - 1


class Machine:
    """The functions of some libraries, and a memory. `refuse` says of each request for memory whether it is refused."""

    def __init__(self, functions, room=1 << 26):
        self.functions = dict(functions)
        shapes = {each['name']: each['shape'] for function in self.functions.values() for each in function['types']}
        self.types, self.made, self.impls, self.methods = Types(shapes), {}, {}, {}
        for name, function in self.functions.items():
            for impl in function['generics']['impls']:
                self.impls[impl['name']] = impl['methods']
            kind, held = one(function['generics']['method_of'] or 'None')
            if kind == 'Impl':
                self.methods[held[0], held[1]] = name
        self.memory, self.stack, self.top, self.blocks = bytearray(room), FRAMES, HEAP, {}
        self.refuse, self.refused = lambda: False, 0
        self.names = {'M': self.memory, 'mk': self.make, 'divided': divided, 'with_sign': with_sign, 'machine': self}
        for bytes_, letter in SCALARS.items():
            packer = struct.Struct('<' + letter)
            self.names['ld%d' % bytes_] = lambda at, unpack=packer.unpack_from: unpack(self.memory, at)[0]
            self.names['st%d' % bytes_] = lambda at, value, pack=packer.pack_into: pack(self.memory, at, value)

    @staticmethod
    def make(size, parts):
        made = bytearray(size)
        for at, bytes_, value in parts:
            made[at:at + bytes_] = value if isinstance(value, (bytes, bytearray)) else value.to_bytes(bytes_, 'little')
        return bytes(made)

    # Memory. A block that was given back is spoiled.

    def lay(self, content):
        """Bytes that stay for good."""
        at = self.top
        self.top += -(-max(len(content), 1) // 16) * 16
        self.memory[at:at + len(content)] = content
        return at

    def take(self, bytes_):
        if self.refuse():
            self.refused += 1
            return 0
        if self.top + bytes_ > len(self.memory):
            raise Strange('the memory is used up')
        at = self.lay(b'\xcd' * bytes_)
        self.blocks[at] = bytes_
        return at

    def give_back(self, at):
        bytes_ = self.blocks.pop(at)
        self.memory[at:at + bytes_] = b'\xdd' * bytes_

    def foreign(self, name, given):
        kinds = [self.types.of(each['ty'], ()) for each in self.functions[name]['locals']]
        kind, given = kinds[0], [each for of, each in zip(kinds[1:], given) if self.types.size(of)[0]]
        if name == 'libc::heap::rattle_dealloc':
            return self.give_back(given[0]) if given[0] else None
        if name == 'libc::heap::rattle_alloc':
            at = self.take(given[0] or given[1])
        elif name == 'libc::heap::rattle_realloc':
            at = self.take(given[2] or given[3])
            if at and given[0]:
                before = min(self.blocks[given[0]], self.blocks[at])
                self.memory[at:at + before] = self.memory[given[0]:given[0] + before]
                self.give_back(given[0])
        else:
            raise Strange('the foreign function ' + name)
        places = self.types.row(self.types.parts(kind)[0], 0)[0]
        return self.make(self.types.size(kind)[0], [(places[0], 1, int(at != 0)), (places[1], 8, at or NOTHING)])

    # Functions

    def function(self, name, types=(), dicts=()):
        """The function in Python for an instance."""
        key = (name, types, dicts)
        if key not in self.made:
            called = 'f%d' % len(self.made)
            self.made[key] = called
            if one(self.functions[name]['body'][0])[0] == 'Foreign':
                self.names[called] = lambda *given: self.foreign(name, given)
            else:
                self.names[called] = lambda *given: self.compiled(called, name, types, dicts)(*given)
        return self.made[key]

    def compiled(self, called, name, types, dicts):
        text = Text(self, self.functions[name], types, dicts).written(called)
        exec(compile(text, name, 'exec'), self.names)  # noqa: S102
        return self.names[called]

    def call(self, name, *given):
        return self.names[self.function(name)](*given)

    def callee(self, node, types, dicts):
        kind, held = one(node)
        if kind == 'Fn':
            name, own, more = held[0], ((), ()), held[1]
        elif kind == 'Method':
            found = self.dictionary(held[0], types, dicts)
            methods = self.impls.get(found[0])
            name = methods[held[1]] if methods else self.methods[found[0], held[1]]
            own, more = found[1:], held[2]
        else:
            raise Strange('callee ' + kind)
        return self.function(name, own[0] + tuple(self.types.of(each, types) for each in more['types']),
                             own[1] + tuple(self.dictionary(each, types, dicts) for each in more['dicts']))

    def dictionary(self, node, types, dicts):
        kind, held = one(node)
        if kind == 'Given':
            return dicts[held]
        if kind != 'Impl':
            raise Strange('methods ' + kind)
        return (held[0], tuple(self.types.of(each, types) for each in held[1]),
                tuple(self.dictionary(each, types, dicts) for each in held[2]))

    def static(self, kind, constant):
        """Where a constant lies for good."""
        return self.lay(self.constant(kind, constant)) if self.types.size(kind)[0] else NOTHING

    def constant(self, kind, node):
        form, held = one(node)
        bytes_ = self.types.size(kind)[0]
        if form in ('True', 'False', 'Bool'):
            return bytes([held if form == 'Bool' else form == 'True'])
        if form == 'Int':
            return held['value'].to_bytes(bytes_, 'little')
        if form == 'Ints':
            return b''.join(each.to_bytes(held['width'] // 8, 'little') for each in held['values'])
        if form != 'Parts':
            raise Strange('constant ' + form)
        if kind[0] == 'Array':
            return b''.join(self.constant(kind[1], each) for each in held)
        variant = one(held[0])[1]['value'] if self.types.is_choice(kind) else None
        parts = [(self.types.field(kind, variant, index), each) for index, each in enumerate(held)]
        return self.make(bytes_, [(at, self.types.size(part)[0], self.constant(part, each)) for (part, at), each in parts])


class Text:
    """One function as Python."""

    def __init__(self, machine, function, types, dicts):
        self.machine, self.all, self.given, self.dicts = machine, machine.types, types, dicts
        self.kinds = [self.all.of(each['ty'], types) for each in function['locals']]
        self.body, self.at, self.lines, self.open, self.count = function['body'], 0, [], [], 0
        self.params = function['params']
        in_memory = [index for index, each in enumerate(function['locals'])
                     if self.all.size(self.kinds[index])[0] and (each['home'] != 'ValueLocal' or not self.all.is_scalar(self.kinds[index]))]
        lent = {place['local'] for place in lent_places(self.body) if self.all.size(self.kinds[place['local']])[0]}
        self.slots, self.end = {}, 0
        for index in sorted({*in_memory, *lent}):
            bytes_, to = self.all.size(self.kinds[index])
            self.end = -(-self.end // to) * to
            self.slots[index] = self.end
            self.end += bytes_

    def written(self, called):
        self.line(0, 'def %s(%s):' % (called, ', '.join('r%d' % (each + 1) for each in range(self.params))))
        self.line(1, 'b = machine.stack; machine.stack = b + %d; x = 0' % (-(-self.end // 16) * 16))
        for index in range(1, self.params + 1):
            if index in self.slots:
                self.line(1, self.stored(self.kinds[index], 'b + %d' % self.slots[index], 'r%d' % index))
        self.line(1, 'try:')
        self.node(2)
        self.line(1, 'finally:')
        self.line(2, 'machine.stack = b')
        return '\n'.join(self.lines)

    def line(self, depth, text):
        self.lines.append(' ' * depth + text)

    # Reading and writing

    def loaded(self, kind, at):
        bytes_ = self.all.size(kind)[0]
        if not bytes_:
            return '0'
        if self.all.is_scalar(kind) and bytes_ in SCALARS:
            return 'ld%d(%s)' % (bytes_, at)
        if self.all.is_scalar(kind):
            return "int.from_bytes(M[(%s):(%s) + %d], 'little')" % (at, at, bytes_)
        return 'bytes(M[(%s):(%s) + %d])' % (at, at, bytes_)

    def stored(self, kind, at, value):
        bytes_ = self.all.size(kind)[0]
        if self.all.is_scalar(kind) and bytes_ in SCALARS:
            return 'st%d(%s, %s)' % (bytes_, at, value)
        if self.all.is_scalar(kind):
            value = "(%s).to_bytes(%d, 'little')" % (value, bytes_)
        return 'a = %s; v = %s; M[a:a + %d] = v' % (at, value, bytes_)

    def place(self, node):
        """The type of a place, and its address; or None, and the name of what isn't in memory."""
        local, variant = node['local'], None
        kind = self.kinds[local]
        at = 'b + %d' % self.slots[local] if local in self.slots else None
        value = 'r%d' % local
        for step in node['steps']:
            form, held = one(step)
            if form == 'Deref':
                at = value if at is None else self.loaded(('Ptr',), at)
                kind, value = self.all.of(held, self.given), None
            elif form == 'Field':
                kind, more = self.all.field(kind, variant, held)
                at = '%s + %d' % (at, more) if at is not None else None
            elif form != 'Variant':
                raise Strange('step ' + form)
            variant = held if form == 'Variant' else None
        return kind, at, value

    def operand(self, node):
        """The type of an operand and its text."""
        form, held = one(node)
        if form == 'Copy':
            kind, at, value = self.place(held)
            if not self.all.size(kind)[0]:
                return kind, '0'
            return kind, value if at is None else self.loaded(kind, at)
        if form == 'Int':
            return ('Int', held['width']), str(held['value'])
        if form in ('True', 'False'):
            return ('Bool',), '1' if form == 'True' else '0'
        if form in ('Unit', 'Null'):
            return ('Unit',) if form == 'Unit' else ('Ptr',), '0'
        if form in ('SizeOf', 'AlignOf'):
            return ('Int', 64), str(self.all.size(self.all.of(held, self.given))[form == 'AlignOf'])
        if form == 'NumOf':
            return ('Int', held[0]), str(self.all.number(held[1], self.given))
        raise Strange('operand ' + form)

    def right(self, node, kind):
        form, held = one(node)
        if form == 'Opd':
            return self.operand(held)[1]
        if form == 'AddrOf':
            of, at, _ = self.place(held)
            return str(NOTHING) if not self.all.size(of)[0] else at
        if form == 'Select':
            test, yes, no = (self.operand(each)[1] for each in held)
            return '(%s if %s else %s)' % (yes, test, no)
        if form == 'Aggregate':
            return self.aggregate([self.operand(each) for each in held], kind)
        if form == 'Repeat':
            of, value = self.operand(held[0])
            return "%d * (%s).to_bytes(%d, 'little')" % (kind[2], value, self.all.size(of)[0]) if self.all.is_scalar(of) \
                else '%d * (%s)' % (kind[2], value)
        if form in ('Op1', 'Op2', 'Vec1', 'Vec2'):
            return getattr(self, form.lower())(held)
        raise Strange('right side ' + form)

    def aggregate(self, values, kind):
        if kind[0] == 'Array':
            bytes_ = self.all.size(kind[1])[0]
            rows = [(index * bytes_, kind[1], value) for index, (_, value) in enumerate(values)]
        else:
            variant = int(values[0][1]) if self.all.is_choice(kind) else None
            rows = [(at, part, value) for (part, at), (_, value) in
                    ((self.all.field(kind, variant, index), each) for index, each in enumerate(values))]
        rows = ['(%d, %d, %s)' % (at, self.all.size(part)[0], value) for at, part, value in rows if self.all.size(part)[0]]
        return 'mk(%d, (%s,))' % (self.all.size(kind)[0], ', '.join(rows)) if rows else "b''"

    def op1(self, held):
        (operator, more), (kind, value) = one(held[0]), self.operand(held[1])
        bits = kind[1] if kind[0] == 'Int' else 1
        if operator == 'Cast':
            signed = more[0] == 'Signed' and kind[0] == 'Int'
            return '(%s & %d)' % ('with_sign(%s, %d)' % (value, bits) if signed else value, (1 << more[2]) - 1)
        texts = {'Not': '(%s ^ %d)' % (value, (1 << bits) - 1), 'CountOnes': "bin(%s).count('1')" % value,
                 'LeadingZeros': '(%d - (%s).bit_length())' % (bits, value),
                 'TrailingZeros': '(lambda n: (n & -n).bit_length() - 1 if n else %d)(%s)' % (bits, value)}
        if operator not in texts:
            raise Strange('operator ' + operator)
        return texts[operator]

    def op2(self, held):
        (operator, sign), (kind, first), (_, second) = one(held[0]), self.operand(held[1]), self.operand(held[2])
        if operator == 'Offset':
            return '(%s + %s)' % (first, second)
        bits = kind[1] if kind[0] == 'Int' else 64 if kind[0] == 'Ptr' else 1
        if operator in COMPARED:
            half = 1 << bits - 1
            pair = (first, second) if sign != 'Signed' else ('(%s ^ %d)' % (first, half), '(%s ^ %d)' % (second, half))
            return 'int(%s %s %s)' % (pair[0], COMPARED[operator], pair[1])
        if operator in ('Div', 'Rem'):
            if sign == 'Signed':
                return 'divided(%s, %s, %d, %s)' % (first, second, bits, operator == 'Rem')
            return '(%s %s %s)' % (first, '//' if operator == 'Div' else '%', second)
        if operator == 'Shr':
            first = 'with_sign(%s, %d)' % (first, bits) if sign == 'Signed' else first
            return '((%s >> %s) & %d)' % (first, second, (1 << bits) - 1)
        if operator not in SIGNS:
            raise Strange('operator ' + operator)
        return '((%s %s %s) & %d)' % (first, SIGNS[operator], second, (1 << bits) - 1)

    def vec1(self, held):
        if one(held[0]) != ('Bitmask', 64):
            raise Strange('a vector')
        return 'sum((each >> 7) << index for index, each in enumerate(%s))' % self.operand(held[1])[1]

    def vec2(self, held):
        if one(held[0]) != ('Mask', 'Eq'):
            raise Strange('a vector')
        return 'bytes(255 * (one == other) for one, other in zip(%s, %s))' % (self.operand(held[1])[1], self.operand(held[2])[1])

    # Statements

    def node(self, depth):
        kind, held = one(self.body[self.at])
        self.at += 1
        write = getattr(self, 'write_' + kind, None)
        if write is None:
            raise Strange('statement ' + kind)
        write(held, depth)

    def write_Seq(self, held, depth):
        self.node(depth)
        self.node(depth)

    def write_Skip(self, held, depth):
        self.line(depth, 'pass')

    def write_Unreachable(self, held, depth):
        self.line(depth, "raise AssertionError('unreachable')")

    def write_Return(self, held, depth):
        kind = self.kinds[0]
        if not self.all.size(kind)[0]:
            self.line(depth, 'return 0')
        else:
            self.line(depth, 'return ' + (self.loaded(kind, 'b + %d' % self.slots[0]) if 0 in self.slots else 'r0'))

    def write_Block(self, held, depth):
        self.opened('Block', depth)

    def write_Loop(self, held, depth):
        self.opened('Loop', depth)

    def opened(self, kind, depth):
        """A loop of Python's, which a block leaves at its end. `x` is the one that an exit leads to, while inner ones are left."""
        self.count += 1
        number = self.count
        self.line(depth, 'while True:')
        self.open.append((kind, number))
        self.node(depth + 1)
        if kind == 'Block':
            self.line(depth + 1, 'break')
        self.open.pop()
        if self.open:
            outer, number = self.open[-1]
            self.line(depth, 'if x == %d:' % number)
            self.line(depth + 1, 'x = 0')
            self.line(depth + 1, 'break' if outer == 'Block' else 'continue')
            self.line(depth, 'if x: break')

    def write_Exit(self, held, depth):
        kind, number = self.open[-1 - held]
        if held == 0:
            self.line(depth, 'break' if kind == 'Block' else 'continue')
        else:
            self.line(depth, 'x = %d' % number)
            self.line(depth, 'break')

    def write_If(self, held, depth):
        self.line(depth, 'if %s:' % self.operand(held)[1])
        self.node(depth + 1)
        self.line(depth, 'else:')
        self.node(depth + 1)

    def write_Switch(self, held, depth):
        value, arms, has_default = held
        self.count += 1
        name = 's%d' % self.count
        self.line(depth, '%s = %s' % (name, self.operand(value)[1]))
        for index, tags in enumerate(arms):
            self.line(depth, '%s %s in (%s,):' % ('elif' if index else 'if', name, ', '.join(map(str, tags))))
            self.node(depth + 1)
        self.line(depth, 'else:')
        if has_default:
            self.node(depth + 1)
        else:
            self.line(depth + 1, "raise AssertionError('no arm')")

    def write_Assign(self, held, depth):
        kind, at, value = self.place(held[0])
        if self.all.size(kind)[0]:
            text = self.right(held[1], kind)
            self.line(depth, self.stored(kind, at, text) if at is not None else '%s = %s' % (value, text))
        else:
            self.line(depth, 'pass')

    def write_LendStatic(self, held, depth):
        _, at, value = self.place(held[0])
        found = self.machine.static(self.all.of(held[1], self.given), held[2])
        self.line(depth, self.stored(('Ptr',), at, str(found)) if at is not None else '%s = %d' % (value, found))

    def write_Call(self, held, depth):
        text = '%s(%s)' % (self.machine.callee(held[0], self.given, self.dicts), ', '.join(self.operand(each)[1] for each in held[1]))
        kind, at, value = self.place(held[2])
        if not self.all.size(kind)[0]:
            self.line(depth, text)
        else:
            self.line(depth, self.stored(kind, at, text) if at is not None else '%s = %s' % (value, text))


def lent_places(node):
    """Places whose address is taken, but for those behind a pointer."""
    if isinstance(node, dict):
        for kind, held in node.items():
            if kind == 'AddrOf' and not any(one(step)[0] == 'Deref' for step in held['steps']):
                yield held
            yield from lent_places(held)
    elif isinstance(node, list):
        for each in node:
            yield from lent_places(each)


def check_cases(cases, helpers, function):
    """What differs in the cases of nodes.py, whose results are worked out by hand."""
    machine = Machine(helpers + [function('t::' + name, kinds, count, body) for name, kinds, count, body, _ in cases])
    return ['%s%s: %s and not %s' % (name, row, told, wanted) for name, _, _, _, rows in cases for row, wanted in rows
            for told in [machine.call('t::' + name, *row)] if told != wanted]
