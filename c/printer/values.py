"""Right sides and places of the MIR as expressions of C."""
import re

from mir import Unknown, only

MEMORY = 'memory'
SIGNS = {'Add': '+', 'Sub': '-', 'Mul': '*', 'WrapAdd': '+', 'WrapSub': '-', 'WrapMul': '*', 'Div': '/', 'Rem': '%', 'Lt': '<', 'Le': '<=',
         'Eq': '==', 'Ne': '!=', 'PtrEq': '==', 'And': '&', 'Or': '|', 'Xor': '^', 'Shl': '<<', 'Shr': '>>'}
COUNTS = {'CountOnes': 'count_ones', 'LeadingZeros': 'leading_zeros', 'TrailingZeros': 'trailing_zeros'}
BOOL, POINTER = ('Bool',), ('Ptr',)
WIDE = {'Add': ('wide_sum', ('Int', 128)), 'Mul': ('wide_product', ('Int', 128)), 'Shr': ('wide_right', ('Int', 128)),
        'And': ('wide_and', ('Int', 128)),
        'Lt': ('is_less', BOOL), 'Le': ('is_at_most', BOOL)}


class Value:
    """An expression: its text; 0 if it is an operand of whatever stands before or behind it, 1 of an operator of one operand, 2 else; its
    type; what it reads. `outer` is what the header calls its type, where that differs; `stride` is (index, factor) of a product,
    `tag_of` the type whose tag it is, and `fills` the parts of a large struct, each with what it is made of."""

    def __init__(self, text, level, kind, reads=frozenset(), outer=None, stride=None, number=None, tag_of=None, fills=()):
        self.text, self.level, self.kind, self.reads = text, level, kind, reads
        self.outer, self.stride, self.number, self.tag_of, self.fills = outer, stride, number, tag_of, fills

    def first(self):
        return self.text if self.level == 0 else '(%s)' % self.text

    def operand(self):
        return self.text if self.level < 2 else '(%s)' % self.text


def number(value, bits):
    if bits == 128:
        return Value('wide(%s, %s)' % (number(value >> 64, 64).text, number(value % (1 << 64), 64).text), 0, ('Int', 128))
    text = '%du' % value if value <= 0xffffffff else 'UINT64_C(%d)' % value
    return Value(text, 0, ('Int', bits), number=value)


def wide(value):
    """A number as an operand that must have all its bits."""
    if value.number is not None and value.kind == ('Int', 64):
        return 'UINT64_C(%d)' % value.number
    return value.operand()


class Values:
    """What reads and writes in one function: `locals` are its places, `given` the types for its parameters."""

    def __init__(self, shapes, given):
        self.shapes, self.given = shapes, given
        self.kinds, self.lent, self.pending = [], set(), {}

    def name(self, local):
        raise NotImplementedError

    def base(self, local):
        """The value of a local, which may stand for what was computed for it."""
        if local in self.pending:
            return self.pending.pop(local)
        kind = self.kinds[local]
        reads = frozenset([local, MEMORY] if local in self.lent else [local])
        return Value(self.name(local), 0, kind, reads)

    def place(self, node):
        """A place, as a value that can be assigned to. What has no bytes is `nothing`."""
        at, variant = self.base(node['local']), None
        for step in node['steps']:
            kind, held = only(step)
            if kind == 'Deref':
                at = self.behind(at, self.shapes.of(held, self.given))
            elif kind == 'Variant':
                variant = held
                continue
            elif kind == 'Field':
                at, variant = self.within(at, variant, held), None
            else:
                raise Unknown('step ' + kind)
        return Value('nothing', 0, at.kind) if self.shapes.is_empty(at.kind) else at

    def kind_of(self, node):
        """The type of a place."""
        kind, variant = self.kinds[node['local']], None
        for step in node['steps']:
            form, held = only(step)
            if form == 'Deref':
                kind = self.shapes.of(held, self.given)
            elif form == 'Field':
                parts = self.shapes.shape(kind)[1]
                kind = parts[held] if variant is None else ('Int', 8) if held == 0 else parts[variant][held - 1]
            variant = held if form == 'Variant' else None
        return kind

    def behind(self, at, to):
        reads = at.reads | {MEMORY}
        if self.shapes.is_empty(to):
            return Value('nothing', 0, to, reads)
        if at.kind[0] != 'Ref' or at.kind[1] != to:
            at = self.as_kind(at, ('Ref', to, 'Mut'))
        if at.text.startswith('&'):
            return Value(at.text[1:], 0, to, reads, at.outer)
        return Value('*' + at.operand(), 1, to, reads)

    def within(self, at, variant, index):
        form, parts = self.shapes.shape(at.kind)
        if (form == 'Variants') != (variant is not None):
            raise Unknown('a field of %s' % form)
        kind = (parts[index] if variant is None else ('Int', 8) if index == 0 else parts[variant][index - 1])
        if self.shapes.is_empty(kind):
            return Value('nothing', 0, kind, at.reads)
        path, outer = self.shapes.path(at.kind, variant, index), self.shapes.outer(at.kind, index)
        outer = outer if outer and kind[0] == 'Int' and outer != self.shapes.c(kind) else None
        if at.text.startswith('*'):
            inner = at.text[1:]
            text = '%s->%s' % (inner if re.fullmatch(r'[\w.>\-]+|\(.*\)|[\w.>\-]+\([\w, .>\-]*\)', inner) else '(%s)' % inner, path)
        else:
            text = '%s.%s' % (at.first(), path)
        return Value(text, 0, kind, at.reads, outer, tag_of=at.kind if variant is not None and index == 0 else None)

    def read(self, at):
        """The value of a place, of the type that the MIR has."""
        if at.outer is None:
            return at
        return Value('(%s)%s' % (self.shapes.c(at.kind), at.operand()), 1, at.kind, at.reads)

    def address(self, at):
        if at.text == 'nothing':
            return Value('&nothing', 1, ('Ref', ('Int', 64), 'Mut'))
        if at.outer not in (None, 'int32_t'):
            raise Unknown('the address of a field that the header calls ' + at.outer)
        if at.text.startswith('*'):
            return Value(at.text[1:], 1 if re.match(r'[(&*]', at.text[1:]) else 0, ('Ref', at.kind, None), at.reads - {MEMORY})
        return Value('&' + at.operand(), 1, ('Ref', at.kind, None), at.reads - {MEMORY}, at.outer)

    def operand(self, node):
        kind, held = only(node)
        read = getattr(self, 'operand_' + kind, None)
        if read is None:
            raise Unknown('operand ' + kind)
        return read(held)

    def operand_Copy(self, place):
        return self.read(self.place(place))

    def operand_Int(self, held):
        return number(held['value'], held['width'])

    def operand_True(self, held):
        return Value('true', 0, BOOL)

    def operand_False(self, held):
        return Value('false', 0, BOOL)

    def operand_Unit(self, held):
        return Value('nothing', 0, ('Unit',))

    def operand_Null(self, held):
        return Value('NULL', 0, POINTER)

    def operand_SizeOf(self, held):
        kind = self.shapes.of(held, self.given)
        if self.shapes.is_empty(kind):
            return number(0, 64)
        return Value('sizeof(%s)' % self.shapes.c(kind), 0, ('Int', 64), stride=(number(1, 64), kind))

    def operand_AlignOf(self, held):
        return number(self.shapes.sized(self.shapes.of(held, self.given))[1], 64)

    def operand_NumOf(self, held):
        return number(self.shapes.number(held[1], self.given), held[0])

    def as_kind(self, value, kind):
        """A value where one of this type is wanted: only pointers differ, and then they are cast."""
        if value.kind == kind or value.kind[0] not in ('Ref', 'Ptr'):
            return value
        wanted = self.shapes.c(kind)
        given = self.shapes.c_pointer(value.kind) if value.kind[0] == 'Ref' else 'void *'
        if value.outer is None and value.kind[0] == 'Ref' and value.kind[2] is None:
            given = wanted if wanted == 'const ' + given else given
        if value.outer is None and (given == wanted or 'const ' + given == wanted and value.kind[0] == 'Ref'):
            return Value(value.text, value.level, kind, value.reads)
        return Value('(%s)%s' % (wanted, value.operand()), 1, kind, value.reads)

    def right(self, node, kind):
        """A right side, for a place of this type."""
        form, held = only(node)
        read = getattr(self, 'right_' + form, None)
        if read is None:
            raise Unknown('right side ' + form)
        return read(held, kind)

    def right_Opd(self, held, kind):
        return self.as_kind(self.operand(held), kind)

    def right_AddrOf(self, held, kind):
        return self.as_kind(self.address(self.place(held)), kind)

    def right_Select(self, held, kind):
        test, one, other = [self.operand(each) for each in held]
        text = '%s ? %s : %s' % (test.operand(), one.operand(), other.operand())
        return Value(text, 2, kind, test.reads | one.reads | other.reads)

    def right_Op1(self, held, kind):
        operator, of = only(held[0]), self.operand(held[1])
        if operator[0] == 'Cast':
            return self.cast(operator[1], of)
        if operator[0] == 'Not':
            text = '!' + of.operand() if of.kind == BOOL else '(%s)~%s' % (self.shapes.c(of.kind), wide(of))
            return Value(text, 1, of.kind, of.reads)
        if operator[0] in COUNTS and of.kind[1] in (32, 64):
            return Value('%s_%d(%s)' % (COUNTS[operator[0]], of.kind[1], of.text), 0, ('Int', 32), of.reads)
        raise Unknown('operator ' + operator[0])

    def lanes(self, kind):
        """Says that vectors are used: those of 16 bytes alone are known."""
        if kind != ('Array', ('Int', 8), 16):
            raise Unknown('vectors of ' + self.shapes.short(kind))
        self.shapes.c(kind)
        self.shapes.has_lanes = True

    def right_Vec1(self, held, kind):
        operator, of = only(held[0]), self.operand(held[1])
        if operator != ('Bitmask', 64):
            raise Unknown('vector operator ' + operator[0])
        self.lanes(of.kind)
        return Value('lane_bits(%s)' % of.text, 0, kind, of.reads)

    def right_Vec2(self, held, kind):
        operator, one, other = only(held[0]), self.operand(held[1]), self.operand(held[2])
        if operator != ('Mask', 'Eq'):
            raise Unknown('vector operator %s' % operator[0])
        self.lanes(one.kind)
        return Value('equal_lanes(%s, %s)' % (one.text, other.text), 0, kind, one.reads | other.reads)

    def cast(self, held, of):
        """To other bits: what is signed keeps its sign."""
        sign, _, bits = held
        kind = ('Int', bits)
        wanted = self.shapes.c(kind)
        if 128 in (bits, of.kind[-1]):
            return self.cast_128_bits(sign, of, kind)
        if of.kind != BOOL and of.kind[1] == bits:
            return of
        if of.kind != BOOL and sign == 'Signed' and bits > of.kind[1]:
            return Value('(%s)(int%d_t)(int%d_t)%s' % (wanted, bits, of.kind[1], of.operand()), 1, kind, of.reads)
        return Value('(%s)%s' % (wanted, of.operand()), 1, kind, of.reads)

    def cast_128_bits(self, sign, of, kind):
        if of.kind == ('Int', 64) and sign == 'Unsigned':
            return Value('wide(0u, %s)' % of.text, 0, kind, of.reads)
        if of.kind == ('Int', 128) and kind == ('Int', 64):
            return Value('%s.low' % of.first(), 0, kind, of.reads)
        raise Unknown('a cast from %d bits to %d' % (of.kind[-1], kind[-1]))

    def right_Op2(self, held, kind):
        operator, sign = only(held[0])
        one, other = self.operand(held[1]), self.operand(held[2])
        if operator == 'Offset':
            return self.offset(one, other, kind)
        if operator not in SIGNS:
            raise Unknown('operator ' + operator)
        if one.kind == ('Int', 128):
            return self.of_128_bits(operator, sign, one, other)
        if operator in ('Lt', 'Le', 'Eq', 'Ne', 'PtrEq'):
            return self.compared(SIGNS[operator], sign, one, other)
        if one.kind == BOOL:
            return Value('(bool)(%s %s %s)' % (one.operand(), SIGNS[operator], other.operand()), 1, BOOL, one.reads | other.reads)
        return self.computed(operator, sign, one, other)

    def of_128_bits(self, operator, sign, one, other):
        name, kind = WIDE.get(operator, (None, None))
        if name is None or sign == 'Signed':
            raise Unknown('the operator %s of 128 bits' % operator)
        moved = '%s.low' % other.first() if operator == 'Shr' and other.kind == ('Int', 128) else other.text
        return Value('%s(%s, %s)' % (name, one.text, moved), 0, kind, one.reads | other.reads)

    def compared(self, sign, is_signed, one, other):
        words = [one.operand(), other.operand()]
        if is_signed == 'Signed':
            words = ['(int%d_t)%s' % (one.kind[1], each) for each in words]
        elif one.kind[0] in ('Ptr', 'Ref') and one.kind != other.kind:
            words = ['(const void *)%s' % each for each in words]
        return Value('%s %s %s' % (words[0], sign, words[1]), 2, BOOL, one.reads | other.reads)

    def computed(self, operator, sign, one, other):
        """A sum and the like. Of less than 32 bits it is computed with 32, and cut."""
        bits, reads = one.kind[1], one.reads | other.reads
        words = [one.operand(), other.operand()]
        if one.number is not None and (other.number is not None or operator in ('Shl', 'Shr')):
            words[0] = wide(one)
        if bits < 32:
            words[0] = '(uint32_t)' + words[0]
        if sign == 'Signed' and operator in ('Div', 'Rem', 'Shr'):
            words[0] = '(int%d_t)%s' % (bits, one.operand())
            words[1] = '(int%d_t)%s' % (bits, words[1]) if operator != 'Shr' else words[1]
        if operator in ('Shl', 'Shr') and other.number is None:
            # Below that by the contract; so said, C has no shift without a meaning, whatever is given.
            words[1] = '(%s & %du)' % (words[1], max(bits, 32) - 1)
        text = '%s %s %s' % (words[0], SIGNS[operator], words[1])
        stride = self.stride(one, other) if operator == 'Mul' else None
        if bits < 32 or '(int' in words[0][:4]:
            return Value('(%s)(%s)' % (self.shapes.c(one.kind), text), 1, one.kind, reads)
        return Value(text, 2, one.kind, reads, stride=stride)

    def stride(self, one, other):
        """(index, bytes or type) of a product with the size of something."""
        for index, factor in ((one, other), (other, one)):
            if factor.number is not None:
                return index, factor.number
            if factor.stride and factor.text.startswith('sizeof('):
                return index, factor.stride[1]
        return None

    def offset(self, one, other, kind):
        """A pointer that is moved by bytes: by as many elements, where its type says how many bytes one has."""
        reads = one.reads | other.reads
        if other.number == 0:
            return self.as_kind(one, kind)
        if kind[0] == 'Ref' and not self.shapes.is_empty(kind[1]):
            count = self.elements(other, kind[1])
            if count is None:
                raise Unknown('an offset of %s for %s' % (other.text, self.shapes.c(kind)))
            return Value('%s + %s' % (self.as_kind(one, kind).operand(), count.operand()), 2, kind, reads)
        if other.stride and isinstance(other.stride[1], int):
            raise Unknown('an offset of %s without a type' % other.text)
        moved = self.as_kind(one, ('Ref', ('Int', 8), 'Mut'))
        return self.as_kind(Value('%s + %s' % (moved.operand(), other.operand()), 2, ('Ref', ('Int', 8), 'Mut'), reads), kind)

    def elements(self, bytes_, kind):
        """How many elements some bytes are, or None."""
        size = self.shapes.sized(kind)[0]
        if size == 1:
            return bytes_
        if bytes_.number is not None and bytes_.number % size == 0:
            return number(bytes_.number // size, 64)
        if bytes_.stride and bytes_.stride[1] in (size, kind):
            self.shapes.strides[kind] = size
            return bytes_.stride[0]
        return None
