"""Types of the MIR, with what stands for their parameters, and their declarations in C.

A type is a tuple: ('Int', bits) without a sign, ('Bool',), ('Unit',), ('Ptr',), ('Ref', to, 'Imm' or 'Mut'), ('Named', name, arguments),
('Struct', name, fields), ('Array', of, length), ('Const', number). What has no bytes is never printed; its address is that of `nothing`.
"""
import re

from mir import Unknown, only

WORDS = set('''auto break case char const continue default do double else enum extern float for goto if inline int long register restrict
return short signed sizeof static struct switch typedef union unsigned void volatile while bool true false class new delete this template
typename operator public private protected namespace using try catch throw friend virtual explicit mutable export and or not xor asm near
far small min max tag is nothing result it NULL final override import module concept requires'''.split())
# A struct of more bytes is large: GCC makes each copy of one that is written.
LARGE = 64
LIBRARIES = ('core', 'std', 'std_alloc', 'std_heap', 'libc', 'os')


def word(name):
    """A name from the sources, as C takes it."""
    name = re.sub(r'\W+', '_', name)
    return name + '_' if name in WORDS else name


def up(size, to):
    return (size + to - 1) // to * to


def is_library(name):
    return name.startswith('(') or name.split('::')[0] in LIBRARIES


def declaration(kind, name):
    return kind + name if kind.endswith('*') else kind + ' ' + name


class Shapes:
    """The types of one printed file."""

    def __init__(self, world, names, headers=None):
        self.world, self.names, self.headers = world, names, headers or {}
        self.called, self.taken = {}, {}
        self.has_lanes = False
        self.found, self.made, self.empty, self.strides = [], set(), {}, {}

    def of(self, node, given):
        """A type from the MIR, with `given` for the parameters of its function."""
        kind, held = only(node)
        if kind in ('Bool', 'Unit', 'Ptr'):
            return (kind,)
        if kind in ('Int', 'Const'):
            return (kind, held)
        if kind == 'Param':
            return given[held]
        if kind == 'Ref':
            return ('Ref', self.of(held[2], given), held[1])
        if kind == 'Named':
            return ('Named', held[0]['name'], tuple(self.of(each, given) for each in held[1]))
        if kind == 'Struct':
            return ('Struct', held[0], tuple(self.of(each, given) for each in held[1]))
        if kind in ('Array', 'Vector'):
            return ('Array', self.of(held[0], given), self.number(held[1], given))
        raise Unknown('type ' + kind)

    def number(self, node, given):
        kind, held = only(node)
        if kind == 'Lit':
            return held
        if kind == 'Param' and given[held][0] == 'Const':
            return given[held][1]
        raise Unknown('number ' + kind)

    def shape(self, kind):
        """('Fields', types) or ('Variants', lists of types)."""
        if kind[0] == 'Struct':
            return 'Fields', list(kind[2])
        if kind[0] != 'Named':
            raise Unknown('parts of the type %s' % kind[0])
        form, held = self.world.shape(kind[1])
        if form == 'Fields':
            return form, [self.of(each, kind[2]) for each in held]
        if form == 'Variants':
            return form, [[self.of(each, kind[2]) for each in one] for one in held]
        raise Unknown('shape ' + form)

    def is_empty(self, kind):
        """Whether a type has no bytes."""
        if kind not in self.empty:
            self.empty[kind] = self.has_no_bytes(kind)
        return self.empty[kind]

    def has_no_bytes(self, kind):
        if kind[0] == 'Array':
            return kind[2] == 0 or self.is_empty(kind[1])
        if kind[0] in ('Named', 'Struct'):
            form, parts = self.shape(kind)
            return all(map(self.is_empty, parts)) if form == 'Fields' else not parts
        return kind[0] == 'Unit'

    def sized(self, kind):
        """Size and alignment as the proofs take them, for pointers of 64 bits."""
        if kind[0] == 'Int':
            return kind[1] // 8, min(kind[1] // 8, 16)
        if kind[0] in ('Ptr', 'Ref'):
            return 8, 8
        if kind[0] == 'Bool':
            return 1, 1
        if self.is_empty(kind):
            return 0, 1
        if kind[0] == 'Array':
            size, to = self.sized(kind[1])
            return size * kind[2], to
        form, parts = self.shape(kind)
        if form == 'Fields':
            return self.in_row(parts)
        rows = [self.in_row(one) for one in parts]
        to = max(1, *(row[1] for row in rows))
        return up(up(1, to) + max(row[0] for row in rows), to), to

    def is_large(self, kind):
        return kind[0] in ('Named', 'Struct', 'Array') and self.sized(kind)[0] > LARGE

    def fixed(self, kind, name):
        """The declaration of a parameter that isn't changed. What is put in place reads a large one where it lies, as it is const."""
        return ('const ' if self.is_large(kind) else '') + declaration(self.c(kind), name)

    def in_row(self, parts):
        at, most = 0, 1
        for size, to in map(self.sized, parts):
            at, most = up(at, to) + size, max(most, to)
        return up(at, most), most

    def short(self, kind):
        """A name for a type, within others."""
        if kind[0] == 'Int':
            return 'u%d' % kind[1]
        if kind[0] == 'Const':
            return str(kind[1])
        if kind[0] == 'Ref':
            return 'ref_' + self.short(kind[1])
        if kind[0] == 'Array':
            return 'array_%s_%d' % (self.short(kind[1]), kind[2])
        if kind[0] == 'Struct':
            return 'slice_' + self.short(kind[2][0][1]) if kind[1] == '&[]' else 'struct_' + re.sub(r'\W+', '_', kind[1])
        if kind[0] == 'Named':
            name = 'tuple' if kind[1].startswith('(') else kind[1].split('::')[-1]
            return '_'.join([re.sub(r'\W+', '_', name)] + [self.short(each) for each in kind[2] if not self.is_empty(each)])
        return kind[0].lower()

    def name(self, kind):
        """The name of a struct in C."""
        if kind not in self.called:
            if kind[0] == 'Named' and kind[1] in self.headers:
                self.called[kind] = self.headers[kind[1]].name
                return self.called[kind]
            name = self.short(kind)
            if kind[0] == 'Named' and not is_library(kind[1]):
                name = kind[1].split('::')[0] + '_' + name
            name, number = word(name), 2
            while name in self.taken:
                name, number = '%s_%d' % (word(self.short(kind)), number), number + 1
            self.taken[name] = kind
            self.called[kind] = name
        return self.called[kind]

    def c(self, kind):
        """The type in C, before a name."""
        if kind[0] == 'Int' and kind[1] in (8, 16, 32, 64):
            return 'uint%d_t' % kind[1]
        if kind == ('Int', 128):
            return 'wide_number'
        if kind[0] == 'Bool':
            return 'bool'
        if kind[0] == 'Ptr':
            return 'void *'
        if kind[0] == 'Ref':
            return self.c_pointer(kind)
        if self.is_empty(kind):
            return 'void'
        if kind[0] in ('Named', 'Struct', 'Array'):
            self.need(kind)
            return self.name(kind)
        raise Unknown('type %s in C' % ' '.join(map(str, kind)))

    def c_pointer(self, kind):
        to = 'void' if self.is_empty(kind[1]) else self.c_named(kind[1])
        const = 'const ' if kind[2] == 'Imm' and not to.endswith('*') else ''
        return const + to + ('*' if to.endswith('*') else ' *')

    def c_named(self, kind):
        """The same behind a pointer, which needs no definition before it."""
        if kind[0] in ('Named', 'Struct', 'Array'):
            self.need(kind)
            return self.name(kind)
        return self.c(kind)

    def need(self, kind):
        """Has a type, and all that it names, among those that are defined."""
        if kind in self.made:
            return
        self.made.add(kind)
        self.found.append(kind)
        for part in self.parts(kind):
            if not self.is_empty(part):
                self.c(part)

    def order(self):
        """The types to define, each behind those that it holds."""
        done = []

        def visit(kind):
            if kind[0] not in ('Named', 'Struct', 'Array') or kind in done or self.is_empty(kind):
                return
            for part in self.parts(kind):
                visit(part)
            done.append(kind)
        for kind in self.found:
            visit(kind)
        return [kind for kind in done if not self.is_outer(kind)]

    def parts(self, kind):
        if kind[0] == 'Array':
            return [kind[1]]
        form, parts = self.shape(kind)
        return parts if form == 'Fields' else [each for one in parts for each in one]

    def variant(self, kind, index):
        known = self.names.variants.get(kind[1], [])
        return word(known[index][0]) if index < len(known) else 'variant_%d' % index

    def field(self, kind, variant, index):
        """The name of a field; the first of a variant is the tag."""
        if kind[0] == 'Struct':
            return ('at', 'len')[index] if kind[1] == '&[]' else 'field_%d' % index
        if variant is None:
            header = self.headers.get(kind[1])
            known = [each for _, each in header.fields] if header else self.names.fields.get(kind[1], [])
            is_whole = len(known) == len(self.shape(kind)[1])
            return word(known[index]) if is_whole else 'field_%d' % index
        if index == 0:
            return 'tag'
        known = self.names.variants.get(kind[1], [])
        fields = known[variant][1] if variant < len(known) else []
        return word(fields[index - 1]) if index <= len(fields) else 'field_%d' % (index - 1)

    def filled(self, kind):
        """The variants that hold something."""
        return [index for index, one in enumerate(self.shape(kind)[1]) if not all(map(self.is_empty, one))]

    def path(self, kind, variant, index):
        """What leads to a field from its struct."""
        if variant is None or index == 0:
            return self.field(kind, variant, index)
        within = '' if len(self.filled(kind)) == 1 else 'is.'
        return '%s%s.%s' % (within, self.variant(kind, variant), self.field(kind, variant, index))

    def outer(self, kind, index):
        """What the header calls the type of a field, if the struct is the header's."""
        header = self.headers.get(kind[1]) if kind[0] == 'Named' else None
        return header.fields[index][0] if header else None

    def is_outer(self, kind):
        return kind[0] == 'Named' and kind[1] in self.headers

    def rows(self, kind, variant, parts, pad):
        first = 0 if variant is None else 1
        return ['%s%s;' % (pad, declaration(self.c(part), self.field(kind, variant, index + first)))
                for index, part in enumerate(parts) if not self.is_empty(part)]

    def definition(self, kind):
        head = 'struct %s {' % self.name(kind)
        if kind[0] == 'Array':
            return [head, '    %s[%d];' % (declaration(self.c(kind[1]), 'at'), kind[2]), '};']
        form, parts = self.shape(kind)
        if form == 'Fields':
            return [head] + self.rows(kind, None, parts, '    ') + ['};']
        known = ', '.join('%d %s' % (index, name) for index, (name, _) in enumerate(self.names.variants.get(kind[1], [])))
        return [head, '    uint8_t tag;' + (' /* %s */' % known if known else '')] + self.variants(kind, parts) + ['};']

    def variants(self, kind, parts):
        filled = self.filled(kind)
        pad = '    ' if len(filled) == 1 else '        '
        lines = []
        for index in filled:
            lines += [pad + 'struct {'] + self.rows(kind, index, parts[index], pad + '    ')
            lines.append('%s} %s;' % (pad, self.variant(kind, index)))
        return lines if len(filled) < 2 else ['    union {'] + lines + ['    } is;']
