"""Types of the MIR with their parameters in place, and where their parts lie: for the second reading, and apart from the printer."""


class Strange(Exception):
    """What this reading doesn't know."""


def one(node):
    return (node, None) if isinstance(node, str) else next(iter(node.items()))


class Types:
    """Types with their parameters in place, and where their parts lie."""

    def __init__(self, shapes):
        self.shapes, self.known = shapes, {}

    def of(self, node, given):
        kind, held = one(node)
        if kind in ('Bool', 'Unit', 'Ptr'):
            return (kind,)
        if kind in ('Int', 'Const'):
            return (kind, held)
        if kind == 'Param':
            return given[held]
        if kind == 'Ref':
            return ('Ptr',)
        if kind == 'Named':
            return ('Named', held[0]['name'], tuple(self.of(each, given) for each in held[1]))
        if kind == 'Struct':
            return ('Struct', held[0], tuple(self.of(each, given) for each in held[1]))
        if kind in ('Array', 'Vector'):
            return ('Array', self.of(held[0], given), self.number(held[1], given))
        raise Strange('type ' + kind)

    def number(self, node, given):
        kind, held = one(node)
        return held if kind == 'Lit' else given[held][1]

    def parts(self, kind, variant=None):
        """The types of its fields, and where the first may begin."""
        if kind[0] == 'Struct':
            return list(kind[2]), 0
        form, held = one(self.shapes[kind[1]])
        if form == 'Fields':
            return [self.of(each, kind[2]) for each in held], 0
        rows = [[self.of(each, kind[2]) for each in row] for row in held]
        to = max([1] + [self.size(part)[1] for row in rows for part in row])
        return (rows[variant] if variant is not None else rows), to

    def is_choice(self, kind):
        return kind[0] == 'Named' and one(self.shapes[kind[1]])[0] == 'Variants'

    def size(self, kind):
        if kind not in self.known:
            self.known[kind] = self.measured(kind)
        return self.known[kind]

    def measured(self, kind):
        """Bytes and alignment."""
        if kind[0] == 'Int':
            return kind[1] // 8, kind[1] // 8
        if kind[0] in ('Bool', 'Unit', 'Ptr', 'Const'):
            return {'Bool': (1, 1), 'Ptr': (8, 8)}.get(kind[0], (0, 1))
        if kind[0] == 'Array':
            bytes_, to = self.size(kind[1])
            return bytes_ * kind[2], to
        parts, begin = self.parts(kind)
        if not self.is_choice(kind):
            return self.row(parts, 0)[1:]
        ends = [self.row(row, begin)[1:] for row in parts]
        to = max([1] + [each[1] for each in ends])
        return (max(-(-end // to) * to for end, _ in ends), to) if ends else (0, 1)

    def row(self, parts, at):
        """Where each of these lies, one behind the other; the end, and the alignment of all."""
        places, most = [], 1
        for part in parts:
            bytes_, to = self.size(part)
            at = -(-at // to) * to
            places.append(at)
            at, most = at + bytes_, max(most, to)
        return places, -(-at // most) * most, most

    def field(self, kind, variant, index):
        """The type of a field and where it lies; the first of a variant is its tag."""
        if variant is not None and index == 0:
            return ('Int', 8), 0
        parts, begin = self.parts(kind, variant)
        index -= variant is not None
        return parts[index], self.row(parts, begin)[0][index]

    def is_scalar(self, kind):
        return kind[0] in ('Int', 'Bool', 'Ptr')
