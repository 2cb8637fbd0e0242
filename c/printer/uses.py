"""What a function does with each of its locals, which says what of them is printed in place."""
import collections

from mir import only


def places(node):
    """All places in a node, each with whether its address is taken."""
    if isinstance(node, dict):
        if 'local' in node and 'steps' in node:
            yield node, False
            return
        for kind, held in node.items():
            for place, is_lent in places(held):
                yield place, is_lent or kind == 'AddrOf'
    elif isinstance(node, (list, tuple)):
        for each in node:
            yield from places(each)


def is_through_pointer(place):
    return any(only(step)[0] == 'Deref' for step in place['steps'])


class Uses:
    """Of each local: how often it is set whole, how often it is read, whether it or a part of it is set, and whether its address is taken.
    What has no bytes isn't read."""

    def __init__(self, tree, is_nothing=lambda place: False):
        self.is_nothing, self.dead = is_nothing, set()
        while self.count(tree):
            pass
        self.share_products()

    def count(self, tree):
        """Counts all, but for what gives a value to a local that isn't read; gives whether there are more of these than were known."""
        self.set, self.read = collections.Counter(), collections.Counter()
        self.lent, self.changed, self.products, self.offsets = set(), set(), {}, collections.Counter()
        self.behind = collections.defaultdict(list)
        self.visit(tree)
        dead = {local for local in self.set if local and not self.read[local] and local not in self.lent}
        is_more, self.dead = dead != self.dead, dead
        return is_more

    def reads(self, node):
        for place, is_lent in places(node):
            if self.is_nothing(place):
                continue
            self.read[place['local']] += 1
            self.looks_behind(place)
            if is_lent and not is_through_pointer(place):
                self.lent.add(place['local'])

    def looks_behind(self, place):
        """Keeps what type lies behind a pointer."""
        kind, held = only(place['steps'][0]) if place['steps'] else (None, None)
        if kind == 'Deref' and held not in self.behind[place['local']]:
            self.behind[place['local']].append(held)

    def sets(self, place):
        self.looks_behind(place)
        if self.is_nothing(place):
            return
        if not is_through_pointer(place):
            self.changed.add(place['local'])
        if place['steps']:
            self.read[place['local']] += 1 if only(place['steps'][0])[0] == 'Deref' else 2
        else:
            self.set[place['local']] += 1

    def visit(self, node):
        kind = node[0]
        if kind == 'Seq':
            for each in node[1]:
                self.visit(each)
        elif kind in ('Block', 'Loop'):
            self.visit(node[1])
        elif kind == 'If':
            self.reads(node[1])
            self.visit(node[2])
            self.visit(node[3])
        elif kind == 'Switch':
            self.reads(node[1])
            for _, arm in node[2]:
                self.visit(arm)
            if node[3]:
                self.visit(node[3])
        elif kind == 'Assign':
            self.sets(node[1])
            if node[1]['steps'] or node[1]['local'] not in self.dead:
                self.reads(node[2])
                self.products_in(node[1], node[2])
        elif kind == 'Call':
            self.reads(node[2])
            self.sets(node[3])
        elif kind == 'LendStatic':
            self.sets(node[1])

    def products_in(self, place, right):
        """Keeps products, and counts what is added to pointers."""
        kind, held = only(right)
        if kind != 'Op2':
            return
        operator, _ = only(held[0])
        form, of = only(held[2])
        if operator == 'Offset' and form == 'Copy' and not of['steps']:
            self.offsets[of['local']] += 1
        if operator == 'Mul' and form in ('Int', 'SizeOf') and not place['steps']:
            self.products[place['local']] = held

    def share_products(self):
        """A product that is added to pointers alone is printed with each of them, and so is its index: that one must stay."""
        kept = {}
        for local, held in self.products.items():
            form, index = only(held[1])
            is_shared = self.set[local] == 1 and local not in self.lent and 1 < self.read[local] == self.offsets[local]
            is_steady = form == 'Copy' and not index['steps'] and self.set[index['local']] < 2 and index['local'] not in self.lent
            if is_shared and is_steady:
                kept[local] = held
                self.read[index['local']] += self.read[local]
        self.products = kept

    def is_single(self, local):
        """Set once and read once: what it is can stand where it is read."""
        return self.set[local] == 1 and self.read[local] == 1 and local not in self.lent
