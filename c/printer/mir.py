"""The MIR that was proved, as the kit keeps it beside each library: functions, their types and their bodies.

A body is a list in prefix order, of which parse() makes a tree of tuples. What isn't known raises Unknown, with its name.
"""
import collections
import json
import os

PLACE = os.path.join('toolchain', 'mir.json')


class Unknown(Exception):
    """A kind of node that this printer doesn't print."""


def only(node):
    """The kind of a node and what it holds."""
    if isinstance(node, str):
        return node, None
    if len(node) != 1:
        raise Unknown('a node of %d kinds: %s' % (len(node), sorted(node)))
    return next(iter(node.items()))


class World:
    """All functions of some libraries by their names, the shapes of types, and the methods of impls."""

    def __init__(self):
        self.functions, self.types, self.impls = {}, {}, {}
        self.by_method = collections.defaultdict(dict)

    def read(self, path):
        with open(path) as file:
            self.add(json.load(file))
        return self

    def add(self, functions):
        for name, function in functions:
            self.functions[name] = function
            for shape in function['types']:
                self.types[shape['name']] = shape
            for impl in function['generics']['impls']:
                self.impls[impl['name']] = impl
            kind, of = only(function['generics']['method_of'] or {'None': None})
            if kind == 'Impl':
                self.by_method[of[0]][of[1]] = name

    def function(self, name):
        if name not in self.functions:
            raise Unknown('no function ' + name)
        return self.functions[name]

    def method(self, impl, index):
        """The function that is a method of an impl."""
        if impl in self.impls:
            return self.impls[impl]['methods'][index]
        if index not in self.by_method[impl]:
            raise Unknown('no method %d of %s' % (index, impl))
        return self.by_method[impl][index]

    def shape(self, name):
        if name not in self.types:
            raise Unknown('no type ' + name)
        return only(self.types[name]['shape'])


class Reader:
    """Reads a body from its first node to its last."""

    def __init__(self, body):
        self.body, self.at = body, 0

    def node(self):
        kind, held = only(self.body[self.at])
        self.at += 1
        read = getattr(self, 'read_' + kind, None)
        if read is None:
            raise Unknown('statement ' + kind)
        return read(held)

    def read_Seq(self, held):
        parts = [self.node(), self.node()]
        return ('Seq', [each for part in parts for each in (part[1] if part[0] == 'Seq' else [part])])

    def read_Block(self, held):
        return ('Block', self.node())

    def read_Loop(self, held):
        return ('Loop', self.node())

    def read_If(self, condition):
        return ('If', condition, self.node(), self.node())

    def read_Switch(self, held):
        value, arms, has_default = held
        read = [(tags, self.node()) for tags in arms]
        return ('Switch', value, read, self.node() if has_default else None)

    def read_Skip(self, held):
        return ('Skip',)

    def read_Return(self, held):
        return ('Return',)

    def read_Unreachable(self, held):
        return ('Unreachable',)

    def read_Exit(self, held):
        return ('Exit', held)

    def read_Assign(self, held):
        return ('Assign', held[0], held[1])

    def read_Call(self, held):
        return ('Call', held[0], held[1], held[2])

    def read_LendStatic(self, held):
        return ('LendStatic', held[0], held[1], held[2])


def parse(body):
    reader = Reader(body)
    tree = reader.node()
    if reader.at != len(body):
        raise Unknown('a body with %d nodes behind its end' % (len(body) - reader.at))
    return tree
