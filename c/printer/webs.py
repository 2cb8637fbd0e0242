"""Gives each use of a local that the MIR uses again for something else a local of its own.

A web is what some assignments of a local give to the same reads. Each web but the first of a local gets a new number.
"""
from uses import is_through_pointer, places


class Webs:
    """Finds the webs of a tree. `kept` are the locals that keep their numbers: the result, parameters, and what is lent."""

    def __init__(self, tree, kept):
        self.kept, self.targets = kept, []
        self.parent, self.definitions, self.number_of = [], [], {}
        self.read = []
        self.flow(tree, {})

    def root(self, definition):
        while self.parent[definition] != definition:
            definition = self.parent[definition]
        return definition

    def define(self, place, state):
        """An assignment to a whole local; one to a part of it is a use."""
        if place['steps']:
            self.use(place, state)
            return state
        if id(place) not in self.number_of:
            self.number_of[id(place)] = len(self.parent)
            self.parent.append(len(self.parent))
            self.definitions.append(place)
        return {**state, place['local']: frozenset([self.number_of[id(place)]])}

    def use(self, place, state):
        reaching = sorted(state.get(place['local'], ()))
        if not reaching:
            return
        first = self.root(reaching[0])
        for other in reaching[1:]:
            self.parent[self.root(other)] = first
        self.read.append((place, first))

    def uses(self, node, state):
        for place, _ in places(node):
            self.use(place, state)

    def flow(self, node, state):
        """The state behind a node, or None if nothing comes there."""
        return None if state is None else getattr(self, 'flow_' + node[0])(node, state)

    def flow_Seq(self, node, state):
        for each in node[1]:
            state = self.flow(each, state)
        return state

    def flow_Block(self, node, state):
        self.targets.append([])
        end = self.flow(node[1], state)
        return merged([end] + self.targets.pop())

    def flow_Loop(self, node, state):
        before = None
        while state != before:
            before = state
            self.targets.append([])
            end = self.flow(node[1], state)
            state = merged([state, end] + self.targets.pop())
        return None

    def flow_Exit(self, node, state):
        self.targets[-1 - node[1]].append(state)

    def flow_If(self, node, state):
        self.uses(node[1], state)
        return merged([self.flow(node[2], state), self.flow(node[3], state)])

    def flow_Switch(self, node, state):
        self.uses(node[1], state)
        ends = [self.flow(arm, state) for _, arm in node[2]]
        return merged(ends + ([self.flow(node[3], state)] if node[3] else []))

    def flow_Skip(self, node, state):
        return state

    def flow_Return(self, node, state):
        return None

    def flow_Unreachable(self, node, state):
        return None

    def flow_Assign(self, node, state):
        self.uses(node[2], state)
        return self.define(node[1], state)

    def flow_Call(self, node, state):
        self.uses(node[2], state)
        return self.define(node[3], state)

    def flow_LendStatic(self, node, state):
        return self.define(node[1], state)

    def rename(self, kinds):
        """Writes new numbers into the tree's places, and has their types among `kinds`."""
        numbers, begun = {}, set()
        for definition, place in enumerate(self.definitions):
            root, local = self.root(definition), place['local']
            if root in numbers or local in self.kept:
                continue
            numbers[root] = local
            if local in begun:
                numbers[root] = len(kinds)
                kinds.append(kinds[local])
            begun.add(local)
        renamed = [(place, numbers.get(self.root(definition))) for definition, place in enumerate(self.definitions)]
        for place, number in renamed + [(place, numbers.get(self.root(definition))) for place, definition in self.read]:
            if number is not None:
                place['local'] = number


def merged(states):
    states = [state for state in states if state is not None]
    if not states:
        return None
    return {local: frozenset().union(*(state.get(local, ()) for state in states)) for local in {key for state in states for key in state}}


def lent(node):
    """The locals of which an address is taken somewhere in a body."""
    return {place['local'] for place, is_lent in places(node) if is_lent and not is_through_pointer(place)}


def split(tree, body, kinds, count):
    """Gives each web of a tree, made from that body, its own local. The first `count` locals, and the result, stay."""
    Webs(tree, set(range(count + 1)) | lent(body)).rename(kinds)
