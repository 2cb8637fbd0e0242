"""Small functions of MIR, written by hand, as the kit would write them."""

BOOL, UNIT, PTR = 'Bool', 'Unit', 'Ptr'
U8, U16, U32, U64, U128 = ({'Int': bits} for bits in (8, 16, 32, 64, 128))


def named(name, *types):
    return {'Named': [{'name': name, 'lifetimes': []}, list(types)]}


def ref(to, kind='Mut'):
    return {'Ref': ['Erased', kind, to]}


def array(of, length):
    return {'Array': [of, {'Lit': length}]}


def param(index):
    return {'Param': index}


def at(local, *steps):
    return {'local': local, 'steps': list(steps)}


def field(index):
    return {'Field': index}


def variant(index):
    return {'Variant': index}


def deref(kind):
    return {'Deref': kind}


def copy(local, *steps):
    return {'Copy': at(local, *steps)}


def num(kind, value):
    return {'Int': {'width': kind['Int'], 'value': value}}


def put(place, right):
    """An assignment; a number says a local."""
    return {'Assign': [at(place) if isinstance(place, int) else place, right]}


def opd(operand):
    return {'Opd': operand}


def op1(operator, operand):
    return {'Op1': [operator, operand]}


def op2(operator, one, other):
    return {'Op2': [operator, one, other]}


def cast(of, to, bits):
    return {'Cast': [of, to, bits]}


def call(name, operands, place, types=(), dicts=()):
    return {'Call': [{'Fn': [name, {'types': list(types), 'dicts': list(dicts)}]}, operands, at(place)]}


def seq(*parts):
    """The parts, each a node or a list of nodes, one after another."""
    lists = [part if isinstance(part, list) else [part] for part in parts]
    if len(lists) == 1:
        return lists[0]
    return ['Seq'] + lists[0] + seq(*lists[1:])


def when(test, one, other='Skip'):
    return [{'If': test}] + seq(one) + seq(other)


def block(*parts):
    return ['Block'] + seq(*parts)


def loop(*parts):
    return ['Loop'] + seq(*parts)


def leave(count):
    return {'Exit': count}


def function(name, kinds, count, body, generics=0, bounds=(), method_of=None):
    """A function: its result's type, those of `count` parameters, and those of locals."""
    found = {'types': [{}] * generics, 'bounds': list(bounds), 'method_of': method_of, 'impls': []}
    return [name, {'params': count, 'generics': found, 'types': SHAPES, 'body': body,
                   'locals': [{'ty': kind, 'home': 'ValueLocal'} for kind in kinds]}]


def shape(name, form, parts):
    return {'name': name, 'shape': {form: parts}}


PAIR, CHOICE, TWO, EMPTY, BOX = named('t::Pair'), named('t::Choice'), named('t::Two'), named('t::Empty'), named('t::Box', U32)
EIGHT, LARGE, HELD = array(U64, 8), named('t::Large'), named('t::Held')
SHAPES = [shape('t::Pair', 'Fields', [U32, U64]), shape('t::Choice', 'Variants', [[], [U32]]),
          shape('t::Two', 'Variants', [[U8, U32], [U64]]), shape('t::Empty', 'Fields', [UNIT]),
          shape('t::Box', 'Fields', [param(0), EMPTY]), shape('t::Large', 'Fields', [EIGHT, U64, U64]),
          shape('t::Held', 'Variants', [[U8], [LARGE]])]
