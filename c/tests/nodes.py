"""Each kind of node, printed as C and run: what comes out is worked out by hand from what the node means.

A case is a name, the types of the result, the parameters and the locals, the number of parameters, the body, and rows of arguments with
the result.
"""
from building import *  # noqa: F401,F403
from building import BOOL, BOX, CHOICE, EIGHT, EMPTY, HELD, LARGE, PAIR, PTR, TWO, U8, U16, U32, U64, U128, UNIT

MOST = {8: 0xff, 16: 0xffff, 32: 0xffffffff, 64: 0xffffffffffffffff}
ALL = MOST[64]


def of_two(operator, kind, result, rows):
    """An operator of two numbers."""
    name = operator if isinstance(operator, str) else '_'.join(next(iter(operator.items())))
    bits = kind['Int'] if isinstance(kind, dict) else 1
    return ('%s_%s' % (name, bits), [result, kind, kind], 2, seq(put(0, op2(operator, copy(1), copy(2))), 'Return'), rows)


def of_one(name, operator, kind, result, rows):
    return (name, [result, kind], 1, seq(put(0, op1(operator, copy(1))), 'Return'), rows)


def unsigned(name):
    return {name: 'Unsigned'}


def signed(name):
    return {name: 'Signed'}


OPERATORS = [
    of_two(unsigned('Add'), U8, U8, [((200, 50), 250)]), of_two('WrapAdd', U8, U8, [((200, 100), 44)]),
    of_two('WrapAdd', U32, U32, [((MOST[32], 2), 1)]), of_two('WrapAdd', U64, U64, [((ALL, 2), 1)]),
    of_two(unsigned('Sub'), U32, U32, [((7, 5), 2)]), of_two('WrapSub', U16, U16, [((3, 5), 65534)]),
    of_two('WrapSub', U64, U64, [((0, 1), ALL)]), of_two(signed('Sub'), U32, U32, [((3, 5), MOST[32] - 1)]),
    of_two(unsigned('Mul'), U64, U64, [((1 << 33, 1 << 30), 1 << 63)]), of_two('WrapMul', U16, U16, [((65535, 65535), 1)]),
    of_two(unsigned('Div'), U32, U32, [((MOST[32], 2), 2147483647)]), of_two(signed('Div'), U32, U32, [((MOST[32] - 6, 2), MOST[32] - 2)]),
    of_two(unsigned('Rem'), U8, U8, [((250, 7), 5)]), of_two(signed('Rem'), U32, U32, [((MOST[32] - 6, 4), MOST[32] - 2)]),
    of_two(signed('Div'), U8, U8, [((0xf9, 2), 0xfd)]),
    of_two(unsigned('Lt'), U32, BOOL, [((1, MOST[32]), 1), ((2, 2), 0)]), of_two(signed('Lt'), U32, BOOL, [((MOST[32], 1), 1), ((1,
     MOST[32]), 0)]),
    of_two(unsigned('Le'), U64, BOOL, [((2, 2), 1), ((3, 2), 0)]), of_two(signed('Le'), U8, BOOL, [((0x80, 0x7f), 1), ((0x7f, 0x80), 0)]),
    of_two(signed('Lt'), U64, BOOL, [((ALL, 0), 1), ((0, ALL), 0)]),
    of_two('Eq', U64, BOOL, [((1 << 40, 1 << 40), 1), ((1 << 40, 0), 0)]), of_two('Ne', U32, BOOL, [((4, 4), 0), ((4, 5), 1)]),
    of_two('And', U32, U32, [((12, 10), 8)]), of_two('Or', U8, U8, [((12, 3), 15)]), of_two('Xor', U64, U64, [((ALL, 1), ALL - 1)]),
    of_two('And', BOOL, BOOL, [((1, 0), 0), ((1, 1), 1)]), of_two('Or', BOOL, BOOL, [((1, 0), 1), ((0, 0), 0)]),
    of_two('Xor', BOOL, BOOL, [((1, 1), 0), ((0, 1), 1)]),
    of_two('Shl', U8, U8, [((0x81, 1), 2)]), of_two('Shl', U64, U64, [((3, 62), 3 << 62)]),
    of_two(unsigned('Shr'), U32, U32, [((1 << 31, 31), 1)]), of_two(signed('Shr'), U32, U32, [((1 << 31, 31), MOST[32])]),
    of_two(unsigned('Shr'), U8, U8, [((0x80, 7), 1)]),
    of_one('not_8', 'Not', U8, U8, [((0x0f,), 0xf0)]), of_one('not_64', 'Not', U64, U64, [((1,), ALL - 1)]),
    of_one('not_bool', 'Not', BOOL, BOOL, [((0,), 1), ((1,), 0)]),
    of_one('ones', 'CountOnes', U64, U32, [((ALL,), 64), ((5,), 2)]), of_one('ones_32', 'CountOnes', U32, U32, [((MOST[32],), 32)]),
    of_one('leading', 'LeadingZeros', U64, U32, [((0,), 64), ((1,), 63), ((1 << 63,), 0)]),
    of_one('leading_32', 'LeadingZeros', U32, U32, [((0,), 32), ((1,), 31)]),
    of_one('trailing', 'TrailingZeros', U64, U32, [((0,), 64), ((8,), 3)]), of_one('trailing_32', 'TrailingZeros', U32, U32, [((0,),
     32), ((8,), 3)]),
    of_one('widen_unsigned', cast('Unsigned', 'Unsigned', 64), U32, U64, [((MOST[32],), MOST[32])]),
    of_one('widen_signed', cast('Signed', 'Signed', 64), U32, U64, [((MOST[32],), ALL)]),
    of_one('widen_signed_8', cast('Signed', 'Unsigned', 32), U8, U32, [((0x80,), 0xffffff80)]),
    of_one('narrow', cast('Signed', 'Unsigned', 8), U32, U8, [((0x1234,), 0x34)]), of_one('same', cast('Signed', 'Unsigned', 32),
     U32, U32, [((7,), 7)]),
    of_one('of_bool', cast('Unsigned', 'Unsigned', 32), BOOL, U32, [((1,), 1)]),
]

NUMBERS = [
    ('cut', [BOOL, U8, U8], 1, seq(put(2, op2('WrapAdd', copy(1), num(U8, 200))), put(0, op2(unsigned('Lt'), copy(2), num(U8, 100))),
     'Return'),
     [((100,), 1), ((10,), 0)]),
    ('literal_shift', [U64, U64], 1, seq(put(0, op2('Shl', num(U64, 1), copy(1))), 'Return'), [((40,), 1 << 40)]),
    ('literals', [U64, U64], 1, seq(put(0, op2(unsigned('Mul'), num(U64, 65536), num(U64, 65536))), 'Return'), [((0,), 1 << 32)]),
    ('great_literal', [U64], 0, seq(put(0, opd(num(U64, ALL))), 'Return'), [((), ALL)]),
    ('true_false', [BOOL, BOOL], 1, seq(when(copy(1), put(0, opd('False')), put(0, opd('True'))), 'Return'), [((1,), 0), ((0,), 1)]),
    ('size_of', [U64], 0, seq(put(0, opd({'SizeOf': PAIR})), 'Return'), [((), 16)]),
    ('size_of_nothing', [U64], 0, seq(put(0, opd({'SizeOf': EMPTY})), 'Return'), [((), 0)]),
    ('align_of', [U64], 0, seq(put(0, opd({'AlignOf': PAIR})), 'Return'), [((), 8)]),
    ('select', [U32, BOOL, U32, U32], 3, seq(put(0, {'Select': [copy(1), copy(2), copy(3)]}), 'Return'), [((1, 5, 6), 5), ((0, 5, 6), 6)]),
    ('wide', [U64, U64, U64, U128, U128, U128], 2, seq(
        put(3, op1(cast('Unsigned', 'Unsigned', 128), copy(1))), put(4, op1(cast('Unsigned', 'Unsigned', 128), copy(2))),
        put(5, op2(unsigned('Mul'), copy(3), copy(4))), put(5, op2(unsigned('Shr'), copy(5), num(U128, 64))),
        put(0, op1(cast('Unsigned', 'Unsigned', 64), copy(5))), 'Return'), [((ALL, ALL), ALL - 1), ((1 << 63, 6), 3)]),
    ('wide_sum', [BOOL, U64, U64, U128, U128], 2, seq(
        put(3, op1(cast('Unsigned', 'Unsigned', 128), copy(1))), put(4, op1(cast('Unsigned', 'Unsigned', 128), copy(2))),
        put(4, op2(unsigned('Add'), copy(4), copy(3))), put(0, op2(unsigned('Lt'), copy(3), copy(4))), 'Return'),
     [((ALL, ALL), 1), ((5, 0), 0)]),
    ('wide_most', [BOOL, U64, U128, U128], 1, seq(
        put(2, op1(cast('Unsigned', 'Unsigned', 128), copy(1))), put(3, op2('And', num(U128, 1 << 64 | 6), copy(2))),
        put(0, op2(unsigned('Le'), copy(3), num(U128, 2))), 'Return'), [((3,), 1), ((7,), 0)]),
    ('null', [BOOL, PTR], 0, seq(put(1, opd('Null')), put(0, op2('PtrEq', copy(1), 'Null')), 'Return'), [((), 1)]),
]

# Sixteen bytes, of which four are what is given.
LANES = {'Vector': [U8, {'Lit': 16}]}
APART = [copy(1) if each is None else num(U8, each) for each in (None, 0, 128, 255, None, 1, 2, 3, 4, None, 6, 127, 129, 9, 10, None)]
PARTS = [
    ('struct', [U64, U32, U64, PAIR, U64], 2, seq(put(3, {'Aggregate': [copy(1), copy(2)]}), put(at(3, field(0)), opd(num(U32, 9))),
                                             put(4, opd(copy(3, field(1)))), put(0, opd(copy(4))), 'Return'), [((1, 5), 5)]),
    ('struct_first', [U32, U32, U64, PAIR], 2, seq(put(3, {'Aggregate': [copy(1), copy(2)]}), put(0, opd(copy(3, field(0)))), 'Return'),
     [((3, 5), 3)]),
    ('swap_in_itself', [U64, U32, U64, PAIR, U64], 2, seq(
        put(3, {'Aggregate': [copy(1), copy(2)]}), put(4, op1(cast('Unsigned', 'Unsigned', 64), copy(3, field(0)))),
        put(3, {'Aggregate': [num(U32, 0), copy(4)]}), put(0, opd(copy(3, field(1)))), 'Return'), [((3, 5), 3)]),
    ('enum_tag', [U8, U32, CHOICE], 1, seq(put(2, {'Aggregate': [num(U8, 1), copy(1)]}), put(0, opd(copy(2, variant(1), field(0)))),
     'Return'),
     [((7,), 1)]),
    ('enum_payload', [U32, U32, TWO], 1, seq(put(2, {'Aggregate': [num(U8, 0), num(U8, 4), copy(1)]}),
                                             put(0, opd(copy(2, variant(0), field(2)))), 'Return'), [((7,), 7)]),
    ('enum_other', [U64, U64, TWO], 1, seq(put(2, {'Aggregate': [num(U8, 1), copy(1)]}), put(0, opd(copy(2, variant(1), field(1)))),
     'Return'),
     [((ALL,), ALL)]),
    ('array', [U32, U32, array(U32, 3), PTR, PTR, U64], 1, seq(
        put(2, {'Aggregate': [num(U32, 4), copy(1), num(U32, 6)]}), put(3, {'AddrOf': at(2)}),
        put(5, op2(unsigned('Mul'), num(U64, 1), num(U64, 4))), put(4, op2('Offset', copy(3), copy(5))),
        put(0, opd(copy(4, deref(U32)))), 'Return'), [((5,), 5)]),
    ('repeat', [U32, U32, array(U32, 5), PTR, PTR], 1, seq(
        put(2, {'Repeat': [copy(1), {'Lit': 5}]}), put(3, {'AddrOf': at(2)}), put(4, op2('Offset', copy(3), num(U64, 16))),
        put(0, opd(copy(4, deref(U32)))), 'Return'), [((5,), 5)]),
    ('lanes', [U64, U8, LANES, LANES, LANES], 1, seq(
        put(2, {'Repeat': [copy(1), {'Lit': 16}]}), put(3, {'Repeat': [num(U8, 7), {'Lit': 16}]}),
        put(4, {'Vec2': [{'Mask': 'Eq'}, copy(2), copy(3)]}), put(0, {'Vec1': [{'Bitmask': 64}, copy(4)]}), 'Return'),
     [((7,), 65535), ((8,), 0)]),
    ('lanes_apart', [U64, U8, LANES, LANES, LANES], 1, seq(
        put(2, {'Aggregate': APART}), put(3, {'Repeat': [copy(1), {'Lit': 16}]}),
        put(4, {'Vec2': [{'Mask': 'Eq'}, copy(2), copy(3)]}), put(0, {'Vec1': [{'Bitmask': 64}, copy(4)]}), 'Return'),
     [((7,), 33297), ((0,), 33299), ((128,), 33301), ((255,), 33305), ((127,), 35345)]),
    ('lanes_high', [U64, U8, LANES], 1, seq(
        put(2, {'Aggregate': APART}), put(0, {'Vec1': [{'Bitmask': 64}, copy(2)]}), 'Return'), [((7,), 4108), ((128,), 37405)]),
    ('nothing', [U32, U32, EMPTY, ref(EMPTY), BOX], 1, seq(
        put(2, {'Aggregate': ['Unit']}), put(3, {'AddrOf': at(2)}), put(4, {'Aggregate': [copy(1), copy(2)]}),
        put(0, opd(copy(4, field(0)))), 'Return'), [((6,), 6)]),
    ('static_ints', [U8, ref(array(U8, 3)), PTR], 0, seq(
        {'LendStatic': [at(1), array(U8, 3), {'Ints': {'width': 8, 'values': [4, 5, 6]}}]}, put(2, op2('Offset', copy(1), num(U64, 2))),
        put(0, opd(copy(2, deref(U8)))), 'Return'), [((), 6)]),
    ('static_parts', [U32, ref(CHOICE)], 0, seq(
        {'LendStatic': [at(1), CHOICE, {'Parts': [{'Int': {'width': 8, 'value': 1}}, {'Int': {'width': 32, 'value': 8}}]}]},
        put(0, opd(copy(1, deref(CHOICE), variant(1), field(1)))), 'Return'), [((), 8)]),
]


def adds(local, number):
    return put(local, op2(unsigned('Add'), copy(local), number))


CONTROL = [
    ('switch', [U32, U8, CHOICE], 1, seq([{'Switch': [copy(1), [[1, 3], [2]], True]}] + seq(put(0, opd(num(U32, 13)))) + seq(put(0,
     opd(num(U32, 2))))
                                         + seq(put(0, opd(num(U32, 99)))), 'Return'), [((1,), 13), ((3,), 13), ((2,), 2), ((0,), 99)]),
    ('switch_all', [U32, U8], 1, seq([{'Switch': [copy(1), [[0], [1]], False]}, put(0, opd(num(U32, 5))), put(0, opd(num(U32, 6)))],
     'Return'),
     [((0,), 5), ((1,), 6)]),
    ('sum_to', [U32, U32, U32, BOOL], 1, seq(put(0, opd(num(U32, 0))), put(2, opd(num(U32, 0))), block(loop(
        put(3, op2(unsigned('Lt'), copy(2), copy(1))), when(copy(3), 'Skip', leave(1)), adds(2, num(U32, 1)), adds(0, copy(2)))), 'Return'),
     [((4,), 10), ((0,), 0)]),
    ('odd_alone', [U32, U32, U32, U32, BOOL], 1, seq(put(0, opd(num(U32, 0))), put(2, opd(num(U32, 0))), block(loop(
        put(4, op2('Eq', copy(2), copy(1))), when(copy(4), leave(1)), adds(2, num(U32, 1)), put(3, op2('And', copy(2), num(U32, 1))),
        put(4, op2('Eq', copy(3), num(U32, 0))), when(copy(4), leave(0)), adds(0, copy(2)))), 'Return'), [((5,), 9)]),
    ('out_of_two', [U32, U32, BOOL], 1, seq(put(0, opd(num(U32, 0))), block(block(
        put(2, op2('Eq', copy(1), num(U32, 1))), when(copy(2), leave(1)), put(2, op2('Eq', copy(1), num(U32, 2))), when(copy(2), leave(0)),
        adds(0, num(U32, 1))), adds(0, num(U32, 10))), adds(0, num(U32, 100)), 'Return'), [((1,), 100), ((2,), 110), ((3,), 111)]),
    ('out_of_inner_loop', [U32, U32, U32, BOOL], 1, seq(put(0, opd(num(U32, 0))), put(2, opd(num(U32, 0))), block(loop(
        adds(0, num(U32, 1)), loop(adds(2, num(U32, 1)), put(3, op2('Eq', copy(2), copy(1))), when(copy(3), leave(2)),
                                   put(3, op2('Eq', copy(2), num(U32, 3))), when(copy(3), leave(1))))), 'Return'), [((2,), 1), ((5,), 2)]),
    ('unreachable', [U32, BOOL], 1, seq(when(copy(1), 'Unreachable'), put(0, opd(num(U32, 3))), 'Return'), [((0,), 3)]),
    ('early', [U32, BOOL], 1, seq(when(copy(1), seq(put(0, opd(num(U32, 1))), 'Return')), put(0, opd(num(U32, 2))), 'Return'),
     [((1,), 1), ((0,), 2)]),
    ('else_alone', [U32, BOOL], 1, seq(put(0, opd(num(U32, 1))), when(copy(1), 'Skip', put(0, opd(num(U32, 2)))), 'Return'),
     [((1,), 1), ((0,), 2)]),
]

# What is computed before something is written must not be printed behind it.
ORDER = [
    ('read_before_set', [U32, U32, U32], 1, seq(put(2, op2(unsigned('Add'), copy(1), num(U32, 1))), put(1, opd(num(U32, 50))),
                                                put(0, op2(unsigned('Add'), copy(2), copy(1))), 'Return'), [((5,), 56)]),
    ('read_before_store', [U32, U32, U32, ref(U32), U32], 1, seq(
        put(2, opd(copy(1))), put(3, {'AddrOf': at(2)}), put(4, opd(copy(3, deref(U32)))), put(at(3, deref(U32)), opd(num(U32, 9))),
        put(0, opd(copy(4))), 'Return'), [((5,), 5)]),
    ('read_before_call', [U32, U32, U32, ref(U32), U32, UNIT], 1, seq(
        put(2, opd(copy(1))), put(3, {'AddrOf': at(2)}), put(4, opd(copy(3, deref(U32)))), call('t::set_9', [copy(3)], 5),
        put(0, opd(copy(4))), 'Return'), [((5,), 5)]),
    ('lent_before_call', [U32, U32, U32, ref(U32), U32, UNIT], 1, seq(
        put(2, opd(copy(1))), put(3, {'AddrOf': at(2)}), put(4, op2(unsigned('Add'), copy(2), num(U32, 1))), call('t::set_9', [copy(3)], 5),
        put(0, op2(unsigned('Add'), copy(4), copy(2))), 'Return'), [((5,), 15)]),
    ('set_while_lent', [U32, U32, U32, ref(U32)], 1, seq(
        put(2, opd(copy(1))), put(3, {'AddrOf': at(2)}), put(2, op2(unsigned('Add'), copy(1), num(U32, 1))),
        put(0, opd(copy(3, deref(U32)))), 'Return'), [((5,), 6)]),
    ('call_before_store', [U32, U32, U32, ref(U32), U32], 1, seq(
        put(2, opd(copy(1))), put(3, {'AddrOf': at(2)}), call('t::next', [copy(2)], 4), put(at(3, deref(U32)), opd(num(U32, 1))),
        put(0, op2(unsigned('Add'), copy(4), copy(2))), 'Return'), [((5,), 7)]),
    ('set_in_one_branch', [U32, BOOL, U32, U32], 1, seq(
        put(2, opd(num(U32, 1))), put(3, op2(unsigned('Add'), copy(2), num(U32, 1))), when(copy(1), put(2, opd(num(U32, 40)))),
        put(0, op2(unsigned('Add'), copy(2), copy(3))), 'Return'), [((1,), 42), ((0,), 3)]),
    ('used_again', [U32, U32, U32, U32], 1, seq(
        put(2, op2(unsigned('Add'), copy(1), num(U32, 1))), put(3, opd(copy(2))), put(2, op2(unsigned('Mul'), copy(1), num(U32, 10))),
        put(0, op2(unsigned('Add'), copy(2), copy(3))), 'Return'), [((5,), 56)]),
    ('around_a_loop', [U32, U32, U32, U32, BOOL], 1, seq(
        put(2, opd(num(U32, 0))), put(3, opd(num(U32, 0))), block(loop(
            adds(2, copy(3)), put(3, opd(copy(1))), put(4, op2(unsigned('Le'), num(U32, 20), copy(2))), when(copy(4), leave(1)))),
        put(0, opd(copy(2))), 'Return'), [((7,), 21)]),
    ('two_offsets', [U32, U64, array(U32, 4), PTR, U64, PTR, PTR], 1, seq(
        put(2, {'Aggregate': [num(U32, each) for each in (3, 4, 5, 6)]}), put(3, {'AddrOf': at(2)}),
        put(4, op2(unsigned('Mul'), copy(1), num(U64, 4))), put(5, op2('Offset', copy(3), copy(4))), put(at(5, deref(U32)),
         opd(num(U32, 50))),
        put(6, op2('Offset', copy(3), copy(4))), put(0, opd(copy(6, deref(U32)))), 'Return'), [((2,), 50)]),
]

CALLS = [
    ('generic', [U32, U32, BOX], 1, seq(call('t::boxed', [copy(1)], 2, [U32]), put(0, opd(copy(2, field(0)))), 'Return'), [((8,), 8)]),
    ('given_method', [U32, U32], 1, seq(call('t::twice', [copy(1)], 0, [U32], [{'Impl': ['t::Steps', [], []]}]), 'Return'), [((8,), 10)]),
    ('not_used', [U32, U32, U32], 1, seq(call('t::next', [copy(1)], 2), put(0, opd(copy(1))), 'Return'), [((8,), 8)]),
    ('into_a_field', [U64, U32, PAIR], 1, seq(
        put(2, {'Aggregate': [num(U32, 1), num(U64, 2)]}), {'Call': [{'Fn': ['t::next', {'types': [], 'dicts': []}]}, [copy(1)],
         at(2, field(0))]},
        put(0, op1(cast('Unsigned', 'Unsigned', 64), copy(2, field(0)))), 'Return'), [((8,), 9)]),
    ('number', [U64, U64], 1, seq(call('t::length', [], 0, [{'Const': 7}]), 'Return'), [((0,), 7)]),
    ('of_itself', [U32, U32], 1, seq(call('t::down', [copy(1)], 0), 'Return'), [((5,), 15)]),
    ('of_each_other', [BOOL, U32], 1, seq(call('t::is_even', [copy(1)], 0), 'Return'), [((6,), 1), ((7,), 0)]),
    ('test_in_a_loop', [U32, U32, U32, PAIR, ref(PAIR, 'Imm')], 2, seq(
        put(3, {'Aggregate': [copy(1), num(U64, 2)]}), put(4, {'AddrOf': at(3)}), call('t::sum', [copy(4), copy(2)], 0), 'Return'),
     [((0, 3), 300), ((5, 3), 18), ((5, 0), 0)]),
]

# Structs of more than 64 bytes, which are filled where they stand.
LARGER = [
    ('large_result', [U64, U64, U64, LARGE], 2, seq(
        call('t::large', [copy(1), copy(2)], 3), put(at(3, field(1)), opd(num(U64, 4))), put(0, opd(copy(3, field(2)))), 'Return'),
     [((3, 5), 5)]),
    ('large_in_itself', [U64, BOOL, U64, EIGHT, LARGE], 2, seq(
        put(3, {'Repeat': [copy(2), {'Lit': 8}]}), put(4, {'Aggregate': [copy(3), copy(2), num(U64, 7)]}),
        when(copy(1), put(4, {'Aggregate': [copy(3), copy(4, field(2)), copy(4, field(1))]})), put(0, opd(copy(4, field(2)))), 'Return'),
     [((1, 5), 5), ((0, 5), 7)]),
    ('large_lent', [U64, U64, EIGHT, LARGE, ref(LARGE)], 1, seq(
        put(2, {'Repeat': [copy(1), {'Lit': 8}]}), put(3, {'Aggregate': [copy(2), copy(1), num(U64, 7)]}), put(4, {'AddrOf': at(3)}),
        put(3, {'Aggregate': [copy(2), copy(4, deref(LARGE), field(2)), copy(4, deref(LARGE), field(1))]}),
        put(0, opd(copy(3, field(2)))), 'Return'), [((5,), 5)]),
    ('large_variant', [U64, BOOL, U64, HELD, HELD], 2, seq(
        put(3, {'Aggregate': [num(U8, 0), num(U8, 9)]}), call('t::either', [copy(1), copy(2), copy(3)], 4), call('t::held', [copy(4)], 0),
        'Return'), [((1, 5), 5), ((0, 5), 9)]),
    ('large_changed', [U64, U64, U64, LARGE, U64], 2, seq(
        call('t::large', [copy(1), copy(2)], 3), call('t::changed', [copy(3)], 4), put(0, op2(unsigned('Add'), copy(4), copy(3, field(2)))),
        'Return'), [((3, 5), 14)]),
]

HELPERS = [
    function('t::large', [LARGE, U64, U64, EIGHT], 2, seq(
        put(3, {'Repeat': [copy(1), {'Lit': 8}]}), put(0, {'Aggregate': [copy(3), copy(1), copy(2)]}), 'Return')),
    function('t::either', [HELD, BOOL, U64, HELD, EIGHT, LARGE], 3, seq(
        put(0, opd(copy(3))), when(copy(1), seq(
            put(4, {'Repeat': [num(U64, 8), {'Lit': 8}]}), put(5, {'Aggregate': [copy(4), num(U64, 6), copy(2)]}),
            put(0, {'Aggregate': [num(U8, 1), copy(5)]}))), 'Return')),
    function('t::held', [U64, HELD, BOOL], 1, seq(
        put(2, op2('Eq', copy(1, variant(1), field(0)), num(U8, 1))),
        when(copy(2), put(0, opd(copy(1, variant(1), field(1), field(2)))),
             put(0, op1(cast('Unsigned', 'Unsigned', 64), copy(1, variant(0), field(1))))), 'Return')),
    function('t::changed', [U64, LARGE], 1, seq(
        put(at(1, field(2)), opd(num(U64, 9))), put(0, opd(copy(1, field(2)))), 'Return')),
    function('t::set_9', [UNIT, ref(U32)], 1, seq(put(at(1, deref(U32)), opd(num(U32, 9))), put(0, opd('Unit')), 'Return')),
    function('t::next', [U32, U32], 1, seq(put(0, op2(unsigned('Add'), copy(1), num(U32, 1))), 'Return')),
    function('t::boxed', [named('t::Box', param(0)), param(0), EMPTY], 1, seq(
        put(2, {'Aggregate': ['Unit']}), put(0, {'Aggregate': [copy(1), copy(2)]}), 'Return'), 1),
    function('t::step', [U32, U32], 1, seq(put(0, op2(unsigned('Add'), copy(1), num(U32, 1))), 'Return'),
     method_of={'Impl': ['t::Steps', 0]}),
    function('t::twice', [param(0), param(0), param(0)], 1, seq(
        {'Call': [{'Method': [{'Given': 0}, 0, {'types': [], 'dicts': []}]}, [copy(1)], at(2)]},
        {'Call': [{'Method': [{'Given': 0}, 0, {'types': [], 'dicts': []}]}, [copy(2)], at(0)]}, 'Return'), 1, [{'of': 't::Step'}]),
    function('t::down', [U32, U32, BOOL, U32, U32], 1, seq(
        put(2, op2('Eq', copy(1), num(U32, 0))), when(copy(2), seq(put(0, opd(num(U32, 0))), 'Return')),
        put(3, op2(unsigned('Sub'), copy(1), num(U32, 1))), call('t::down', [copy(3)], 4), put(0, op2(unsigned('Add'), copy(4), copy(1))),
        'Return')),
    *(function('t::is_' + one, [BOOL, U32, BOOL, U32], 1, seq(
        put(2, op2('Eq', copy(1), num(U32, 0))), when(copy(2), seq(put(0, opd(told)), 'Return')),
        put(3, op2(unsigned('Sub'), copy(1), num(U32, 1))), call('t::is_' + other, [copy(3)], 0), 'Return'))
      for one, other, told in (('even', 'odd', 'True'), ('odd', 'even', 'False'))),
    function('t::is_zero', [BOOL, ref(U32, 'Imm')], 1, seq(put(0, op2('Eq', copy(1, deref(U32)), num(U32, 0))), 'Return')),
    function('t::sum_with', [U32, ref(PAIR, 'Imm'), U32, ref(U32, 'Imm'), BOOL], 2, seq(
        put(3, {'AddrOf': at(1, deref(PAIR), field(0))}), call('t::is_zero', [copy(3)], 4),
        when(copy(4), seq(put(0, opd(num(U32, 100))), 'Return')),
        put(0, op2(unsigned('Add'), copy(1, deref(PAIR), field(0)), copy(2))), 'Return')),
    function('t::sum', [U32, ref(PAIR, 'Imm'), U32, U32, BOOL, U32], 2, seq(
        put(0, opd(num(U32, 0))), put(3, opd(num(U32, 0))), block(loop(
            put(4, op2(unsigned('Lt'), copy(3), copy(2))), when(copy(4), 'Skip', leave(1)),
            call('t::sum_with', [copy(1), copy(3)], 5), adds(0, copy(5)), adds(3, num(U32, 1)))), 'Return')),
    function('t::length', [U64], 0, seq(put(0, opd({'NumOf': [64, param(0)]})), 'Return'), 1),
]

CASES = OPERATORS + NUMBERS + PARTS + CONTROL + ORDER + CALLS + LARGER


def refused(word, kinds, body, count=0):
    return (word, kinds, count, body)


# What the printer doesn't know, and the word that its refusal has.
REFUSED = [
    refused('statement Fork', [UNIT], [{'Fork': 1}]), refused('callee VtMethod', [UNIT, UNIT], [{'Call': [{'VtMethod': 0}, [], at(1)]}]),
    refused('operand Float', [U64], seq(put(0, opd({'Float': 1})), 'Return')), refused('right side Load', [U64], seq(put(0,
     {'Load': 1}), 'Return')),
    refused('operator FloatAdd', [U64], seq(put(0, op2('FloatAdd', num(U64, 1), num(U64, 1))), 'Return')),
    refused('operator FloatNeg', [U64], seq(put(0, op1('FloatNeg', num(U64, 1))), 'Return')),
    refused('type Float', [{'Float': 64}], ['Return']), refused('step Index', [U64, PAIR], seq(put(0, opd(copy(1, {'Index': 0}))),
     'Return')),
    refused('operator Div of 128 bits', [U128], seq(put(0, op2(unsigned('Div'), num(U128, 1), num(U128, 1))), 'Return')),
    refused('cast', [U128, U8], seq(put(0, op1(cast('Signed', 'Signed', 128), copy(1))), 'Return'), 1),
    refused('constant Text', [UNIT, ref(U8)], seq({'LendStatic': [at(1), U8, {'Text': 'a'}]}, put(0, opd(copy(1, deref(U8)))), 'Return')),
    refused('vectors of', [U64, {'Vector': [U8, {'Lit': 8}]}], seq(put(0, {'Vec1': [{'Bitmask': 64}, copy(1)]}), 'Return'), 1),
    refused('no function', [U64], seq(call('t::absent', [], 0), 'Return')),
    refused('an offset of', [U32, U64, PTR, PTR], seq(put(3, op2('Offset', copy(2), copy(1))), put(0, opd(copy(3, deref(U32)))),
     'Return'), 2),
    refused('foreign function', [UNIT], seq(call('t::foreign', [], 0), 'Return')),
    refused('behind its end', [UNIT], ['Return', 'Return']),
]
FOREIGN = function('t::foreign', [UNIT], 0, [{'Foreign': {'symbol': 'foreign'}}])
