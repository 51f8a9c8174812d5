"""The cases that every list begins with: document 01's table, one fault at a time in every place, the largest sizes; and the
bad cases, of which a list can hold one, at its end."""
import itertools
import random
import struct
from array import array

from . import floats
from .make import MAKERS, SQUARE, file_case, moves_case, panel, season_case, stiffness_case
from .rules import GIVEN, dead_columns
from .wire import Case, FLOATS, HELD, LONGEST, NEWLINE, OPS, encode, hexes, line, words

LARGEST = 6 + 8 * 64 * 65      # bytes of a file of 64 pads


def doubles(*numbers):
    return array('d', numbers)


def swap_store(*rows):
    return array('Q', list(rows) + [0] * (128 - len(rows)))


def pairs(count):
    return array('Q', [count])


def held(count, dead=0):
    """The two numbers beside factors: the pairs, and the dead columns."""
    return array('Q', [count, dead])


def spare(count):
    return doubles(*[7.5] * count)


# ---- document 01, "Figures to meet": what the line says, the case, the line it must give (or its first part)

def factoring(m, n, *numbers):
    return Case(1, m, n, 0, [doubles(*numbers), spare(m * n), swap_store(9)])


def factored(count, rows, *numbers, toss_ups=0, dead=0):
    return line(0, [str(count), hexes(doubles(*numbers)), words(swap_store(*rows)), str(toss_ups), str(dead)])


def overflowed(m, n):
    return line(7, ['0', hexes(doubles(*[0.0] * m * n)), words(swap_store()), '0', '0'])


def size_refused(count):
    return line(1, ['0', hexes(spare(count)), words(swap_store(9)), '0', '0'])


def table():
    packed, one = doubles(2.0, 0.0, 0.0, 1.0), [swap_store(0, 1), held(1)]
    none = [swap_store(), held(0)]
    top = 1.75 * 2.0 ** 1023
    r = random.Random('64 by 64')
    return [
        ('columns (0,2),(1,0)', factoring(2, 2, 0.0, 2.0, 1.0, 0.0), factored(1, [0, 1], 2.0, 0.0, 0.0, 1.0)),
        ('its determinant', Case(5, 2, 2, 0, [packed, *one]), line(0, [hexes(doubles(-2.0))])),
        ('that, readings (5,8)', Case(3, 2, 2, 1, [packed, *one, doubles(5.0, 8.0), spare(2)]), line(0, [hexes(doubles(4.0, 5.0))])),
        ('2 by 1: (0,2)', factoring(2, 1, 0.0, 2.0), factored(1, [0, 1], 2.0, 0.0)),
        ('then add (1,0)', Case(2, 2, 1, 0, [doubles(2.0, 0.0) + spare(2), doubles(1.0, 0.0), *one], doubles(0.0, 2.0, 1.0, 0.0)),
         factored(1, [0, 1], 2.0, 0.0, 0.0, 1.0)),
        ('1 by 1: 2^-1024', factoring(1, 1, 2.0 ** -1024), factored(0, [], 2.0 ** -1024)),
        ('2 by 1: (2^-1024, 0)', factoring(2, 1, 2.0 ** -1024, 0.0), overflowed(2, 1)),
        ('2 by 1: (2^-1023, 0)', factoring(2, 1, 2.0 ** -1023, 0.0), factored(0, [], 2.0 ** -1023, 0.0)),
        ('2 by 1: (2, -2)', factoring(2, 1, 2.0, -2.0), factored(0, [], 2.0, -1.0, toss_ups=1)),
        ('2 by 1: 1.75*2^1023 twice', factoring(2, 1, top, top), factored(0, [], top, 1.0 + 2.0 ** -51, toss_ups=1)),
        ('columns (0,0),(-1,-0.0), fresh', factoring(2, 2, 0.0, 0.0, -1.0, -0.0), factored(0, [], 0.0, 0.0, -1.0, -0.0, dead=2)),
        ('columns (0,0),(-1,-0.0), added',
         Case(2, 2, 1, 0, [doubles(0.0, 0.0) + spare(2), doubles(-1.0, -0.0), swap_store(), held(0, 1)], doubles(0.0, 0.0, -1.0, -0.0)),
         factored(0, [], 0.0, 0.0, -1.0, -0.0, dead=2)),
        ('2 by 2 zeros', factoring(2, 2, 0.0, 0.0, 0.0, 0.0), factored(0, [], 0.0, 0.0, 0.0, 0.0, dead=2)),
        ('2 by 2 zeros, solve', Case(3, 2, 2, 1, [doubles(0.0, 0.0, 0.0, 0.0), swap_store(), held(0, 2), doubles(1.0, 1.0), spare(2)]),
         line(6, [hexes(spare(2))])),
        ('diagonal 2^-600 twice, determinant', Case(5, 2, 2, 0, [doubles(2.0 ** -600, 0.0, 0.0, 2.0 ** -600), *none]),
         line(0, [hexes(doubles(0.0))])),
        ('diagonal 2^-600 twice, invertible', Case(6, 2, 2, 0, [doubles(2.0 ** -600, 0.0, 0.0, 2.0 ** -600), *none]), line(0, ['1'])),
        ('the same, scaled', Case(30, 2, 2, 0, [doubles(2.0 ** -600, 0.0, 0.0, 2.0 ** -600), *none]), line(0, ['3ff0000000000000', '-1200'])),
        ('1 by 1 factor 2^-1000, reading 2^100',
         Case(3, 1, 1, 1, [doubles(2.0 ** -1000), *none, doubles(2.0 ** 100), spare(1)]), line(7, [hexes(doubles(0.0))])),
        ('transposed lower, rows (2,0),(1,4), b (4,8)', Case(12, 0, 2, 1, [doubles(2.0, 1.0, 0.0, 4.0), doubles(4.0, 8.0), spare(2)]),
         line(0, [hexes(doubles(1.0, 2.0))])),
        ('given diagonal 2, entry below 1, b (4,6)',
         Case(11, 0, 2, 1, [doubles(5.0, 1.0, 5.0, 5.0), doubles(2.0), doubles(4.0, 6.0), spare(2)]),
         line(0, [hexes(doubles(4.0, 4.0))])),
        ('the same, corrected',
         Case(24, 0, 2, 1, [doubles(5.0, 1.0, 5.0, 5.0), doubles(2.0), doubles(4.0, 6.0), spare(2)]),
         line(0, [hexes(doubles(2.0, 2.0))])),
        ('loads 1, -3, 3', Case(19, 0, 3, 0, [doubles(1.0, -3.0, 3.0), array('Q', [9, 9, 9])]), line(0, ['3', '2 3 1'])),
        ('the same, all pads', Case(19, 1, 3, 0, [doubles(1.0, -3.0, 3.0), array('Q', [9, 9, 9])]), line(0, ['3', '2 3 1'])),
        ('0 rows', factoring(0, 1), size_refused(0)),
        ('0 rows, 0 columns', factoring(0, 0), size_refused(0)),
        ('65 rows', factoring(65, 1, *[1.0] * 65), size_refused(65)),
        ('65 columns', factoring(1, 65, *[1.0] * 65), size_refused(65)),
        ('64 by 64', factoring(64, 64, *floats.unit(r, 4096)), '0 | '),
        ('3 by 0', factoring(3, 0), factored(0, [])),
        ('the panel file of the whole case', file_case(panel(2, doubles(0.0, 2.0, 1.0, 0.0, 5.0, 8.0))),
         line(0, [''.join(text + NEWLINE for text in ('pads 2', '2 4014000000000000', '1 4010000000000000'))])),
    ]


# ---- overflow when adding, and just not

def adding(m, matrix, column):
    """Columns that are their own factors without a swap, and one more."""
    n = len(matrix) // m
    return Case(2, m, n, 0, [matrix + spare(m), column, swap_store(), held(0, dead_columns(m, n, matrix))], matrix + column)


def added():
    most = (2.0 - 2.0 ** -52) * 2.0 ** 1023
    yield adding(1, doubles(), doubles(2.0 ** -1024))                           # no row below: the reciprocal is not used
    yield adding(2, doubles(), doubles(2.0 ** -1024, 0.0))
    yield adding(2, doubles(), doubles(2.0 ** -1023, 0.0))
    yield adding(3, doubles(1.0, 0.0, 0.0), doubles(0.0, 2.0 ** -1024, 0.0))
    yield adding(2, doubles(1.0, 0.0), doubles(1.0, 2.0 ** -1024))
    yield adding(2, doubles(1.0, -1.0), doubles(most, most))                    # the update overflows
    yield adding(2, doubles(1.0, -1.0), doubles(most, -most))
    yield adding(1, doubles(1.0), doubles(most))
    yield adding(2, doubles(0.0, 0.0), doubles(-0.0, -0.0))
    yield adding(2, doubles(*[1.0, 0.0] * 63), doubles(3.0, -5.0))
    yield adding(2, doubles(*[1.0, 0.0] * 64), doubles(3.0, -5.0))              # 64 columns: no room
    yield adding(64, doubles(*[0.0] * 4096), doubles(*[1.0] * 64))              # the longest slice of all


# ---- a given diagonal and a quotient that overflows: the last one is not formed in the crate's way, but is in the corrected one

def given():
    matrix, small, large = doubles(1.0, 0.0, 0.0, 1.0), doubles(2.0 ** -1000), 2.0 ** 100
    for op in GIVEN:
        yield Case(op, 0, 1, 1, [doubles(1.0), small, doubles(large), spare(1)])
        yield Case(op, 0, 2, 1, [matrix, small, doubles(1.0, large), spare(2)])
        yield Case(op, 0, 2, 1, [matrix, small, doubles(large, 1.0), spare(2)])


# ---- toss-ups

def searching(start, *numbers):
    return Case(23, start, 0, 0, [doubles(*numbers)])


def tossed():
    tiny = 2.0 ** -1024
    yield factoring(3, 1, 1.0, 3.0, -3.0)                                               # between two rows below
    yield factoring(3, 1, 3.0, 1.0, -1.0)                                               # lesser ones: none
    yield factoring(3, 1, 3.0, -3.0, 3.0)                                               # three rows: one step
    yield factoring(3, 1, 0.0, -0.0, 0.0)                                               # zeros: none
    yield factoring(3, 1, tiny, 0.0, -tiny)                                             # refused: 0
    yield factoring(3, 2, 1.0, 0.0, 0.0, 5.0, 5.0, 1.0)                                 # with a row above: none
    yield factoring(3, 2, 4.0, 2.0, 0.0, 4.0, 3.0, 3.0)                                 # before its step only: none
    yield factoring(3, 2, 4.0, 2.0, 0.0, 2.0, 3.0, -2.0)                                # at its step only
    yield factoring(3, 3, 1.0, 1.0, 1.0, 1.0, 2.0, 0.0, 7.0, 8.0, 9.0)                  # two steps
    yield factoring(3, 3, *[1.0] * 9)                                                   # the first step alone
    yield factoring(2, 4, 1.0, 0.0, 0.0, 1.0, 7.0, 7.0, 3.0, -3.0)                      # past the last row: none
    yield factoring(64, 1, *[-1.0] * 64)
    for n in (4, 64):                                                                   # every step but the last
        yield factoring(n, n, *[(-1.0) ** bin(i & j).count('1') for i in range(n) for j in range(n)])
    for column in ((2.0, -2.0), (0.0, -0.0), (tiny, tiny), (tiny, 1.0)):
        yield adding(2, doubles(), doubles(*column))
    for column in ((5.0, 1.0, -1.0), (1.0, 1.0, 0.5), (3.0, 0.0, 3.0), (9.0, 0.0, -0.0)):
        yield adding(3, doubles(1.0, 0.0, 0.0), doubles(*column))
        yield Case(2, 3, 1, 0, [doubles(1.0, 0.5, 0.0) + spare(3), doubles(*column), swap_store(0, 1), held(1)])
    yield adding(2, doubles(1.0, 0.0), doubles(3.0, 3.0))                               # its own row alone is left
    yield adding(2, doubles(1.0, 0.0, 0.0, 1.0), doubles(5.0, 5.0))
    infinite, nan = floats.NOT_FINITE[0], floats.NOT_FINITE[2]
    for numbers in ((), (1.0,), (0.0, -0.0), (2.0, -2.0), (-2.0, 1.0, 2.0), (1.0, -3.0, 3.0, 3.0), (3.0, 2.0, 2.0), (0.0, 1.0, -1.0),
                    (nan,), (nan, nan), (nan, 1.0, 1.0), (1.0, nan, -1.0), (1.0, nan, 2.0), (0.0, nan), (-0.0, nan, 0.0),
                    (infinite, -infinite), (1.0, -infinite, infinite), (infinite, nan), (tiny, -tiny), (5e-324, -5e-324, 0.0)):
        for start in range(len(numbers) + 2):
            yield searching(start, *numbers)
    for start in (0, 1, LONGEST - 1):
        yield searching(start, -2.0, *[1.0] * (LONGEST - 2), 2.0)


# ---- removing: which pair goes, which list is too long, and what stays

def removing(m, n, list_, *numbers):
    """Any factors with that list; if no numbers are given, those of the places."""
    return removing_factored(m, n, doubles(*(numbers or [float(x + 1) for x in range(m * n)])), list_, None)


def removing_factored(m, n, factors, list_, whole):
    return Case(22, m, n, 0, [factors, swap_store(*list_), held(len(list_) // 2, dead_columns(m, n, factors))], whole)


def removed():
    step_swaps, none_swaps = doubles(2.0, 0.0, 0.0, 1.0), doubles(4.0, 0.5, 2.0, 7.0)
    yield removing_factored(2, 2, step_swaps, [0, 1], doubles(0.0, 2.0, 1.0, 0.0))      # the table's: its swap is the first column's
    yield removing_factored(2, 1, doubles(2.0, 0.0), [0, 1], doubles(0.0, 2.0))         # no column remains, and no pair
    yield removing_factored(2, 2, none_swaps, [], doubles(4.0, 2.0, 2.0, 8.0))
    yield removing_factored(3, 2, doubles(4.0, 0.25, 0.5, 2.0, 8.0, 0.5), [1, 2], doubles(4.0, 2.0, 1.0, 2.0, 5.0, 8.5))
    yield removing_factored(2, 1, doubles(0.0, -0.0), [], doubles(0.0, -0.0))           # a zero column
    yield removing_factored(1, 2, doubles(3.0, 5.0), [], doubles(3.0, 5.0))             # m < n
    yield removing(1, 1, [], -0.0)
    yield removing(2, 1, [0, 1])
    yield removing(2, 1, [1, 0])                                                        # a pair would remain with no column
    yield removing(2, 2, [0, 1], -0.0, 0.0, -0.0, -0.0)
    yield removing(2, 2, [1, 0])                                                        # second below first
    yield removing(2, 2, [0, 1, 1, 0])
    yield removing(2, 2, [0, 1, 0, 1])                                                  # two pairs would remain
    yield removing(2, 3, [0, 1, 1, 0])                                                  # m < n: any list stays
    yield removing(3, 4, [1, 2, 2, 0, 0, 1])
    yield removing(4, 4, [0, 1, 1, 2, 2, 3])
    yield removing(4, 4, [0, 1, 1, 2, 3, 2])
    yield removing(4, 3, [2, 3])
    yield removing(4, 3, [3, 2])                                                        # it ends with the column's number
    yield removing(4, 3, [2, 3, 0, 1])                                                  # not the last pair
    yield removing(4, 3, [2, 3, 2, 3])
    yield removing(4, 3, [0, 1, 1, 2, 2, 3])
    yield removing(4, 3, [0, 1, 1, 2, 1, 3])                                            # three would remain
    yield removing(4, 3, [0, 1, 2, 1, 2, 3])
    yield removing(4, 3, [0, 1, 2, 1])
    yield removing(5, 3, [2, 4])
    beyond = removing(4, 3, [0, 1, 1, 2])
    yield changed(beyond, 1, swap_store(0, 1, 1, 2, 2, 3, 9))                           # behind the last pair: not read, stays
    yield changed(removing(4, 3, []), 1, swap_store(2, 3))
    yield changed(removing(4, 3, [0, 1, 2, 3]), 1, swap_store(0, 1, 2, 3, 2, 3, 9))
    each = [x for i in range(63) for x in (i, 63)]
    yield removing(64, 63, each)                                                        # 63 pairs, the last undone
    yield removing(64, 64, each)                                                        # 63 pairs, all stay
    yield removing(64, 64, each + [63, 0])
    yield removing(64, 64, each + [0, 63])
    yield removing(2, 64, [0, 1, 1, 0])
    yield removing(1, 64, [])
    yield removing(64, 1, [0, 63])


# ---- the transposed solve: which reading moves which pad

def transposing(n, k, factors, list_, b):
    return Case(25, n, n, k, [factors, swap_store(*list_), held(len(list_) // 2), b, spare(n * k)])


def transposed():
    packed = doubles(2.0, 0.0, 0.0, 1.0)
    one, identity = doubles(1.0, 0.0, 0.0, 1.0), doubles(1.0, 0.0, 0.0, 0.0, 1.0, 0.0, 0.0, 0.0, 1.0)
    most = 1.75 * 2.0 ** 1023
    yield transposing(2, 2, packed, [0, 1], one)                                        # the table's first matrix, both unit columns
    yield transposing(3, 1, identity, [0, 1, 1, 2], doubles(1.0, 2.0, 3.0))             # the list in reverse: not as in order
    yield transposing(3, 2, identity, [0, 2, 1, 2, 0, 1], doubles(1.0, 2.0, 3.0, -4.0, 5.0, -6.0))
    yield transposing(2, 1, doubles(4.0, 0.5, 8.0, 16.0), [], doubles(4.0, 8.0))        # ones for the diagonal in the second pass
    yield transposing(2, 1, doubles(1.0, 3.0, 1.0, 1.0), [0, 1], doubles(-0.0, -0.0))
    yield transposing(1, 1, doubles(2.0 ** -1000), [], doubles(2.0 ** 100))             # overflow in the first pass
    yield transposing(2, 1, doubles(1.0, most, 0.0, 1.0), [0, 1], doubles(0.0, 2.0))    # in the second
    yield transposing(2, 1, doubles(1.0, most, 0.0, 1.0), [0, 1], doubles(2.0, 0.0))    # just not
    yield transposing(2, 2, doubles(1.0, most, 0.0, 1.0), [0, 1], doubles(0.0, 1.0, 0.0, 2.0))           # in one column of two
    yield transposing(2, 1, doubles(1.0, 0.0, most, 1.0), [], doubles(2.0, 0.0))        # an infinity, then a zero times it
    for n in (9, 10, 12, 16, 17, 18, 25, 33):                                           # the order of the sums
        r = random.Random(f'sums of {n}')
        yield transposing(n, 2, floats.without_zero_diagonal(r, n, floats.unit(r, n * n)), [0, 1, n - 1, 0], floats.unit(r, 2 * n))


# ---- dead columns: numbers that are wrong, and factors that keep theirs through adding and removing

SOLVES = (3, 25, 28)


def holding(op, m, n, dead, *numbers, list_=()):
    """A call on any m by n factors with that list and that number of dead columns; what it takes besides is good."""
    factors, told, column = doubles(*numbers), [swap_store(*list_), held(len(list_) // 2, dead)], doubles(*[float(x + 1) for x in range(m)])
    if op == 2:
        return Case(2, m, n, 0, [factors + spare(m), column, *told])
    lent = {4: m * n, 7: m * min(m, n), 8: n * min(m, n), **{solve: m for solve in SOLVES}}
    return Case(op, m, n, 1, [factors, *told, *([column] if op in SOLVES else []), *([spare(lent[op])] if op in lent else [])])


# two diagonal numbers, with numbers of dead columns to tell, right and wrong
TOLD = (((2.0, 3.0), (0, 1, 2 ** 32, 2 ** 64 - 1)), ((-0.0, 3.0), (0, 1, 2)), ((2.0, 0.0), (0, 1, 2 ** 32 + 1)), ((0.0, -0.0), (0, 1, 2, 3)))


def dead():
    """Each call with right and wrong numbers for none, one and two dead columns, of either sign; columns past the last row and rows past
    the last column, which have no diagonal; and 9 behind each of 1 to 5, before 6 and before 7."""
    infinite = floats.NOT_FINITE[0]
    for op in HELD:
        for (first, last), told in TOLD:
            for number in told:
                yield holding(op, 2, 2, number, first, 0.5, 0.0, last)                  # a zero over 0.5: no factoring gives it
        for number in (0, 1):
            bad = holding(op, 2, 2, number, -0.0, 1.0, 0.0, 3.0)
            yield changed(bad, 0, with_item(bad.slices[0], 1, infinite))                # 5 before 9
            yield changed(bad, bad.at('swaps'), swap_store()[:-1])                      # 3 before 9
            yield changed(bad, bad.at('pairs'), held(3, number))                        # 4 before 9
            yield Case(op, 2, 65, bad.k, bad.slices)                                    # 1 before 9
            if op == 2 or op in SOLVES:
                at = 1 if op == 2 else 3
                yield changed(bad, at, with_item(bad.slices[at], 1, infinite))          # 5, of the column or the right-hand side
        if op == 4 or op in SOLVES:                                                     # 9 before 7
            yield holding(op, 1, 1, 1, 2.0 ** -1074)
            yield holding(op, 1, 1, 0, 2.0 ** -1074)
    for op in (2, 7, 8, 22):
        for number in (0, 1, 2, 3):
            yield holding(op, 1, 3, number, 2.0, 0.0, -0.0)                             # past the last row: no diagonal
            yield holding(op, 2, 4, number, 2.0, 0.5, 0.0, 0.0, 0.0, 0.0, 0.0, 0.0)
            yield holding(op, 3, 1, number, 2.0, 0.0, 0.0)                              # below the last column: none
            yield holding(op, 3, 2, number, 0.0, 4.0, 5.0, 0.0, -0.0, 6.0)
    for op in (4, 5, 6, *SOLVES):
        for number in (0, 1):
            yield holding(op, 2, 1, number, 0.0, 1.0)                                   # 2 before 9
    yield holding(2, 2, 0, 0)
    yield holding(2, 2, 0, 1)                                                           # with no columns it is 0
    for n in (0, 1):
        yield holding(7, 2, n, 1 - n, *[0.0] * 2 * n)
        yield holding(8, 2, n, n, *[0.0] * 2 * n)


def kept():
    """Dead columns that factoring, adding and removing meet, of factors that factoring gives and of others; and past the last row."""
    for m, n, numbers in ((3, 3, [0.0, -0.0, 0.0] * 3), (3, 3, [1.0, 0.0, 0.0, 2.0, 0.0, -0.0, 3.0, 0.0, 4.0]), (2, 2, [1.0, 2.0, 2.0, 4.0]),
                          (2, 4, [0.0] * 8), (4, 2, [-0.0] * 8), (2, 3, [0.0, 1.0, 0.0, 2.0, 0.0, 0.0]), (1, 1, [-0.0])):
        yield factoring(m, n, *numbers)
        yield Case(35, m, n, 0, factoring(m, n, *numbers).slices)
    yield adding(2, doubles(), doubles(0.0, -0.0))
    yield adding(2, doubles(), doubles(-0.0, 0.0))
    yield adding(3, doubles(1.0, 0.0, 0.0), doubles(5.0, 0.0, -0.0))                    # dead behind a column that lives
    yield adding(3, doubles(0.0, 0.0, 0.0), doubles(5.0, 0.0, 0.0))                     # behind a dead one
    yield adding(3, doubles(0.0, -0.0, 0.0), doubles(5.0, 0.0, 2.0))                    # a living one, and a swap
    yield adding(2, doubles(1.0, -1.0), doubles(3.0, -3.0))                             # dead after its update alone
    yield adding(2, doubles(1.0, -1.0), doubles(3.0, 0.0))                              # not dead after it
    yield adding(1, doubles(0.0), doubles(0.0))                                         # past the last row
    yield adding(1, doubles(1.0), doubles(-0.0))
    yield adding(2, doubles(0.0, 0.0, 0.0, 0.0), doubles(0.0, 0.0))
    yield adding(2, doubles(1.0, 0.0, 0.0, 1.0), doubles(0.0, 0.0))
    yield adding(2, doubles(0.0, 0.0), doubles(2.0 ** -1074, 0.0))                      # living, with no row below
    yield adding(3, doubles(0.0, 0.0, 0.0), doubles(0.0, 2.0 ** -1074, 0.0))            # 7: the number as it was
    yield adding(64, doubles(*[0.0] * 64 * 63), doubles(*[0.0] * 64))
    yield holding(2, 3, 2, 1, 0.0, 4.0, 5.0, 7.0, 1.0, 6.0, list_=(0, 2))               # no factoring gives it: 4 below a zero
    yield holding(2, 3, 2, 2, -0.0, 4.0, 5.0, 7.0, 0.0, 6.0, list_=(0, 2))
    for column in ((7.0, 0.0, -0.0), (-0.0, -0.0, -0.0), (0.0, 0.0, 1.0)):              # two dead ones behind such a column, and a living one
        yield Case(2, 3, 1, 0, [doubles(-0.0, 4.0, 5.0) + spare(3), doubles(*column), swap_store(1, 2), held(1, 1)])
    for last in ((5.0, 0.0, -0.0), (5.0, -0.0, 0.0), (5.0, 1.0, 0.0)):
        yield removing_factored(3, 2, doubles(1.0, 0.0, 0.0, *last), [], doubles(1.0, 0.0, 0.0, *last))
        yield removing_factored(3, 2, doubles(0.0, 0.0, -0.0, *last), [], doubles(0.0, 0.0, -0.0, *last))
    yield removing_factored(2, 1, doubles(-0.0, 0.0), [], doubles(-0.0, 0.0))
    yield removing_factored(1, 2, doubles(0.0, 0.0), [], doubles(0.0, 0.0))             # past the last row
    yield removing_factored(1, 2, doubles(1.0, -0.0), [], doubles(1.0, -0.0))
    yield removing_factored(2, 3, doubles(*[0.0] * 6), [], doubles(*[0.0] * 6))
    yield removing(3, 2, [1, 2], 0.0, 4.0, 5.0, 7.0, -0.0, 6.0)                         # no factoring gives it: a dead column with a swap
    yield removing(3, 2, [1, 2], 0.0, 0.0, 5.0, 7.0, 0.0, 6.0)
    yield removing(3, 3, [], 1.0, 2.0, 3.0, 4.0, 0.0, 6.0, 7.0, 8.0, 0.0)
    yield removing(2, 3, [], 0.0, 2.0, 3.0, 0.0, 0.0, 0.0)


# ---- why: places of overflow in factoring and in both passes, and dead columns

TOP = (2.0 - 2.0 ** -52) * 2.0 ** 1023          # the largest number
TINY = 2.0 ** -1024                             # its reciprocal overflows


def by_rows(*rows):
    """A matrix given row by row."""
    return doubles(*[row[j] for j in range(len(rows[0])) for row in rows])


def why_factoring(*rows):
    return Case(27, len(rows), len(rows[0]), 0, [by_rows(*rows), spare(len(rows) * len(rows[0])), swap_store(9)])


def why_solving(n, factors, list_, *sides):
    told = held(len(list_) // 2, dead_columns(n, n, factors))
    return Case(28, n, n, len(sides), [factors, swap_store(*list_), told, doubles(*[x for side in sides for x in side]), spare(n * len(sides))])


def why_file(matrix, *readings):
    return file_case(panel(len(readings), matrix + doubles(*readings)), 29)


def explained_factorings():
    yield why_factoring([TINY])                                                         # no row below: no reason
    yield why_factoring([TINY], [0.0])                                                  # the table's: its multiplier is a NaN
    yield why_factoring([2.0 ** -1023], [0.0])
    yield why_factoring([0.0], [TINY])                                                  # behind an exchange
    yield why_factoring([0.0], [0.0], [TINY], [TINY / 2])
    yield why_factoring([TINY, 1.0], [0.0, 1.0])                                        # the multipliers before the other columns
    yield why_factoring([TINY, 0.0, 0.0], [-TINY, 0.0, 0.0])
    yield why_factoring([1.0, TOP], [-1.0, TOP])                                        # an update
    yield why_factoring([1.0, TOP], [1.0, TOP])                                         # just not
    yield why_factoring([1.0, 0.0, TOP], [-1.0, 0.0, TOP])                              # in a later column
    yield why_factoring([1.0, 0.0, TOP], [0.0, 0.0, TOP], [-1.0, 0.0, TOP])             # in a later row
    yield why_factoring([1.0, TOP, TOP], [-1.0, 0.0, TOP], [-1.0, TOP, 0.0])            # column 1 in row 2, column 2 in row 1
    yield why_factoring([1.0, TOP, TOP], [-1.0, TOP, 0.0], [-1.0, 0.0, TOP])            # and the other way round
    yield why_factoring([1.0, 0.0], [2.0, TOP], [-2.0, TOP])                            # rows 0 and 1 exchanged; the place is row 2
    yield why_factoring([-1.0, TOP], [1.0, 0.0], [2.0, TOP], [-2.0, -TOP])              # what stood in row 0 overflows in row 2; toss-up
    yield why_factoring([-2.0, TOP], [4.0, TOP], [4.0, 0.0])                            # in row 1
    yield why_factoring([-1.0, TOP], [0.0, 0.0], [1.0, TOP])                            # equal magnitudes: no exchange
    yield why_factoring([1.0, 0.0, 0.0], [0.0, TINY, 0.0], [0.0, 0.0, 0.0])             # below the first step
    yield why_factoring([1.0, 0.0, 0.0], [0.0, 0.0, 0.0], [0.0, TINY, 1.0])             # with an exchange there
    yield why_factoring([1.0, 0.0, 0.0], [0.0, 1.0, TOP], [0.0, -1.0, TOP])
    yield why_factoring([0.0, 1.0, 0.0, 5.0], [0.0, 0.0, 2.0, TOP], [2.0, 0.0, 0.0, 1.0], [0.0, 0.0, -2.0, TOP])        # two exchanges, step 2
    yield why_factoring([0.0, 0.0, 0.0], [0.0, 0.0, TINY], [0.0, 0.0, 0.0])             # two steps skipped; the last has no row below
    yield why_factoring([0.0, 0.0, TINY], [0.0, 0.0, 0.0])                              # skipped; past the last row
    yield why_factoring([0.0, TINY], [0.0, 0.0], [0.0, 0.0])                            # one skipped: column 1 from row 1 on is zero
    yield why_factoring([0.0, 3.0], [-0.0, TINY], [0.0, 0.0])                           # one skipped, then the reason
    yield why_factoring([1.0, 2.0, TOP, TOP], [-1.0, -2.0, TOP, -TOP])                  # wide
    yield why_factoring([1.0, 1.0], [1.0, 1.0], [1.0, 1.0], [1.0, 1.0])                 # toss-ups, no reason
    yield why_factoring([TOP, TOP], [-TOP, TOP])                                        # a pivot near the top
    yield why_factoring([1.75 * 2.0 ** 1023, 1.0], [1.75 * 2.0 ** 1023, TOP])
    yield Case(27, 3, 0, 0, [doubles(), doubles(), swap_store(9)])
    for i in (0, 62, 63):                                                               # 64 rows and columns: the last pivot has no row below
        matrix = doubles(*[float(r == c) for c in range(64) for r in range(64)])
        yield Case(27, 64, 64, 0, [with_item(matrix, 65 * i, TINY), spare(4096), swap_store(9)])
    matrix[64 * 62 + 62:64 * 62 + 64] = doubles(1.0, -1.0)                              # the very last result
    matrix[64 * 63 + 62:] = doubles(TOP, TOP)
    yield Case(27, 64, 64, 0, [matrix, spare(4096), swap_store(9)])


def explained_solves():
    one = doubles(1.0, 0.0, 0.0, 1.0)
    yield why_solving(1, doubles(2.0 ** -1000), [], [2.0 ** 100])                       # the table's: a quotient
    yield why_solving(1, doubles(2.0 ** -1000), [], [2.0 ** 10])
    yield why_solving(1, doubles(2.0 ** -1000), [], [1.0], [2.0 ** 100])                # in the second column
    yield why_solving(2, doubles(1.0, -1.0, 0.0, 1.0), [], [TOP, TOP])                  # pass 1
    yield why_solving(2, doubles(1.0, -1.0, 0.0, 1.0), [0, 1], [TOP, TOP])
    yield why_solving(2, doubles(1.0, 2.0, 0.0, 1.0), [0, 1], [1.0, TOP])               # it overflows with the list, and not without
    yield why_solving(2, doubles(1.0, 2.0, 0.0, 1.0), [], [1.0, TOP])
    yield why_solving(2, doubles(1.0, 0.0, 2.0, 1.0), [], [0.0, TOP])                   # pass 2, an update of row 0
    yield why_solving(2, doubles(1.0, 0.0, 2.0, 1.0), [0, 1], [TOP, 0.0])
    yield why_solving(2, doubles(1.0, 0.0, 5.0, 0.5), [], [0.0, TOP])                   # a quotient: row 1 before row 0
    yield why_solving(2, doubles(1.0, 0.0, 0.0, 0.5), [], [0.0, TOP])                   # row 0 is a NaN then
    yield why_solving(2, doubles(0.5, 0.0, 0.0, 1.0), [], [TOP, 0.0])
    yield why_solving(3, by_rows([1.0, 2.0, 2.0], [0.0, 1.0, 2.0], [0.0, 0.0, 1.0]), [], [0.0, 0.0, TOP])               # two rows above: row 0
    yield why_solving(3, by_rows([1.0, 2.0, 0.0], [0.0, 1.0, 2.0], [0.0, 0.0, 1.0]), [], [0.0, 0.0, TOP])               # row 1
    yield why_solving(3, by_rows([1.0, 2.0, 0.0], [0.0, 1.0, 0.0], [0.0, 0.0, 1.0]), [], [0.0, TOP, 0.0])               # on row 1's turn
    yield why_solving(3, by_rows([1.0, 0.0, 0.0], [0.0, 1.0, 0.0], [-1.0, 0.0, 1.0]), [], [TOP, 0.0, TOP])              # pass 1, row 2
    later = by_rows([1.0, 0.0, 0.0], [0.0, 1.0, 0.0], [0.0, -1.0, 1.0])
    yield why_solving(3, later, [], [0.0, TOP, TOP])                                    # on row 1's turn
    yield why_solving(3, later, [0, 2, 1, 2], [TOP, TOP, 0.0])                          # with the list in its order alone
    yield why_solving(3, later, [0, 1, 1, 2], [TOP, 0.0, TOP])
    yield why_solving(3, later, [0, 2, 1, 2], [0.0, TOP, TOP])                          # without a list alone
    turns = by_rows([1.0, 0.0, 0.0, 0.0], [0.0, 1.0, 0.0, 0.0], [0.0, -1.0, 1.0, 0.0], [-1.0, 0.0, 0.0, 1.0])
    yield why_solving(4, turns, [], [TOP] * 4)                                          # row 3 on row 0's turn, before row 2 on row 1's
    both = doubles(1.0, -1.0, 0.0, 0.5)
    yield why_solving(2, both, [], [0.0, TOP], [TOP, TOP])                              # column 0 in pass 2, column 1 in pass 1: pass 1
    yield why_solving(2, both, [], [0.0, 1.0], [0.0, TOP], [TOP, TOP])
    yield why_solving(2, both, [], [1.0, 1.0], [0.0, TOP], [0.0, -TOP])                 # two columns in pass 2: the first
    yield why_solving(2, both, [], [1.0, 1.0], [TOP, TOP], [0.0, 0.0], [TOP, TOP])
    yield why_solving(2, both, [], [1.0, 1.0], [2.0, 2.0])
    yield why_solving(2, one, [], [TOP, -TOP])
    for zeros in ((0,), (1,), (2,), (1, 2), (0, 2), (0, 1, 2)):                         # dead columns, of either sign
        for zero in (0.0, -0.0):
            factors = by_rows([4.0, 1.0, 2.0], [0.5, 3.0, 1.0], [-1.0, 0.25, 2.0])
            for i in zeros:
                factors[4 * i] = zero
            yield why_solving(3, factors, [0, 1], [1.0, 2.0, 3.0])
    yield why_solving(2, doubles(0.0, -1.0, 0.0, 0.0), [], [TOP, TOP])                  # 6 before 7
    whole = doubles(*[float(r == c) for c in range(64) for r in range(64)])
    for i in (0, 63):
        yield why_solving(64, with_item(whole, 65 * i, -0.0), [], [1.0] * 64)
        yield why_solving(64, with_item(whole, 65 * i, 2.0 ** -1000), [], [2.0 ** 100] * 64)
    yield why_solving(64, with_item(whole, 63, -1.0), [], *[[1.0] * 64] * 63, [TOP] * 64)                               # the last result of pass 1
    yield why_solving(64, with_item(whole, 0, 0.5), [], *[[1.0] * 64] * 63, [TOP] + [1.0] * 63)                         # and of pass 2


def explained_files():
    yield why_file(doubles(TINY), 1.0)                                                  # no row below; then a quotient
    yield why_file(doubles(TINY), 0.0)
    yield why_file(by_rows([TINY, 1.0], [0.0, 1.0]), 1.0, 1.0)
    yield why_file(by_rows([1.0, TOP], [-1.0, TOP]), 1.0, 1.0)
    yield why_file(by_rows([0.0, 1.0, 0.0], [2.0, 0.0, 0.0], [0.0, 0.0, 0.0]), 1.0, 1.0, 1.0)                           # singular in column 3
    yield why_file(by_rows([2.0, 4.0, 1.0], [1.0, 2.0, 0.0], [0.0, 0.0, 1.0]), 1.0, 1.0, 1.0)                           # in column 2
    yield why_file(doubles(0.0, 0.0, 1.0, 0.0), 1.0, 1.0)                               # in both: the lower one
    yield why_file(doubles(-0.0), 1.0)
    yield why_file(by_rows([1.0, 0.0], [-1.0, 1.0]), TOP, TOP)                          # the lower pass
    yield why_file(by_rows([-1.0, 1.0], [1.0, 0.0]), TOP, TOP)
    yield why_file(by_rows([1.0, 2.0], [0.0, 1.0]), 0.0, TOP)                           # the upper pass, an update
    yield why_file(by_rows([0.0, 0.5], [1.0, 1.0]), TOP, 0.0)                           # and a quotient, behind an exchange
    yield why_file(by_rows([1.0, 0.0, 0.0], [0.0, 0.0, 1.0], [0.0, TINY, 0.0]), 1.0, 1.0, 1.0)                          # factoring, step 2
    for n in (11, 64):                                                                  # one digit, and two
        whole = doubles(*[float(r == c) for c in range(n) for r in range(n)])
        for i in {11: (8, 10), 64: (62,)}[n]:
            yield why_file(with_item(whole, (n + 1) * i, TINY), *[1.0] * n)
            yield why_file(with_item(whole, (n + 1) * i, 0.0), *[1.0] * n)
            yield why_file(with_item(whole, n * i - n + i, -1.0), *[TOP] * n)
            yield why_file(with_item(whole, (n + 1) * i - 1, 2.0), *[0.0] * i, TOP, *[0.0] * (n - 1 - i))
        yield why_file(whole, *[1.0] * n)


def explained():
    yield from explained_factorings()
    yield from explained_solves()
    yield from explained_files()


# ---- the scaled determinant

def scaling(list_, *diagonal):
    """Factors with that diagonal and ones beside it."""
    n = len(diagonal)
    return Case(30, n, n, 0, [doubles(*[diagonal[i] if i == j else 1.0 for j in range(n) for i in range(n)]), swap_store(*list_),
                              held(len(list_) // 2, sum(x == 0.0 for x in diagonal))])


def scaled():
    least, normal, most = 2.0 ** -1074, 2.0 ** -1022, (2.0 - 2.0 ** -52) * 2.0 ** 1023
    yield scaling([0, 1], 2.0, 1.0)                                                     # -1 and 1
    yield scaling([0, 1, 1, 0], 2.0, 1.0)
    yield scaling([0, 1], -2.0, 1.5)
    for zero in (0.0, -0.0):                                                            # +0.0 and 0, whatever the signs and the other numbers
        yield scaling([0, 1], zero, 3.0)
        yield scaling([], 2.0 ** 500, -5.0, zero)
        yield scaling([], zero)
    for x in (least, 3 * least, 2.0 ** 51 * least, 2.0 ** 52 * least - least, normal, normal - least, normal + least, most, 1.0, 0.1):
        yield scaling([], x)                                                            # one number: its own parts
        yield scaling([0, 1], x, -x)
    for n in (63, 64):                                                                  # both ends of the exponent
        yield scaling([], *[least] * n)
        yield scaling([0, 1], *[most] * n)
        yield scaling([], *[-normal] * n)
    yield scaling([], 1.5, 4.0 / 3.0)                                                   # just below 2, and just at it by rounding
    yield scaling([], 1.0 + 2.0 ** -52, 2.0 - 2.0 ** -51)
    yield scaling([], 1.0 + 2.0 ** -52, 2.0 - 2.0 ** -52)
    yield scaling([], 2.0 - 2.0 ** -52, 2.0 - 2.0 ** -52)                               # just below 4
    yield scaling([], 1.0 + 2.0 ** -27, 1.0 + 2.0 ** -26 + 2.0 ** -40)                  # just above a tie: not by way of 64 digits
    yield scaling([], 2.0 ** 0.5, 2.0 ** 0.5)
    yield scaling([], 2.0, 2.0, 0.5)
    yield scaling([], 2.0 - 2.0 ** -52, 2.0 ** -1023)                                   # the plain product rounds up to 2^-1022
    yield scaling([], 2.0 ** -600, 2.0 ** -600, 2.0 ** 600, 2.0 ** 600)                 # the plain product underflows on the way
    yield scaling([], 2.0 ** 600, 2.0 ** 600, 2.0 ** -600)                              # and overflows
    yield scaling([], 1.0 + 2.0 ** -52, 1.0 + 2.0 ** -52, 1.0 + 2.0 ** -52, 1.0 + 2.0 ** -51)


def stiff():
    """Each of those files but the longest; a singular one, one refused by the solve, and soft ones among them."""
    for file in files():
        if len(file) < LARGEST or file[:6] == b'LXP\1\0\x40' and len(file) == LARGEST:
            yield stiffness_case(file)
    yield stiffness_case(panel(1, doubles(2.0 ** -1074, 0.0)))
    yield stiffness_case(panel(2, doubles(2.0 ** -600, 0.0, 0.0, -(2.0 ** -600), 5.0, 8.0)))
    yield stiffness_case(panel(2, doubles(0.0, 2.0 ** 900, 2.0 ** 900, 0.0, 5.0, 8.0)))


# ---- one fault at a time

SIZES = (0, 65, 2 ** 63, 2 ** 64 - 1)
COUNTS = (0, 3, 4, 64, 65, 2 ** 63, 2 ** 64 - 1)
ROWS = (1, 3, 4, 64, 2 ** 64 - 1)
TWOS = ((3, 3), (63, 0), (0, 64), (64, 0), (100, 100), (2 ** 63, 1), (1, 2 ** 64 - 1))


def changed(case, at, items):
    k = len(items) if isinstance(items, bytes) else case.k
    return Case(case.op, case.m, case.n, k, case.slices[:at] + [items] + case.slices[at + 1:])


def with_item(items, at, value):
    items = items[:]
    items[at] = value
    return items


def faults_of(case):
    """The case with each size, each length, each number and each part of the swap list wrong, one at a time."""
    op = OPS[case.op]
    for name in op.free:
        for size in SIZES:
            bad = changed(case, 0, case.slices[0])
            setattr(bad, name, size)
            yield bad
    for at, (name, kind) in enumerate(op.slices):
        items = case.slices[at]
        if name not in ('pairs', 'diagonal', 'two numbers') and case.op != 32:
            yield changed(case, at, items[:-1])
            yield changed(case, at, items + items[:1])
        if kind == FLOATS:
            yield changed(case, at, with_item(items, 0, floats.NOT_FINITE[2]))
            yield changed(case, at, with_item(items, len(items) - 1, floats.NOT_FINITE[1]))
            if at < 2:
                yield changed(case, at, with_item(items, 0, 0.0))
                yield changed(case, at, with_item(items, len(items) - 1, -0.0))
        if name == 'pairs':
            full = changed(case, at - 1, array('Q', [0, 1] * 64))
            for count in COUNTS:
                yield changed(case, at, with_item(items, 0, count))
                yield changed(full, at, with_item(items, 0, count))         # good pairs, at most too many
        if name == 'swaps' and case.op not in (1, 27, 35):
            for row in ROWS:
                yield changed(case, at, with_item(items, 0, row))
            yield changed(case, at, with_item(items, 3, 1))
            yield changed(case, at, with_item(items, 4, 2 ** 64 - 1))       # behind the last pair: not read
        if name == 'two numbers':
            for two in TWOS:
                yield changed(case, at, array('Q', two))


def good(op):
    """A small case that is accepted: 4 by 3 where the call takes that, else 3 by 3 with 2 right-hand columns."""
    matrix = doubles(4.0, 1.0, -2.0, 0.5, 6.0, 1.0, 3.0, 8.0, 1.0)
    list_, told = [swap_store(0, 1, 1, 2), pairs(2)], [swap_store(0, 1, 1, 2), held(2)]
    b, x = doubles(1.0, 2.0, 3.0, -4.0, 5.0, -6.0), spare(6)
    tall, wide = matrix + doubles(2.0, -1.0, 0.25), spare(12)
    return {
        1: lambda: Case(1, 4, 3, 0, [tall, wide, swap_store(9, 9)]),
        2: lambda: Case(2, 4, 2, 0, [tall, doubles(1.0, -2.0, 3.0, 5.0), *told]),
        3: lambda: Case(3, 3, 3, 2, [matrix, *told, b, x]),
        4: lambda: Case(4, 3, 3, 0, [matrix, *told, spare(9)]),
        5: lambda: Case(5, 3, 3, 0, [matrix, *told]),
        6: lambda: Case(6, 3, 3, 0, [matrix, *told]),
        30: lambda: Case(30, 3, 3, 0, [matrix, *told]),
        7: lambda: Case(7, 4, 3, 0, [tall, *told, wide]),
        8: lambda: Case(8, 4, 3, 0, [tall, *told, spare(9)]),
        11: lambda: Case(11, 0, 3, 2, [matrix, doubles(2.0), b, x]),
        18: lambda: Case(18, 3, 0, 0, [*list_, array('Q', [5, 2])]),
        19: lambda: Case(19, 0, 3, 0, [doubles(2.0, -2.0, 5.0), array('Q', [7, 8, 9])]),
        21: lambda: writing(2, doubles(4.0, -0.0, 2.0 ** -1074, -8.0), doubles(5.0, 0.1), 57),
        22: lambda: Case(22, 4, 3, 0, [tall, swap_store(0, 1, 2, 3), held(2)]),
        23: lambda: searching(1, 3.0, -2.0, 1.0, 2.0, 3.0),
        24: lambda: Case(24, 0, 3, 2, [matrix, doubles(2.0), b, x]),
        25: lambda: Case(25, 3, 3, 2, [matrix, *told, b, x]),
        27: lambda: Case(27, 4, 3, 0, [tall, wide, swap_store(9, 9)]),
        28: lambda: Case(28, 3, 3, 2, [matrix, *told, b, x]),
        32: lambda: four(doubles(*FOUR), doubles(1.0, -2.0, 3.0, -4.0)),
        35: lambda: Case(35, 4, 3, 0, [tall, wide, swap_store(9, 9)]),
    }.get(op, lambda: Case(op, 0, 3, 2, [matrix, b, x]) if op < 14 else Case(op, 4, 3, 0, [*list_, tall]))()


def writing(n, matrix, readings, room):
    """A crossing to write into so many bytes."""
    return Case(21, 0, n, room, [matrix, readings, bytes(range(200, 256)) * (room // 56) + bytes(range(room % 56))])


def written():
    """Slices that are too short, fit and are longer; signed zeros, the ends of the format; faults behind each other."""
    matrix, readings = doubles(0.0, 1.0, -1.0, 0.5), doubles(5.0, 8.0)
    for room in (0, 1, 5, 6, 7, 46, 53, 54, 55, 61, 62, 63, 64, 1000):
        yield writing(2, matrix, readings, room)
    for x in (0.0, -0.0, 2.0 ** -1074, -(2.0 ** -1074), 2.0 ** -1022, (2.0 - 2.0 ** -52) * 2.0 ** 1023, -(2.0 - 2.0 ** -52) * 2.0 ** 1023, 0.1):
        yield writing(1, doubles(x), doubles(1.0), 22)
        yield writing(1, doubles(1.0), doubles(x), 23)
    for x in floats.NOT_FINITE[:3]:
        yield writing(1, doubles(x), doubles(1.0), 22)
        yield writing(1, doubles(1.0), doubles(x), 22)
        yield writing(1, doubles(1.0), doubles(x), 21)                                # 3 before 5
        yield writing(0, doubles(x), doubles(x), 22)                                  # 1 before both
    yield writing(0, doubles(), doubles(), 6)
    yield writing(3, matrix, readings, 200)
    yield writing(2, readings, matrix, 200)
    yield writing(2 ** 32, matrix, readings, 200)
    r = random.Random('63 pads to write')
    yield writing(63, floats.unit(r, 63 * 63), floats.unit(r, 63), 6 + 8 * 63 * 64)
    matrix, readings = floats.unit(r, 64 * 64), floats.unit(r, 64)
    for room in (LARGEST - 1, LARGEST, LARGEST + 1, 8 * LONGEST):                     # one byte too short, as long, longer
        yield writing(64, matrix, readings, room)


def idle():
    """Loads with zeros of either sign among them, with none and with nothing else; the least loads; with and without all pads."""
    least = 2.0 ** -1074
    for all_pads in (0, 1, 2, 2 ** 32, 2 ** 63, 2 ** 64 - 1):
        for loads in ((0.0, 1.0, -0.0), (0.0,), (-0.0,), (least,), (-least, 0.0), (-0.0, 0.0, 0.0, -0.0), (0.0, least, -0.0, -least),
                      (2.0, 0.0, -2.0, -0.0, 2.0)):
            yield Case(19, all_pads, len(loads), 0, [doubles(*loads), array('Q', range(7, 7 + len(loads)))])


def files():
    """Panel files, whole and damaged one way at a time."""
    whole = panel(2, doubles(4.0, 1.0, 2.0, 8.0, 5.0, -8.0))
    yield whole
    for length in (0, 1, 3, 5, 6, 7, 8, 14, len(whole) - 8, len(whole) - 1):
        yield whole[:length]
    yield from (whole + b'\0', whole + b'\n', whole + bytes(8), whole * 2)
    for at in range(6):
        for value in (0, whole[at] ^ 1, whole[at] ^ 32, 255) if at < 5 else (0, 1, 3, 64, 65, 128, 255):
            yield whole[:at] + bytes([value]) + whole[at + 1:]
    for at in range(6, len(whole), 8):
        for value in floats.NOT_FINITE[:3]:
            yield whole[:at] + struct.pack('<d', value) + whole[at + 8:]
    yield panel(2, doubles(1.0, 2.0, 2.0, 4.0, 5.0, 8.0))                             # the solve's 6
    yield panel(2, doubles(1e308, 1.0, -1e308, -1e308, 5.0, 8.0))                     # near the top
    yield panel(2, doubles(2.0 ** -1024, 0.0, 0.0, 0.0, 5.0, 8.0))                    # factoring's 7
    yield panel(3, doubles(0.0, 0.0, 0.0, 0.0, 2.0 ** -1024, 0.0, 0.0, 0.0, 1.0, 5.0, 8.0, 1.0))     # factoring's 7 before the solve's 6
    yield panel(1, doubles(2.0 ** -1000, 2.0 ** 100))                                 # the solve's 7
    yield panel(1, doubles(2.0 ** -1024, 0.0))
    yield panel(3, doubles(1.0, 0.0, 0.0, 0.0, 1.0, 0.0, 0.0, 0.0, 1.0, 0.0, 5.0, -0.0))    # idle pads, each with its line
    r = random.Random('63 pads')
    yield panel(63, floats.unit(r, 63 * 64))
    whole = panel(64, floats.unit(r, 64 * 65))                                        # 33,286 bytes, the longest good file
    yield from (whole, whole[:-6], whole + b'\0', whole + bytes(8), (whole + bytes(64))[:8 * LONGEST])
    longer = bytes(8 * LONGEST - len(whole))
    yield whole[:5] + b'\xff' + whole[6:] + longer                                    # 1 before 3
    yield b'M' + whole[1:] + longer                                                   # 8 before 1 and 3
    yield whole[:6] + struct.pack('<d', floats.NOT_FINITE[0]) + whole[14:] + longer   # 3 before 5
    yield whole[:6] + struct.pack('<d', floats.NOT_FINITE[0]) + whole[14:]            # 5


def moves():
    """Each of those files with its first pad; good files with every pad and with numbers of no pad; two faults at once."""
    for file in files():
        yield moves_case(1, file)
    numbers = (4.0, 1.0, -2.0, 0.5, 6.0, 1.0, 3.0, 8.0, 1.0, 1.0, 2.0, 3.0)
    whole, three = panel(2, doubles(0.0, 2.0, 1.0, 0.0, 5.0, 8.0)), panel(3, doubles(*numbers))
    for pad in (0, 1, 2, 3, 64, 65, 2 ** 32 + 1, 2 ** 63, 2 ** 63 + 1, 2 ** 64 - 1):
        yield moves_case(pad, whole)
        yield moves_case(pad, three)
    singular, overflowing = doubles(1.0, 2.0, 2.0, 4.0, 5.0, 8.0), doubles(2.0 ** -1024, 0.0, 0.0, 0.0, 5.0, 8.0)
    for file in (b'', whole[:5], b'LXQ' + whole[3:], whole[:5] + b'\0' + whole[6:], whole[:5] + b'\x41' + whole[6:], whole[:-1], whole + b'\0',
                 panel(2, doubles(0.0, 2.0, 1.0, 0.0, 5.0, floats.NOT_FINITE[2])), panel(2, singular), panel(2, overflowing)):
        for pad in (0, 3):
            yield moves_case(pad, file)
    yield moves_case(2, panel(2, singular))
    yield moves_case(2, panel(2, overflowing))
    yield moves_case(1, panel(1, doubles(2.0 ** -1074, 0.0)))                          # the solve's 7
    yield moves_case(1, panel(2, doubles(2.0 ** -1074, 0.0, 0.0, 1.0, 5.0, 8.0)))      # factoring's
    yield moves_case(1, panel(2, doubles(1.0, 0.0, 0.0, 2.0 ** -1074, 5.0, 8.0)))      # only the other pad's solve overflows
    yield moves_case(2, panel(2, doubles(1.0, 0.0, 0.0, 2.0 ** -1074, 5.0, 8.0)))
    r = random.Random('pads moved')
    for n in (4, 9, 10, 17):
        file = panel(n, floats.unit(r, n * n + n))
        yield moves_case(1, file)
        yield moves_case(n, file)
        yield moves_case(n + 1, file)


# ---- four pads

FOUR = (4.0, 1.0, -2.0, 0.5, 6.0, 1.0, 3.0, 8.0, 1.0, 2.0, -1.0, 0.25, 1.0, -3.0, 5.0, 7.0)
LEAST, MOST = 2.0 ** -1074, (2.0 - 2.0 ** -52) * 2.0 ** 1023


def four(matrix, readings):
    return Case(32, 0, 0, 0, [matrix, readings])


def by_permutation(*rows):
    """Column j has a number in one row alone, so every list of swaps comes."""
    return doubles(*(float(j + 2) if r == row else 0.0 for j, row in enumerate(rows) for r in range(4)))


def crossings_of_four():
    """Every order of the rows; toss-ups; a dead column in each place; factoring's 7 and the solve's, each step and row of them; two at once."""
    readings = doubles(1.0, -2.0, 3.0, -4.0)
    for rows in itertools.permutations(range(4)):
        yield by_permutation(*rows), readings
    yield doubles(*FOUR), doubles(0.0, -0.0, 0.0, -0.0)
    yield doubles(*[1.0, -1.0, 1.0, -1.0] * 4), readings
    yield doubles(1.0, -1.0, 1.0, -1.0, 2.0, 2.0, -2.0, 2.0, 1.0, 2.0, 2.0, -2.0, 1.0, 1.0, 1.0, 5.0), readings
    yield doubles(*[0.0] * 16), readings
    yield doubles(*[-0.0] * 16), readings
    for dead in range(4):
        for zero in (0.0, -0.0):
            columns = [list(by_permutation(0, 1, 2, 3)[4 * j:4 * j + 4]) for j in range(4)]
            columns[dead] = [zero] * 4
            yield doubles(*(x for c in columns for x in c)), readings
            yield doubles(*(x for c in columns for x in c)), doubles(1.0, -2.0, floats.NOT_FINITE[0], 1.0)        # 5 before 6
    for step in range(4):
        for small in (2.0 ** -1024, 2.0 ** -1023, LEAST):                            # below the last step no reciprocal is used
            diagonal = [1.0] * 4
            diagonal[step] = small
            matrix = doubles(*(diagonal[i] if i == j else 0.0 for i in range(4) for j in range(4)))
            yield matrix, doubles(0.0, 0.0, 0.0, 0.0)
            yield matrix, doubles(1.0, 1.0, 1.0, 1.0)                                 # of the last: the solve's 7
            yield matrix, doubles(floats.NOT_FINITE[1], 1.0, 1.0, 1.0)                # 5 before 7
    yield doubles(1.0, -1.0, 0.0, 0.0, MOST, MOST, 0.0, 0.0, 0.0, 0.0, 1.0, 0.0, 0.0, 0.0, 0.0, 1.0), readings     # an update overflows
    yield doubles(1.0, 1.0, 0.0, 0.0, 0.0, 1.0, 1.0, 0.0, 0.0, 0.0, 1.0, 1.0, 0.0, 0.0, 0.0, 1.0), doubles(-MOST, MOST, 0.0, 0.0)   # lower pass
    yield doubles(1.0, 0.0, 0.0, 0.0, MOST, 1.0, 0.0, 0.0, 0.0, 0.0, 1.0, 0.0, 0.0, 0.0, 0.0, 1.0), doubles(1.0, 2.0, 0.0, 0.0)     # upper pass
    yield doubles(*[MOST] * 16), readings
    yield doubles(*[LEAST] * 16), readings
    for at in range(16):
        for value in floats.NOT_FINITE[:3]:
            yield with_item(doubles(*FOUR), at, value), readings
    for at in range(4):
        for value in floats.NOT_FINITE[:3]:
            yield doubles(*FOUR), with_item(readings, at, value)


def four_files():
    """Each of those as a file; one of them damaged; files of other sizes, and the heads of some alone."""
    for matrix, readings in crossings_of_four():
        yield panel(4, matrix + readings)
    whole = panel(4, doubles(*FOUR, 1.0, -2.0, 3.0, -4.0))
    for length in (0, 1, 5, 6, 7, 134, len(whole) - 8, len(whole) - 1):
        yield whole[:length]
    yield from (whole + b'\0', whole + bytes(8), whole * 2)
    for at in range(5):
        yield whole[:at] + bytes([whole[at] ^ 1]) + whole[at + 1:]
    for pads in (0, 1, 2, 3, 5, 6, 8, 12, 20, 36, 63, 64, 65, 68, 132, 255):
        yield whole[:5] + bytes([pads])                                               # 1 before 3
    for pads in (1, 2, 3, 5, 6, 9, 63, 64):
        r = random.Random(f'{pads} pads, not four')
        yield panel(pads, floats.unit(r, pads * (pads + 1)))
    yield b'M' + panel(3, doubles(*[1.0] * 12))[1:]                                   # 8 before 1
    yield panel(3, doubles(floats.NOT_FINITE[0], *[1.0] * 11))                        # 1 before 5


def one_pad(x):
    """A file of one pad with this number on the diagonal; its load is 1."""
    return panel(1, doubles(x, x))


def seasons():
    """No file, and one of each kind; the ends of every band; the least of several; idle pads; lists about as long as a season."""
    good, idle = one_pad(4.0), panel(3, doubles(1.0, 0.0, 0.0, 0.0, 1.0, 0.0, 0.0, 0.0, 1.0, 0.0, 5.0, -0.0))
    by_diagonal = lambda *numbers: panel(len(numbers), doubles(*(x if i == j else 0.0 for i, x in enumerate(numbers) for j in range(len(numbers))), *numbers))
    yield season_case([])
    yield season_case([good])
    every = [*files()][:60]
    for file in every:
        yield season_case([file])
    for count in (2, 5, len(every)):
        yield season_case(every[:count])
        yield season_case(every[count - 1::-1])
    for e in (1, 2, 511, 512, 1022, 1023, 1024, 1534, 1535, 2046):
        yield season_case([one_pad(2.0 ** (e - 1023)), one_pad(-(2.0 - 2.0 ** -52) * 2.0 ** (e - 1023))])
    yield season_case([one_pad(2.0 ** -1074), one_pad(-(2.0 ** -1023)), one_pad(2.0 ** -1022 - 2.0 ** -1074)])
    yield season_case([by_diagonal(1.0, 2.0 ** 600)])                                 # the least, wherever it stands
    yield season_case([by_diagonal(2.0 ** 600, 1.0)])
    yield season_case([by_diagonal(1.0, -(2.0 ** -600)), by_diagonal(-1.0, 2.0 ** -600), by_diagonal(-(2.0 ** 600), 2.0 ** -600, 1.0)])
    yield season_case([idle, idle, good, panel(2, doubles(1.0, 0.0, 0.0, 1.0, 0.0, -0.0))])
    # refused by the solve: no band
    yield season_case([panel(2, doubles(2.0 ** -700, 0.0, 0.0, 0.0, 1.0, 1.0)), panel(1, doubles(2.0 ** -1000, 2.0 ** 100))])
    yield season_case([panel(2, doubles(2.0 ** -1024, 0.0, 0.0, 0.0, 5.0, 8.0))])
    for count in (3999, 4000, 4001):
        yield season_case([good] + [b''] * (count - 2) + [idle])
    yield season_case([b''] * 3999 + [good, idle])
    yield season_case([b''] * LONGEST)
    yield season_case([good] * (8 * LONGEST // len(good)))
    more = season_case([good, idle])
    yield changed(more, 1, more.slices[1] + good)                                     # bytes that no file has
    r = random.Random('seasons of large files')
    yield season_case([panel(64, floats.unit(r, 64 * 65))])
    yield season_case([panel(30, floats.unit(r, 30 * 31)) for _ in range(4)])
    for pads in (9, 12, 17):
        yield season_case([panel(pads, floats.unit(r, pads * (pads + 1))) for _ in range(30)])


def largest():
    """63 and 64: whole for the square calls, adding, removing and permuting rows, thin for the others; lists of 62, 63 and 64 pairs."""
    for op, make in MAKERS.items():
        r = random.Random(f'largest {op}')
        if op in SQUARE:
            if op not in (20, 21, 26, 29, 31, 32, 33, 34):
                yield make(r, op, 64, 1)
            if op in (3, 12, 25, 28):
                yield make(r, op, 63, 2)
        else:
            if op in (2, 14, 22, 27, 35):   # the table has factoring's
                yield make(r, op, 64, 64)
            for m, n in ((64, 0), (63, 1), (1, 64), (2, 63)):
                yield make(r, op, m, n)
    all_pairs = array('Q', [x for i in range(64) for x in (i, (i + 1) % 64)])
    for count in (62, 63, 64):
        for two in ((1, 2), (5, 5)):
            yield done(Case(18, 64, 0, 0, [all_pairs, pairs(count), array('Q', two)]))


def done(case):
    """A maker that asks nothing."""
    return case
    yield


def fixed():
    """All of them, as generators: makers ask the oracle."""
    for _, case, _ in table():
        yield done(case)
    for case in (*(four(*numbers) for numbers in crossings_of_four()), *added(), *given(), *tossed(), *removed(), *transposed(), *dead(), *kept(),
                 *explained(), *scaled()):
        yield done(case)
    for op in OPS:
        if op in (20, 29):
            for file in files():
                yield done(file_case(file, op))
        elif op == 26:
            for case in moves():
                yield done(case)
        elif op == 31:
            for case in stiff():
                yield done(case)
        elif op == 33:
            for file in four_files():
                yield done(file_case(file, op))
        elif op == 34:
            for case in seasons():
                yield done(case)
        else:
            yield done(good(op))
            for bad in faults_of(good(op)):
                yield done(bad)
    for case in (*idle(), *written()):
        yield done(case)
    yield from largest()


# ---- bad cases

def bad_cases():
    whole = encode(good(3))
    wide = bytearray(encode(good(9)))
    wide[25:27] = struct.pack('<H', LONGEST + 1)
    yield b'\0' + whole[1:]
    yield whole[:1]
    yield whole[:24]
    yield whole[:26]
    yield whole[:40]
    yield whole[:-1]
    yield bytes(wide) + bytes(8 * (LONGEST + 2))
    yield b'\xff' + bytes(8 * LONGEST)
    yield whole[:25] + b'\xff\xff'
    yield whole[:-8]
    for op in HELD:                                                                     # other than two numbers of pairs and dead columns
        for told in (pairs(2), array('Q'), array('Q', [2, 0, 0])):
            yield encode(changed(good(op), good(op).at('pairs'), told))
    for at, items in ((0, doubles(*FOUR[:15])), (0, doubles(*FOUR, 1.0)), (1, doubles(1.0, 2.0, 3.0)), (1, doubles(*[1.0] * 5)), (0, doubles())):
        yield encode(changed(good(32), at, items))                                    # other than sixteen numbers and four
    season = season_case([one_pad(4.0)] * 2)
    for lengths in ((24, 25), (49,), (2 ** 63, 2 ** 63), (44, 2 ** 64 - 1)):          # more bytes than are there
        yield encode(changed(season, 0, array('Q', lengths)))


BAD = list(bad_cases())
BAD_LINE = 'bad case'
