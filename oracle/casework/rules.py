"""The line that each case must give: the refusals of document 01 and of document 02's requests in their order, and the oracle's numbers
for what is accepted.

A call has three parts here. Its tests give pairs (number, does it hold), in the documents' order; the first that holds
is the refusal. `left` gives the parts of the line when a test refuses with that number. `made` is a generator that asks
the oracle (it yields a request and is sent the oracle's line) and returns the refusal number, most often 0 or 7, with the parts."""
import math
import struct
from array import array

from .judge import finite
from .wire import Case, NEWLINE, encode, hexes, line, unhex, words

# ---- what the tests ask

MOST = 64
STORE = 128


def outside(least, size, most=MOST):
    return not least <= size <= most


def bad_list(swaps, pairs, bound, most):
    """Refusal 4: too many pairs, two equal numbers, or a number not below the bound."""
    if pairs > most:
        return True
    used = swaps[:2 * pairs]
    return any(x >= bound for x in used) or any(i == j for i, j in zip(used[::2], used[1::2]))


def not_finite(*slices):
    return not all(all(map(math.isfinite, s)) for s in slices)


def zero_on_diagonal(n, matrix):
    return any(x == 0.0 for x in matrix[::n + 1])


def dead_columns(m, n, factors):
    """Document 02, request 7: how many of the first min(m, n) columns have a zero of either sign on the diagonal."""
    return sum(x == 0.0 for x in factors[:m * n:m + 1][:min(m, n)])


def first(tests):
    for number, holds in tests:
        if holds:
            return number
    return 0


# ---- results of floats, refused with 7 where one is not finite

def zeros(items):
    return hexes(array('d', bytes(8 * len(items))))


def numbers_or_seven(text, items):
    """The oracle's one part of numbers for a slice that has so many items."""
    assert text != 'none', 'the crate refuses what the tests let through'
    return (0, [text]) if finite(text) else (7, [zeros(items)])


# ---- 23: the pivot search and its toss-ups (document 02, request 3); 1 and 2 pass their number on

def greatest(column, start):
    """The first row at or below the start with the greatest magnitude. What cannot be compared is passed over, unless it stands at
    the start, which then stays; a start past the end is the row itself."""
    row = start
    for r in range(start + 1, len(column)):
        if abs(column[r]) > abs(column[row]):
            row = r
    return row


def is_toss_up(column, start, row):
    """1 where the entry of the row found is not zero and some other one at or below the start has its magnitude, else 0."""
    if row >= len(column) or column[row] == 0.0:
        return 0
    return int(sum(abs(x) == abs(column[row]) for x in column[start:]) > 1)


def search_made(c):
    row = greatest(c.slices[0], c.m)
    return 0, [str(row), str(is_toss_up(c.slices[0], c.m, row))]
    yield


# ---- 1 and 2: factoring, adding a column

def request_factoring(m, n, matrix):
    return encode(Case(1, m, n, 0, [matrix, array('d'), array('Q')]))


def factor_tests(c):
    matrix, out0, swaps = c.slices
    yield 1, outside(1, c.m) or outside(0, c.n)
    yield 3, len(matrix) != c.m * c.n or len(out0) != c.m * c.n or len(swaps) != STORE
    yield 5, not_finite(matrix)


def factor_left(c, number):
    return ['0', hexes(c.slices[1]), words(c.slices[2]), '0', '0']


def factor_made(c):
    matrix, _, _ = c.slices
    pairs, factors, swaps = (yield request_factoring(c.m, c.n, matrix)).split(' | ')
    if not finite(factors):
        return 7, ['0', zeros(matrix), words([0] * STORE), '0', '0']
    built, list_, toss_ups = built_up(c.m, c.n, matrix)
    assert (hexes(built), words(list_)) == (factors, swaps), 'building up in Python gives other factors or swaps than the crate'
    store = swaps.split() + ['0'] * (STORE - 2 * int(pairs))
    return 0, [pairs, factors, ' '.join(store), str(toss_ups), str(dead_columns(c.m, c.n, unhex(factors)))]


def built_up(m, n, matrix):
    """Column after column, from none: the factors, their list, and at how many columns the pivot was a toss-up."""
    older, list_, toss_ups = array('d'), [], 0
    for j in range(n):
        older, pair, toss_up = added(m, j, older, matrix[j * m:j * m + m], list_)
        list_ += pair
        toss_ups += toss_up
    return older, list_, toss_ups


def add_tests(c):
    store, column, swaps, (pairs, dead) = c.slices
    yield 1, outside(1, c.m) or outside(0, c.n, MOST - 1)
    yield 3, len(store) != c.m * (c.n + 1) or len(column) != c.m or len(swaps) != STORE
    yield 4, bad_list(swaps, pairs, c.m, min(c.m, c.n))
    yield 5, not_finite(store[:c.m * c.n], column)
    yield 9, dead != dead_columns(c.m, c.n, store)


def add_left(c, number):
    store, _, swaps, (pairs, dead) = c.slices
    return [str(pairs), hexes(store), words(swaps), '0', str(dead)]


def add_made(c):
    """Document 01's steps are run here; where the whole matrix is known, the oracle factors it afresh, and its numbers are taken."""
    store, column, swaps, (old, dead) = c.slices
    made, pair, toss_up = added(c.m, c.n, store[:c.m * c.n], column, swaps[:2 * old])
    text = hexes(made)
    if c.fresh is not None:
        _, text, list_ = (yield request_factoring(c.m, c.n + 1, c.fresh)).split(' | ')
        pair = [int(w) for w in list_.split()[2 * old:]]
    if not finite(text):
        return 7, [str(old), hexes(store[:c.m * c.n] + array('d', bytes(8 * c.m))), words(swaps), '0', str(dead)]
    swaps = swaps[:]
    swaps[2 * old:2 * old + len(pair)] = array('Q', pair)
    return 0, [str(old + len(pair) // 2), text, words(swaps), str(toss_up), str(dead_columns(c.m, c.n + 1, unhex(text)))]


def added(m, n, store, column, list_):
    """Document 01, "Adding a column", on any n columns of factors with any list: the columns, the new pair if there is one, and 1 where the
    new column's pivot was a toss-up, else 0. Python's floats are binary64 and each operation rounds once, so the bits are document 01's."""
    col = list(column)
    for i, j in zip(list_[::2], list_[1::2]):
        col[i], col[j] = col[j], col[i]
    for i in range(min(m, n)):
        if store[i * m + i] != 0.0:
            for r in range(i + 1, m):
                col[r] = -col[i] * store[i * m + r] + col[r]
    older = store[:]
    new_pair, toss_up = [], 0
    if n < m:
        pivot = greatest(col, n)
        toss_up = is_toss_up(col, n, pivot)
        if col[pivot] != 0.0:
            if pivot != n:
                new_pair = [n, pivot]
                col[n], col[pivot] = col[pivot], col[n]
                for j in range(n):
                    a, b = j * m + n, j * m + pivot
                    older[a], older[b] = older[b], older[a]
            if n + 1 < m:
                reciprocal = 1.0 / col[n]
                for r in range(n + 1, m):
                    col[r] = col[r] * reciprocal
    return older + array('d', col), new_pair, toss_up


# ---- 3 to 8: calls on factors

def factors_tests(c, square, lengths, numbers):
    """Refusals 1 to 5 and 9 of a call on factors, the number of right-hand columns apart."""
    factors, swaps, (pairs, dead) = c.slices[:3]
    yield 1, outside(1, c.m) or outside(0, c.n)
    yield 2, square and c.m != c.n
    yield 3, len(factors) != c.m * c.n or len(swaps) != STORE or lengths
    yield 4, bad_list(swaps, pairs, c.m, min(c.m, c.n))
    yield 5, not_finite(factors, *numbers)
    yield 9, dead != dead_columns(c.m, c.n, factors)


def solve_tests(c):
    _, _, (_, dead), b, x0 = c.slices
    yield 1, outside(1, c.k)
    yield from factors_tests(c, True, len(b) != c.m * c.k or len(x0) != c.m * c.k, [b])
    yield 6, dead != 0


def inverse_tests(c):
    _, _, (_, dead), x0 = c.slices
    yield from factors_tests(c, True, len(x0) != c.m * c.n, [])
    yield 6, dead != 0


def square_tests(c):
    yield from factors_tests(c, True, False, [])


def l_tests(c):
    yield from factors_tests(c, False, len(c.slices[3]) != c.m * min(c.m, c.n), [])


def u_tests(c):
    yield from factors_tests(c, False, len(c.slices[3]) != min(c.m, c.n) * c.n, [])


def result_left(c, number):
    """Calls whose lent result is their last slice."""
    return [hexes(c.slices[-1])]


def result_made(c):
    return numbers_or_seven((yield encode(c)), c.slices[-1])


def dash(c, number):
    return ['-']


def determinant_made(c):
    text = yield encode(c)
    return (0, [text]) if finite(text) else (7, ['-'])


def invertible_made(c):
    """Answered from the number; the crate, which walks the diagonal, must agree."""
    text = str(int(c.slices[2][1] == 0))
    assert (yield encode(c)) == text, 'the crate answers otherwise than the number of dead columns'
    return 0, [text]


# ---- 30: the scaled determinant (document 02, request 10), in whole numbers; the crate's determinant must be it where no running product is
# too large or too small

def apart(x):
    """Sign, significand and exponent of a finite number that is not zero: it is the significand, from 2^52 up to but not 2^53, times
    2^(exponent - 52)."""
    bits, = struct.unpack('<Q', struct.pack('<d', x))
    field, digits = bits >> 52 & 2047, bits & 2 ** 52 - 1
    digits, exponent = (digits + 2 ** 52, field - 1023) if field else (digits, -1022)
    up = 53 - digits.bit_length()
    return bits >> 63, digits << up, exponent - up


def rounded(digits):
    """A whole number of 105 or 106 digits to the nearest one with 53, ties to even: those digits, and by how many it was more."""
    drop = digits.bit_length() - 53
    kept, rest = divmod(digits, 2 ** drop)
    kept += 2 * rest + kept % 2 > 2 ** drop
    return (kept, drop) if kept < 2 ** 53 else (2 ** 52, drop + 1)


def scaled(n, factors, pairs):
    """The two parts of a line."""
    if zero_on_diagonal(n, factors):
        return [16 * '0', '0']
    sign, significand, exponent = pairs % 2, 2 ** 52, 0
    for x in factors[::n + 1]:
        s, digits, e = apart(x)
        significand, drop = rounded(significand * digits)
        sign, exponent = sign ^ s, exponent + e + drop - 52
    return ['%016x' % (sign << 63 | 1022 * 2 ** 52 + significand), str(exponent)]


def is_ample(n, factors):
    """Every running product of the plain determinant is finite and of magnitude above 2^-1022."""
    product = 1.0
    for x in factors[::n + 1]:
        product *= x
        if not 2.0 ** -1022 < abs(product) < math.inf:
            return False
    return True


def scaled_made(c):
    factors, _, (pairs, _) = c.slices
    parts = scaled(c.n, factors, pairs)
    if is_ample(c.n, factors):
        plain = yield encode(Case(5, c.m, c.n, 0, c.slices))
        assert plain == hexes(array('d', [math.ldexp(unhex(parts[0])[0], int(parts[1]))])), 'the crate has another determinant'
    return 0, parts


def two_dashes(c, number):
    return ['-', '-']


# ---- 9 to 13 and 24: triangular solves

GIVEN = (11, 24)        # the ops that take a diagonal


def triangular_tests(c):
    matrix, b, x0 = c.slices[0], *c.slices[-2:]
    yield 1, outside(1, c.n) or outside(1, c.k)
    yield 3, len(matrix) != c.n * c.n or len(b) != c.n * c.k or len(x0) != c.n * c.k
    given = c.slices[1] if c.op in GIVEN else array('d')
    yield 5, not_finite(matrix, b, given)
    yield 6, given[0] == 0.0 if c.op in GIVEN else zero_on_diagonal(c.n, matrix)


def for_crate(c):
    """The case as the crate knows it: of the corrected diagonal its own given diagonal, of the transposed solve the first pass, of an
    explained solve the solve."""
    if c.op == 25:
        return first_pass(c.n, c.k, c.slices[0], c.slices[3])
    known = {24: 11, 28: 3}.get(c.op, c.op)
    return encode(Case(known, c.m, c.n, c.k, c.slices))


def corrected_made(c):
    """Each entry is divided by d, stored, and drives the updates: run here. The crate drives them by the same quotients and leaves its
    entries undivided, so these numbers must be the crate's, each divided once."""
    matrix, (d,), b, x0 = c.slices
    made = array('d')
    for j in range(c.k):
        column = b[j * c.n:(j + 1) * c.n]
        for i in range(c.n):
            column[i] = column[i] / d
            for r in range(i + 1, c.n):
                column[r] = -column[i] * matrix[i * c.n + r] + column[r]
        made += column
    undivided = yield for_crate(c)
    if finite(undivided):
        assert hexes(made) == hexes(array('d', [x / d for x in unhex(undivided)])), "not the crate's numbers divided once"
    else:
        assert not finite(hexes(made)), "finite where the crate's numbers are not"
    return numbers_or_seven(hexes(made), x0)


# ---- 14 to 18: swap lists

def permute_tests(c):
    swaps, pairs, matrix = c.slices
    yield 1, outside(1, c.m) or outside(0, c.n)
    yield 3, len(matrix) != c.m * c.n or len(swaps) != STORE
    yield 4, bad_list(swaps, pairs[0], c.m if c.op < 16 else c.n, MOST)
    yield 5, not_finite(matrix)


def append_tests(c):
    swaps, (pairs,), (i, j) = c.slices
    yield 1, outside(1, c.m)
    yield 3, len(swaps) != STORE
    yield 4, bad_list(swaps, pairs, 64, c.m)
    yield 4, i >= 64 or j >= 64
    yield 4, i != j and pairs >= c.m


def append_left(c, number):
    return [words(c.slices[1]), words(c.slices[0])]


def append_made(c):
    count, list_ = (yield encode(c)).split(' | ')
    swaps = c.slices[0][:]
    swaps[:2 * int(count)] = array('Q', map(int, list_.split()))
    return 0, [count, words(swaps)]


# ---- 19 and 20: ranking, panel files

def ranks(loads):
    """Pad numbers from 1, greatest magnitude first, equal magnitudes by lower number."""
    return sorted(range(1, len(loads) + 1), key=lambda pad: (-abs(loads[pad - 1]), pad))


def rank_tests(c):
    loads, out0 = c.slices
    yield 1, outside(1, c.n)
    yield 3, len(loads) != c.n or len(out0) != c.n
    yield 5, not_finite(loads)


def rank_left(c, number):
    return ['-', words(c.slices[1])]


def rank_made(c):
    """All pads, or for m = 0 those whose load is not zero (document 02, request 9); the slots after them are 0."""
    loads, _ = c.slices
    listed = [pad for pad in ranks(loads) if c.m != 0 or loads[pad - 1] != 0.0]
    return 0, [str(len(listed)), words(listed + [0] * (c.n - len(listed)))]
    yield       # a generator that asks nothing


def file_tests(c):
    """The reader's four refusals."""
    file = c.slices[0]
    yield 8, len(file) < 6 or file[:3] != b'LXP' or struct.unpack('<H', file[3:5])[0] != 1
    n = file[5]
    yield 1, outside(1, n)
    yield 3, len(file) != 6 + 8 * (n * n + n)
    yield 5, not_finite(array('d', file[6:]))


def printed(*lines):
    return [''.join(text + NEWLINE for text in lines)]


def refused_left(c, number):
    return printed(f'refused {number}')


def file_factored(c):
    """The number of pads, the matrix, the readings, and the factors with their list and its two numbers, or nothing where factoring overflows."""
    file = c.slices[0]
    n = file[5]
    numbers = array('d', file[6:])
    matrix, readings = numbers[:n * n], numbers[n * n:]
    pairs, factors, swaps = (yield request_factoring(n, n, matrix)).split(' | ')
    if not finite(factors):
        return n, matrix, readings, None
    factors = unhex(factors)
    return n, matrix, readings, [factors, array('Q', map(int, swaps.split())), array('Q', [int(pairs), dead_columns(n, n, factors)])]


def file_solved(n, held, readings):
    """The crate's loads as text, or `none` where a zero stands on the diagonal."""
    loads = yield encode(Case(3, n, n, 1, [*held, readings, array('d')]))
    assert (loads == 'none') == zero_on_diagonal(n, held[0]), loads
    return loads


def file_loads(c):
    """Factoring's 7, then the solve's 6, then its 7; 0 with the factors and the loads."""
    n, _, readings, held = yield from file_factored(c)
    if held is None:
        return 7, None, None
    loads = yield from file_solved(n, held, readings)
    if loads == 'none':
        return 6, None, None
    return (0, held[0], unhex(loads)) if finite(loads) else (7, None, None)


def file_made(c):
    number, _, loads = yield from file_loads(c)
    if number != 0:
        return number, refused_left(c, number)
    return 0, printed(f'pads {len(loads)}', *(f'{pad} {hexes(loads[pad - 1:pad])}' for pad in ranks(loads)))


# ---- 21: writing a panel file (document 02, 1/13)

def write_tests(c):
    matrix, readings, lent = c.slices
    yield 1, outside(1, c.n)
    yield 3, len(matrix) != c.n ** 2 or len(readings) != c.n or len(lent) < 6 + 8 * (c.n ** 2 + c.n)
    yield 5, not_finite(matrix, readings)


def write_left(c, number):
    return ['-', c.slices[2].hex()]


def write_made(c):
    matrix, readings, lent = c.slices
    file = b'LXP' + struct.pack('<HB', 1, c.n) + struct.pack(f'<{len(matrix)}d', *matrix) + struct.pack(f'<{len(readings)}d', *readings)
    return 0, [str(len(file)), (file + lent[len(file):]).hex()]
    yield       # a generator that asks nothing


# ---- 22: removing the last column (document 02, request 2)

def undoes(c):
    """The last pair begins with the last column's number."""
    _, swaps, (pairs, _) = c.slices
    return pairs > 0 and swaps[2 * pairs - 2] == c.n - 1


def remove_tests(c):
    store, swaps, (pairs, dead) = c.slices
    yield 1, outside(1, c.m) or outside(1, c.n)
    yield 3, len(store) != c.m * c.n or len(swaps) != STORE
    yield 4, bad_list(swaps, pairs, c.m, min(c.m, c.n))
    yield 4, pairs - undoes(c) > min(c.m, c.n - 1)
    yield 4, undoes(c) and swaps[2 * pairs - 1] < swaps[2 * pairs - 2]
    yield 5, not_finite(store)
    yield 9, dead != dead_columns(c.m, c.n, store)


def remove_left(c, number):
    store, swaps, (pairs, dead) = c.slices
    return [str(pairs), hexes(store), words(swaps), str(dead)]


def remove_made(c):
    """Where the whole matrix is known, the oracle factors the columns that remain afresh; else the two rows are swapped back here."""
    _, swaps, (old, _) = c.slices
    if c.fresh is None:
        count, older = removed(c)
    else:
        count, text, list_ = (yield request_factoring(c.m, c.n - 1, c.fresh[:c.m * (c.n - 1)])).split(' | ')
        count, older = int(count), unhex(text)
        assert [int(w) for w in list_.split()] == list(swaps[:2 * count]), 'the pairs that remain are not those of the columns that remain'
    swaps = swaps[:]
    swaps[2 * count:2 * old] = array('Q', [0] * (2 * (old - count)))
    return 0, [str(count), hexes(older + array('d', bytes(8 * c.m))), words(swaps), str(dead_columns(c.m, c.n - 1, older))]


def removed(c):
    """The count of pairs and the older columns, on any factors."""
    store, swaps, (pairs, _) = c.slices
    m, n = c.m, c.n - 1
    older = store[:m * n]
    if not undoes(c):
        return pairs, older
    row = swaps[2 * pairs - 1]
    for start in range(0, m * n, m):
        older[start + n], older[start + row] = older[start + row], older[start + n]
    return pairs - 1, older


# ---- 25: the transposed solve (document 02, request 5)

def with_nans(text):
    """The oracle's numbers, NaNs too."""
    return unhex(text.replace('nan', '7ff8000000000000'))


def first_pass(n, k, factors, b):
    return encode(Case(13, 0, n, k, [factors, b, array('d')]))


def transposed_solved(n, k, factors, swaps, pairs, b):
    """Three requests: transposed upper; transposed lower with ones on the diagonal, by which the crate divides without changing a bit;
    the rows permuted in reverse. Gives the last line, or `none` where the crate refuses the first."""
    passed = yield first_pass(n, k, factors, b)
    if passed == 'none':
        return passed
    unit = factors[:]
    unit[::n + 1] = array('d', [1.0] * n)
    passed = yield encode(Case(12, 0, n, k, [unit, with_nans(passed), array('d')]))
    return (yield encode(Case(15, n, k, 0, [swaps, pairs[:1], with_nans(passed)])))


def transposed_made(c):
    factors, swaps, pairs, b, x0 = c.slices
    return numbers_or_seven((yield from transposed_solved(c.n, c.k, factors, swaps, pairs, b)), x0)


# ---- 26: how a pad's load moves with each reading (document 02, request 5)

def moves_tests(c):
    yield from file_tests(c)
    yield 1, outside(1, c.m, c.slices[0][5])


def moves_made(c):
    """The transposed solve of the pad's unit column: factoring's 7, then the solve's 6, then its 7."""
    n, _, _, held = yield from file_factored(c)
    if held is None:
        return 7, ['-']
    unit = array('d', [float(pad == c.m) for pad in range(1, n + 1)])
    moves = yield from transposed_solved(n, 1, *held, unit)
    if zero_on_diagonal(n, held[0]):
        assert moves == 'none', moves
        return 6, ['-']
    return (0, [moves]) if finite(moves) else (7, ['-'])


# ---- 27 to 29: why a call is refused (document 02, request 8)
#
# Every number that is stored, in the crate's order, with its place, all counted from 0; the reason is the first that is not finite.
# Whether there is one is the crate's to say: its final result is not finite then.

def stored_in_factoring(m, n, matrix):
    """((step, column, row), number): in step i the multipliers of column i, then each column to the right of it, in each the rows below
    row i, where the step's exchange has put them. A skipped step stores nothing."""
    a = [list(matrix[j * m:j * m + m]) for j in range(n)]
    for i in range(min(m, n)):
        pivot = greatest(a[i], i)
        if a[i][pivot] == 0.0:
            continue
        for column in a:
            column[i], column[pivot] = column[pivot], column[i]
        for r in range(i + 1, m):
            a[i][r] = a[i][r] * (1.0 / a[i][i])
            yield (i, i, r), a[i][r]
        for j in range(i + 1, n):
            for r in range(i + 1, m):
                a[j][r] = -a[j][i] * a[i][r] + a[j][r]
                yield (i, j, r), a[j][r]


def stored_in_solve(n, k, factors, list_, b):
    """((pass, right-hand column, row), number): pass 1, unit lower, over all right-hand columns, then pass 2, upper, over all. On row i's
    turn pass 1 stores in the rows below it, pass 2 its quotient and then in the rows above it, from row 0 on."""
    sides = [list(b[c * n:c * n + n]) for c in range(k)]
    for side in sides:
        for i, j in zip(list_[::2], list_[1::2]):
            side[i], side[j] = side[j], side[i]
    for c, side in enumerate(sides):
        for i in range(n):
            for r in range(i + 1, n):
                side[r] = -side[i] * factors[i * n + r] + side[r]
                yield (1, c, r), side[r]
    for c, side in enumerate(sides):
        for i in range(n - 1, -1, -1):
            side[i] = side[i] / factors[i * n + i]
            yield (2, c, i), side[i]
            for r in range(i):
                side[r] = -side[i] * factors[i * n + r] + side[r]
                yield (2, c, r), side[r]


def first_overflow(stored):
    """The place of the first stored number that is not finite, if there is one."""
    return next((place for place, x in stored if not math.isfinite(x)), None)


def reason_of(stored, result):
    """The same; it must be there exactly where the crate's result is not finite."""
    place = first_overflow(stored)
    assert (place is None) == finite(result), f'the crate gives {result}, and the first number that is not finite is stored at {place}'
    return place


def lowest_dead(n, factors):
    """The lowest column with a zero on the diagonal."""
    return [x == 0.0 for x in factors[::n + 1]].index(True)


def placed(place):
    return (0, ['-']) if place is None else (7, [words(place)])


def why_factor_made(c):
    _, factors, _ = (yield request_factoring(c.m, c.n, c.slices[0])).split(' | ')
    return placed(reason_of(stored_in_factoring(c.m, c.n, c.slices[0]), factors))


def why_solve_left(c, number):
    return [str(lowest_dead(c.n, c.slices[0])) if number == 6 else '-']


def why_solve_made(c):
    factors, swaps, (pairs, _), b, _ = c.slices
    return placed(reason_of(stored_in_solve(c.n, c.k, factors, swaps[:2 * pairs], b), (yield for_crate(c))))


PASSES = {1: 'lower', 2: 'upper'}


def why_file_made(c):
    """The text of the program: two lines for what is refused after the reader; places count from 1."""
    n, matrix, readings, held = yield from file_factored(c)
    if held is None:
        step, column, row = first_overflow(stored_in_factoring(n, n, matrix))
        return 7, printed('refused 7', f'factoring: step {step + 1}, column {column + 1}, row {row + 1}')
    loads = yield from file_solved(n, held, readings)
    if loads == 'none':
        return 6, printed('refused 6', f'column {lowest_dead(n, held[0]) + 1}')
    place = reason_of(stored_in_solve(n, 1, held[0], held[1], readings), loads)
    if place is None:
        return 0, printed('no reason')
    return 7, printed('refused 7', f'solving: {PASSES[place[0]]} pass, column {place[1] + 1}, row {place[2] + 1}')


# ---- 31: the stiffness of a panel file (document 02, request 10)

def stiffness_made(c):
    """Factoring's 7, and no other refusal behind the reader's."""
    n, _, _, held = yield from file_factored(c)
    if held is None:
        return 7, ['-', '-']
    factors, _, (pairs, _) = held
    return 0, scaled(n, factors, pairs)


# ---- 32 and 33: the four-pad profile (document 02, request 11)

def four_tests(c):
    yield 5, not_finite(*c.slices)


def four_file_tests(c):
    """The reader's refusals, with 1 for every other size."""
    file = c.slices[0]
    yield next(file_tests(c))
    yield 1, file[5] != 4
    yield from file_tests(c)


def four_left(c, number):
    """Any refusal returns zeros."""
    return [hexes(array('d', bytes(8 * 16))), '0', '', hexes(array('d', bytes(8 * 4)))]


def four_made(c, matrix, readings):
    """Factoring's 7, then the solve's 6, then its 7; else the crate's factors, swaps and loads."""
    pairs, factors, swaps = (yield request_factoring(4, 4, matrix)).split(' | ')
    if not finite(factors):
        return 7, four_left(c, 7)
    packed = unhex(factors)
    loads = yield from file_solved(4, [packed, array('Q', map(int, swaps.split())), array('Q', [int(pairs), dead_columns(4, 4, packed)])], readings)
    if loads == 'none':
        return 6, four_left(c, 6)
    return (0, [factors, pairs, swaps, loads]) if finite(loads) else (7, four_left(c, 7))


def four_matrix_made(c):
    return (yield from four_made(c, *c.slices))


def four_file_made(c):
    numbers = array('d', c.slices[0][6:])
    return (yield from four_made(c, numbers[:16], numbers[16:]))


# ---- 34: a season (document 02, request 13)

FULL = 4000
BANDS = (0, 511, 1022, 1534, 2046)      # the last exponent of each


def files_of(lengths, joined):
    at = 0
    for length in lengths:
        yield joined[at:at + length]
        at += length


def band_of(diagonal):
    """By the biased exponent of the least magnitude."""
    exponent = struct.unpack('<Q', struct.pack('<d', min(map(abs, diagonal))))[0] >> 52
    return next(band for band, last in enumerate(BANDS) if exponent <= last)


def file_told(file):
    """The refusal's number, 0 for none; the pads that are listed without idle ones, and the band."""
    c = Case(20, 0, 0, len(file), [file])
    number, factors, loads = first(file_tests(c)), None, None
    if number == 0:
        number, factors, loads = yield from file_loads(c)
    if number != 0:
        return number, 0, None
    return 0, sum(x != 0.0 for x in loads), band_of(factors[::len(loads) + 1])


def season_made(c):
    """Accepted, refused under 1 to 9, pads, the five bands, of the first 4,000 files; 10 where there are more."""
    files = list(files_of(*c.slices))
    told = {}
    for file in files[:FULL]:
        if file not in told:
            told[file] = yield from file_told(file)
    told = [told[file] for file in files[:FULL]]
    counts = [sum(number == k for number, _, _ in told) for k in range(10)]
    counts.append(sum(pads for _, pads, _ in told))
    counts += [sum(band == b for _, _, band in told) for b in range(len(BANDS))]
    return 10 if len(files) > FULL else 0, [words(counts)]


# ---- all calls

RULES = {
    1: (factor_tests, factor_left, factor_made),
    2: (add_tests, add_left, add_made),
    3: (solve_tests, result_left, result_made),
    4: (inverse_tests, result_left, result_made),
    5: (square_tests, dash, determinant_made),
    6: (square_tests, dash, invertible_made),
    7: (l_tests, result_left, result_made),
    8: (u_tests, result_left, result_made),
    **{op: (triangular_tests, result_left, result_made) for op in range(9, 14)},
    **{op: (permute_tests, result_left, result_made) for op in range(14, 18)},
    18: (append_tests, append_left, append_made),
    19: (rank_tests, rank_left, rank_made),
    20: (file_tests, refused_left, file_made),
    21: (write_tests, write_left, write_made),
    22: (remove_tests, remove_left, remove_made),
    23: (lambda c: [], None, search_made),
    24: (triangular_tests, result_left, corrected_made),
    25: (solve_tests, result_left, transposed_made),
    26: (moves_tests, dash, moves_made),
    27: (factor_tests, dash, why_factor_made),
    28: (solve_tests, why_solve_left, why_solve_made),
    29: (file_tests, refused_left, why_file_made),
    30: (square_tests, two_dashes, scaled_made),
    31: (file_tests, two_dashes, stiffness_made),
    32: (four_tests, four_left, four_matrix_made),
    33: (four_file_tests, four_left, four_file_made),
    34: (lambda c: [], None, season_made),
    35: (factor_tests, factor_left, factor_made),
}


def expected(c):
    """The line of a case, as a generator that asks the oracle."""
    tests, left, made = RULES[c.op]
    number = first(tests(c))
    if number == 0:
        number, parts = yield from made(c)
    else:
        parts = left(c, number)
        if number == 6:      # the one refusal that the crate has too: it must agree
            answer = yield for_crate(c)
            assert answer == 'none', answer
    return line(number, parts)
