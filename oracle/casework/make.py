"""Makes cases. Case number `index` of a seed is always the same; makers are generators, since some ask the oracle for factors."""
import random
import struct
from array import array

from . import floats, overflow
from .judge import finite
from .rules import GIVEN, MOST, STORE, dead_columns, request_factoring
from .wire import Case, FLOATS, HELD, LONGEST, OPS, hexes, unhex

# how often each op comes in a round
TURNS = {1: 4, 2: 4, 3: 3, 4: 2, 5: 2, 6: 2, 7: 4, 8: 4, 9: 2, 10: 2, 11: 2, 12: 3, 13: 3,
         14: 4, 15: 4, 16: 4, 17: 4, 18: 2, 19: 2, 20: 2, 21: 2, 22: 4, 23: 2, 24: 2, 25: 3, 26: 2, 27: 4, 28: 4,
         29: 3, 30: 3, 31: 2, 32: 3, 33: 3, 34: 2, 35: 4}
ROUND = [(op, turn) for turn in range(max(TURNS.values())) for op in TURNS if turn < TURNS[op]]

JUNK = [0, 1, 63, 64, 65, 255, 2 ** 32, 2 ** 63, 2 ** 64 - 1]


# ---- sizes

def small_shape(turn):
    """Rows 1 to 9 by columns 0 to 9, each in its turn."""
    return 1 + turn % 9, turn // 9 % 10


def small_square(turn):
    """The size and the number of right-hand columns, each 1 to 9: all of each in 9 turns, all pairs in 81."""
    return 1 + turn % 9, 1 + (turn + turn // 9) % 9


def larger_shape(r):
    if r.random() < 0.9:
        return r.randint(10, 17), r.randint(8, 17)
    if r.random() < 0.75:
        return r.choice([(63, 0), (64, 0), (63, 1), (64, 1), (64, 2), (1, 63), (1, 64), (2, 63), (2, 64), (63, 3), (3, 63)])
    return r.choice([(63, 63), (63, 64), (64, 63), (64, 64)])


def larger_square(r):
    m, n = larger_shape(r)
    return max(m, n), r.choice([1, 1, 1, 2, 3, m if max(m, n) < 20 else 1])


# ---- swap lists

def store_of(r, pairs):
    """A swap store with these pairs; what follows them is zero, now and then with anything in some places."""
    used = [x for pair in pairs for x in pair]
    store = array('Q', used + [0] * (STORE - len(used)))
    if len(used) < STORE and r.random() < 0.5:
        for at in (len(used), STORE - 1, r.randrange(len(used), STORE)):
            store[at] = r.choice(JUNK)
    return store


def good_pairs(r, bound, most):
    """A list of any pairs that refusal 4 lets through."""
    count = r.choice([0, 1, most, r.randint(0, most)]) if bound > 1 else 0
    return [tuple(r.sample(range(bound), 2)) for _ in range(min(count, most))]


# ---- factors

def factored(m, n, matrix):
    """The oracle's factors and swap pairs, or nothing where factoring overflows."""
    _, factors, list_ = (yield request_factoring(m, n, matrix)).split(' | ')
    if not finite(factors):
        return None
    rows = [int(w) for w in list_.split()]
    return unhex(factors), list(zip(rows[::2], rows[1::2]))


def some_factors(r, m, n, without_zero=False):
    """Factors with a swap list: an accepted factoring's, or any numbers with any good list."""
    matrix = floats.matrix(r, m, n)
    if r.random() < 0.6:
        made = yield from factored(m, n, matrix)
        if made:
            return made
    if without_zero and m == n:
        floats.without_zero_diagonal(r, n, matrix)
    return matrix, good_pairs(r, m, min(m, n))


def list_slices(r, pairs):
    return [store_of(r, pairs), array('Q', [len(pairs)])]


def held_slices(r, m, n, factors, pairs):
    """What is held beside factors: their swap store, and the pairs and dead columns."""
    return [store_of(r, pairs), array('Q', [len(pairs), dead_columns(m, n, factors)])]


# ---- one maker for each group of ops: r, op, the two sizes of its turn

def make_factor(r, op, m, n):
    return Case(op, m, n, 0, [floats.matrix(r, m, n), floats.anything(r, m * n), store_of(r, [])])
    yield


def make_add(r, op, m, n):
    n = min(n, MOST - 1)
    whole = floats.matrix(r, m, n + 1)
    if r.random() < 0.75:
        made = yield from factored(m, n, whole[:m * n])
        if made:
            factors, pairs = made
            return Case(op, m, n, 0, [factors + floats.anything(r, m), whole[m * n:], *held_slices(r, m, n, factors, pairs)], fresh=whole)
    pairs = good_pairs(r, m, min(m, n))
    return Case(op, m, n, 0, [whole[:m * n] + floats.anything(r, m), whole[m * n:], *held_slices(r, m, n, whole, pairs)])


def make_solve(r, op, n, k):
    factors, pairs = yield from some_factors(r, n, n, r.random() < 0.8)
    return Case(op, n, n, k, [factors, *held_slices(r, n, n, factors, pairs), floats.matrix(r, n, k), floats.anything(r, n * k)])


def make_square(r, op, n, k):
    """Inverse, determinant, invertible."""
    factors, pairs = yield from some_factors(r, n, n, r.random() < 0.8)
    return Case(op, n, n, 0, [factors, *held_slices(r, n, n, factors, pairs)] + ([floats.anything(r, n * n)] if op == 4 else []))


def make_scaled(r, op, n, k):
    """Half of the times with another diagonal: of subnormal numbers, of the format's ends, of significands whose products are near 2."""
    factors, pairs = yield from some_factors(r, n, n, r.random() < 0.8)
    if r.random() < 0.5:
        factors[::n + 1] = r.choice((floats.subnormal, floats.tiny, floats.edges, floats.huge, floats.any_bits, floats.near_two))(r, n)
    return Case(op, n, n, 0, [factors, *held_slices(r, n, n, factors, pairs)])


def make_l_or_u(r, op, m, n):
    factors, pairs = yield from some_factors(r, m, n)
    return Case(op, m, n, 0, [factors, *held_slices(r, m, n, factors, pairs), floats.anything(r, min(m, n) * (m if op == 7 else n))])


def make_triangular(r, op, n, k):
    matrix = floats.matrix(r, n, n)
    if r.random() < 0.85:
        floats.without_zero_diagonal(r, n, matrix)
    given = [array('d', [r.choice((1.0, 2.0, -3.0, 0.1, floats.numbers(r, 1)[0]))])] if op in GIVEN else []
    return Case(op, 0, n, k, [matrix, *given, floats.matrix(r, n, k), floats.anything(r, n * k)])
    yield


def make_permute(r, op, m, n):
    pairs = good_pairs(r, m if op < 16 else n, r.choice((MOST, 5)))
    return Case(op, m, n, 0, [*list_slices(r, pairs), floats.numbers(r, m * n)])
    yield


def make_append(r, op, m, n):
    d = r.choice((m, r.randint(1, MOST)))
    pairs = good_pairs(r, MOST, d)
    i = r.randrange(MOST)
    two = [i, i] if r.random() < 0.15 else [i, r.randrange(MOST)]
    return Case(op, d, 0, 0, [*list_slices(r, pairs), array('Q', two)])
    yield


def make_rank(r, op, n, k):
    n = r.choice((n, r.randint(1, MOST)))
    return Case(op, r.choice((0, 0, 1, r.choice(JUNK))), n, 0, [with_idle(r, floats.numbers(r, n)), array('Q', r.choices(JUNK, k=n))])
    yield


def with_idle(r, loads):
    """Half of the time some loads become zeros of either sign, now and then all."""
    for pad in r.sample(range(len(loads)), r.choice((0, 0, 0, 1, r.randint(0, len(loads)), len(loads)))):
        loads[pad] = r.choice((0.0, -0.0))
    return loads


def panel(n, numbers):
    return b'LXP' + struct.pack('<HB', 1, n % 256) + numbers.tobytes()


def make_file(r, op, n, k):
    matrix = floats.matrix(r, n, n)
    if r.random() < 0.3:
        floats.without_zero_diagonal(r, n, matrix)
    return file_case(panel(n, matrix + floats.matrix(r, n, 1)))
    yield


def file_case(file, op=20):
    file = file[:8 * LONGEST]
    return Case(op, 0, 0, len(file), [file])


def make_write(r, op, n, k):
    """A crossing of any finite numbers, and a slice that fits, or is longer."""
    lent = r.randbytes(6 + 8 * (n * n + n) + r.choice((0, 0, 1, 2, 7, 8, 9, 40)))[:8 * LONGEST]
    return Case(op, 0, n, len(lent), [floats.numbers(r, n * n), floats.numbers(r, n), lent])
    yield


def make_remove(r, op, m, n):
    n = min(n + 1, MOST)
    whole = floats.matrix(r, m, n)
    if r.random() < 0.6:
        made = yield from factored(m, n, whole)
        if made:
            factors, pairs = made
            return Case(op, m, n, 0, [factors, *held_slices(r, m, n, factors, pairs)], fresh=whole)
    return Case(op, m, n, 0, [whole, *held_slices(r, m, n, whole, pairs_to_remove_from(r, m, n))])


def pairs_to_remove_from(r, m, n):
    """A list that removing takes; most often its last pair, of the last column and a row below it, goes."""
    pairs = good_pairs(r, m, min(m, n - 1))
    if pairs and pairs[-1][0] == n - 1 > pairs[-1][1]:
        pairs[-1] = pairs[-1][::-1]
    if n < m and r.random() < 0.6:
        pairs.append((n - 1, r.randrange(n, m)))
    return pairs


def make_search(r, op, m, n):
    """A column of m numbers, half of the times with two of one magnitude, now and then with some that are not finite."""
    column = floats.numbers(r, m)
    for _ in range(r.choice((0, 0, 0, 1, 3))):
        column[r.randrange(m)] = r.choice(floats.NOT_FINITE)
    if r.random() < 0.5:
        column[r.randrange(m)] = r.choice((1.0, -1.0)) * r.choice((column[r.randrange(m)], max(column, key=abs)))
    return Case(op, r.choice((0, 0, n, r.randrange(m))), 0, 0, [column])
    yield


def make_moves(r, op, n, k):
    whole = yield from make_file(r, op, n, k)
    return moves_case(r.randint(1, min(n, 63)), whole.slices[0])


def moves_case(pad, file):
    whole = file_case(file)
    return Case(26, pad, 0, whole.k, whole.slices)


def make_why_factor(r, op, m, n):
    """Nine in ten overflow, where the shape has a row below and a column."""
    matrix = overflow.overflowing_matrix(r, m, n) if r.random() < 0.9 else floats.matrix(r, m, n)
    return Case(op, m, n, 0, [matrix, floats.anything(r, m * n), store_of(r, [])])
    yield


def make_why_solve(r, op, n, k):
    """Seven in ten overflow, one in ten is singular."""
    how = r.random()
    if how > 0.8:
        return (yield from make_solve(r, op, n, k))
    pairs = good_pairs(r, n, n)
    list_ = [row for pair in pairs for row in pair]
    factors, b = overflow.overflowing_solve(r, n, k, list_) if how < 0.7 else (overflow.singular_factors(r, n), floats.matrix(r, n, k))
    return Case(op, n, n, k, [factors, *held_slices(r, n, n, factors, pairs), b, floats.anything(r, n * k)])


def make_why_file(r, op, n, k):
    """Three in ten overflow when they are factored, four when they are solved; one is singular."""
    how = r.random()
    if how > 0.8:
        return file_case((yield from make_file(r, op, n, k)).slices[0], op)
    if how < 0.3 and n > 1:
        matrix, readings = overflow.overflowing_matrix(r, n, n), floats.matrix(r, n, 1)
    else:
        matrix, readings = (overflow.overflowing_crossing if how < 0.7 else overflow.singular_crossing)(r, n)
    return file_case(panel(n, matrix + readings), op)


def make_stiffness(r, op, n, k):
    whole = yield from make_file(r, op, n, k)
    return stiffness_case(whole.slices[0])


def stiffness_case(file):
    whole = file_case(file)
    return Case(31, 0, 0, whole.k, whole.slices)


def four_numbers(r):
    """The matrix and the readings of four pads: one in ten is made to overflow when it is factored, one when it is solved; one in twenty is singular."""
    how = r.random()
    if how < 0.1:
        return overflow.overflowing_matrix(r, 4, 4), floats.matrix(r, 4, 1)
    if how < 0.25:
        return (overflow.overflowing_crossing if how < 0.2 else overflow.singular_crossing)(r, 4)
    matrix = floats.matrix(r, 4, 4)
    if how < 0.6:
        floats.without_zero_diagonal(r, 4, matrix)
    return matrix, floats.matrix(r, 4, 1)


def make_four(r, op, n, k):
    return Case(op, 0, 0, 0, [*four_numbers(r)])
    yield


def make_four_file(r, op, n, k):
    """One in ten has another size."""
    if r.random() < 0.1:
        return file_case((yield from make_file(r, op, n, k)).slices[0], op)
    matrix, readings = four_numbers(r)
    return file_case(panel(4, matrix + readings), op)


def season_case(files):
    """As many of the files as the slice of bytes can hold."""
    held, joined = [], b''
    for file in files:
        if len(joined) + len(file) <= 8 * LONGEST and len(held) < LONGEST:
            held.append(file)
            joined += file
    return Case(34, 0, 0, 0, [array('Q', map(len, held)), joined])


def some_file(r, n):
    """A panel file, now and then a damaged one, or with a number on its diagonal that is small or large."""
    matrix = floats.matrix(r, n, n)
    if r.random() < 0.7:
        floats.without_zero_diagonal(r, n, matrix)
    if r.random() < 0.4:
        i = r.randrange(n) * (n + 1)
        matrix[i] = r.choice((1.0, -1.0)) * 2.0 ** r.choice((-1074, -1023, -1022, -512, -511, -1, 0, 511, 512, 1023, r.randint(-1074, 1023)))
    file = panel(n, matrix + with_idle(r, floats.matrix(r, n, 1)))
    return damaged(r, file_case(file)).slices[0] if r.random() < 0.25 else file


def make_season(r, op, n, k):
    """A few small files, some of them twice. In a larger one they stand among empty files, about as many as fill a season."""
    files = [some_file(r, r.randint(1, min(n, 9))) for _ in range(r.randint(0, 12))]
    files += r.choices(files, k=r.randint(0, 5)) if files else []
    if n > 9:
        many = [b''] * r.choice((3999, 4000, 4001, 4002, LONGEST))
        for file in files:
            many[r.choice((0, 3998, len(many) - 1, min(3999, len(many) - 1), r.randrange(len(many))))] = file
        files = many
    return season_case(files)
    yield


MAKERS = {1: make_factor, 2: make_add, 3: make_solve, 4: make_square, 5: make_square, 6: make_square, 7: make_l_or_u, 8: make_l_or_u,
          9: make_triangular, 10: make_triangular, 11: make_triangular, 12: make_triangular, 13: make_triangular,
          14: make_permute, 15: make_permute, 16: make_permute, 17: make_permute, 18: make_append, 19: make_rank, 20: make_file,
          21: make_write, 22: make_remove, 23: make_search, 24: make_triangular, 25: make_solve, 26: make_moves,
          27: make_why_factor, 28: make_why_solve, 29: make_why_file, 30: make_scaled, 31: make_stiffness, 32: make_four,
          33: make_four_file, 34: make_season,
          35: make_factor}
# ops whose two sizes are the matrix's and the right-hand columns'
SQUARE = (3, 4, 5, 6, 9, 10, 11, 12, 13, 19, 20, 21, 24, 25, 26, 28, 29, 30, 31, 32, 33, 34)


# ---- faults: each changes a good case in place; the rules say what the changed case gives

def size_fault(r, c):
    name = r.choice(OPS[c.op].free)
    v = getattr(c, name)
    setattr(c, name, r.choice([0, 65, 65, 66, 64, 128, 2 ** 16 + v, 2 ** 32, 2 ** 32 + v, 2 ** 63, 2 ** 63 + v, 2 ** 64 - 1, 2 ** 64 - v,
                               v + 1, v + 1, v - 1]) % 2 ** 64)


def length_fault(r, c):
    at = r.choice([i for i, (name, _) in enumerate(OPS[c.op].slices) if name not in ('pairs', 'diagonal', 'two numbers')])
    items = c.slices[at]
    how = r.randrange(6)
    if isinstance(items, bytes):
        fit = 6 + 8 * (len(c.part('matrix')) + len(c.part('readings')))
        c.slices[at] = (items + items)[:r.choice((0, 6, fit - 8, fit - 1, fit - 1, fit, fit + 1, len(items) - 1))][:8 * LONGEST]
        c.k = len(c.slices[at])
        return
    if how < 2:
        items = items[:-1]
    elif how < 4:
        items = items + array(items.typecode, [r.choice((0, 1))])
    elif how == 4:
        items = items[:0]
    else:
        items = items + items
    c.slices[at] = items[:LONGEST]


def list_fault(r, c):
    swaps, pairs = c.part('swaps'), c.part('pairs')
    how = r.randrange(6)
    if how == 0:
        pairs[0] = r.choice([65, 66, 128, 2 ** 32 + pairs[0], 2 ** 63, 2 ** 63 + pairs[0], 2 ** 64 - 1]) % 2 ** 64
    elif how == 1:
        pairs[0] = r.choice([1, MOST, c.m + 1, min(c.m, c.n) + 1, min(c.m, c.n), c.n + 1]) % 2 ** 64
    else:
        if pairs[0] == 0 and r.random() < 0.5:
            pairs[0] = 1
        if len(swaps) < 2:
            return
        # most often a number that is read, now and then one that is not
        at = r.randrange(max(1, min(2 * pairs[0], len(swaps)))) if r.random() < 0.85 else r.randrange(len(swaps))
        if how < 4:
            swaps[at] = swaps[min(at ^ 1, len(swaps) - 1)]
        else:
            swaps[at] = r.choice([c.m, c.n, c.m + 1, 64, 65, 255, 2 ** 32, 2 ** 63, 2 ** 64 - 1, 2 ** 32 + swaps[at], c.m - 1]) % 2 ** 64


def number_fault(r, c):
    chosen = [s for (_, kind), s in zip(OPS[c.op].slices, c.slices) if kind == FLOATS and len(s)]
    if chosen:
        items = r.choice(chosen)
        items[r.choice((0, len(items) - 1, r.randrange(len(items))))] = r.choice(floats.NOT_FINITE)


def zero_fault(r, c):
    """A zero on the diagonal; of factors most often with the number of dead columns that is then right."""
    at = 1 if c.op in GIVEN and r.random() < 0.7 else 0
    items = c.slices[at]
    if len(items):
        i = 0 if at else r.randrange(max(1, min(c.n, 64))) * ((c.m if c.op in HELD else c.n) + 1)
        items[i % len(items)] = r.choice((0.0, -0.0))
    if c.op in HELD and r.random() < 0.8:
        c.part('pairs')[1] = dead_columns(c.m, c.n, c.slices[0])


def dead_fault(r, c):
    """Another number of dead columns: near the right one, far from it, or as a hurried hand would count."""
    told, factors = c.part('pairs'), c.slices[0]
    d, diagonal = told[1], factors[::c.m + 1]
    hurried = [zeros(factors), zeros(diagonal), zeros(diagonal[:-1]), zeros(factors[::c.n + 1]), hexes(diagonal).split(' ').count('0' * 16)]
    told[1] = r.choice([d + 1, d + 1, d - 1, d - 1, 0, 1, 2, min(c.m, c.n), c.n, 64, 65, 2 ** 32 + d, 2 ** 63, 2 ** 63 + d, 2 ** 64 - 1,
                        *r.choices(hurried, k=4)]) % 2 ** 64


def zeros(items):
    return sum(x == 0.0 for x in items)


def remove_fault(r, c):
    """A last pair of the last column with a row above it, or one pair more than may remain."""
    swaps, pairs = c.part('swaps'), c.part('pairs')
    if not 2 <= c.n <= c.m <= MOST or len(swaps) != STORE:
        return
    last = c.n - 1
    if r.random() < 0.5:
        pairs[0] = max(1, min(pairs[0], c.n))
        swaps[2 * pairs[0] - 2:2 * pairs[0]] = array('Q', [last, r.randrange(last)])
    else:
        pairs[0] = c.n
        swaps[:2 * c.n] = array('Q', [x for _ in range(c.n) for x in r.sample(range(c.m), 2)])
        if swaps[2 * last] == last:
            swaps[2 * last:2 * c.n] = array('Q', [swaps[2 * last + 1], last])


def append_fault(r, c):
    two, pairs = c.part('two numbers'), c.part('pairs')
    how = r.randrange(3)
    if how == 0:
        two[r.randrange(2)] = r.choice([64, 65, 128, 2 ** 32, 2 ** 63, 2 ** 64 - 1])
    elif how == 1:
        two[0] = two[1] = r.choice([64, 100, 2 ** 63, 63])
    else:
        c.m = r.choice([pairs[0], pairs[0] + 1, 1]) % 2 ** 64


def faults_of(op):
    names = [name for name, _ in OPS[op].slices]
    kinds = [size_fault, length_fault] if op != 32 else []      # 32 has no sizes, and takes no other lengths
    if 'pairs' in names:
        kinds += [list_fault, list_fault]
    if any(kind == FLOATS for _, kind in OPS[op].slices):
        kinds += [number_fault, number_fault]
    if op in (9, 10, 11, 12, 13, 24, *HELD):
        kinds.append(zero_fault)
    if op in HELD:
        kinds += [dead_fault] * 2
    if op == 18:
        kinds += [append_fault] * 3
    if op == 22:
        kinds += [remove_fault] * 2
    return kinds


FAULTS = {op: faults_of(op) for op in OPS if op not in (20, 26, 33, 34)}


def damaged(r, c):
    """A panel file cut short, too long, or with bytes changed."""
    file = c.slices[0]
    how = r.randrange(8)
    if len(file) < 6:
        return c
    if how == 0:
        file = file[:r.choice([0, 1, 5, 6, 7, 13, len(file) - 8, len(file) - 1, len(file) - 1, r.randrange(len(file))])]
    elif how == 1:
        file += r.choice([b'\0', b'\n', b'LXP', bytes(8), file[6:14], file])
    else:
        changed = bytearray(file)
        if how == 2:
            changed[r.randrange(5)] ^= 1 << r.randrange(8)
        elif how == 3:
            changed[5] = r.choice([0, 65, 64, 128, 255, changed[5] + 1, changed[5] - 1]) % 256
        elif how == 4 and len(changed) > 13:
            at = 6 + 8 * r.randrange((len(changed) - 6) // 8)
            changed[at:at + 8] = struct.pack('<d', r.choice(floats.NOT_FINITE))
        else:
            at = r.randrange(len(changed))
            changed[at] ^= 1 << r.randrange(8)
        file = bytes(changed)
    return file_case(file, c.op)


def damaged_moves(r, c):
    """The file damaged, or another pad number."""
    file = c.slices[0]
    if r.random() < 0.6:
        return moves_case(c.m, damaged(r, c).slices[0])
    pads = file[5] if len(file) > 5 else 0
    return moves_case(r.choice([0, pads + 1, pads + 1, pads, 64, 65, 2 ** 32 + c.m, 2 ** 63, 2 ** 64 - 1, r.randint(1, 64)]) % 2 ** 64, file)


def damaged_season(r, c):
    """A byte more or fewer in a file, which moves those behind it; two files in the other order; bytes behind the last file."""
    lengths, joined = c.slices[0][:], c.slices[1]
    how = r.randrange(3)
    if how == 0 and len(lengths):
        at = r.randrange(len(lengths))
        lengths[at] = max(0, lengths[at] + r.choice((-1, 1)))
        joined += bytes(max(0, sum(lengths) - len(joined)))
    elif how == 1 and len(lengths):
        at = r.randrange(len(lengths))
        lengths[at], lengths[-1] = lengths[-1], lengths[at]
    else:
        joined += bytes(r.randrange(256) for _ in range(r.randint(1, 40)))
    fits = len(joined) <= 8 * LONGEST
    return Case(34, 0, 0, 0, [lengths, joined]) if fits else c


def spoiled(r, c):
    """The case with one fault, or two or three at once: the order of the tests then shows."""
    times = r.choice((1, 1, 1, 2, 2, 3))
    for _ in range(times):
        if c.op in (20, 29, 33):
            c = damaged(r, c)
        elif c.op == 26:
            c = damaged_moves(r, c)
        elif c.op == 31:
            c = stiffness_case(damaged(r, c).slices[0])
        elif c.op == 34:
            c = damaged_season(r, c)
        else:
            r.choice(FAULTS[c.op])(r, c)
    c.fresh = None
    return c


# ---- case number `index`

def op_of(index):
    return ROUND[index % len(ROUND)][0]


def make(seed, index):
    """Of an op's turns each third is spoiled, one in 48 is larger, and the others go through all small shapes."""
    turn_of_round, at = divmod(index, len(ROUND))
    op, rank = ROUND[at]
    turn = turn_of_round * TURNS[op] + rank
    r = random.Random(f'{seed} {index}')
    square = op in SQUARE
    if turn % 48 == 0:
        sizes = larger_square(r) if square else larger_shape(r)
    elif turn % 3 == 2:
        sizes = (small_square if square else small_shape)(r.randrange(90))
    else:
        before = turn - turn // 3 - (turn + 47) // 48
        sizes = (small_square if square else small_shape)(before)
    c = yield from MAKERS[op](r, op, *sizes)
    if turn % 3 == 2:
        c = spoiled(r, c)
    if op != 20:
        for name in 'mnk':
            if name not in OPS[op].sizes:
                setattr(c, name, r.choice(JUNK))
    return c
