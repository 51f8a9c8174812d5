#!/usr/bin/env python3
"""A second replay program, for the self-test alone: document 01, document 02's requests and the replay format once more, in plain Python,
sharing nothing with the modules beside it and asking no oracle. It reads a list on standard input and prints the lines.

Matrices are lists of rows here. Every operation is one Python operation on floats, so one rounding to binary64."""
import math
import struct
import sys

# F: floats, W: whole numbers, T: two of them; M, R: sixteen and four floats
TAKES = {1: 'FFW', 2: 'FFWT', 3: 'FWTFF', 4: 'FWTF', 5: 'FWT', 6: 'FWT', 7: 'FWTF', 8: 'FWTF', 9: 'FFF', 10: 'FFF', 11: 'FFFF', 12: 'FFF',
         13: 'FFF', 14: 'WWF', 15: 'WWF', 16: 'WWF', 17: 'WWF', 18: 'WWW', 19: 'FW', 20: 'W', 21: 'FFW', 22: 'FWT', 23: 'F', 24: 'FFFF',
         25: 'FWTFF', 26: 'W', 27: 'FFW', 28: 'FWTFF', 29: 'W', 30: 'FWT', 31: 'W', 32: 'MR', 33: 'W', 34: 'WW', 35: 'FFW'}


class Refused(Exception):
    """A number, and a part to print where the call that refuses knows it."""


def refuse(number, when):
    if when:
        raise Refused(number)


def tell(number, part):
    raise Refused(number, part)


# ---- reading and printing

class BadCase(Exception):
    pass


class Input:
    def __init__(self, data):
        self.data, self.at = data, 0

    def take(self, form):
        size = struct.calcsize(form)
        if self.at + size > len(self.data):
            raise BadCase
        self.at += size
        return struct.unpack_from(form, self.data, self.at - size)

    def slice(self, kind):
        count, = self.take('<H')
        if count > 4168 or count != {'T': 2, 'M': 16, 'R': 4}.get(kind, count):
            raise BadCase
        return list(self.take(f'<{count}d' if kind in 'FMR' else f'<{count}Q'))


def text(items):
    out = []
    for x in items:
        if isinstance(x, float):
            out.append('nan' if x != x else '%016x' % struct.unpack('<Q', struct.pack('<d', x)))
        else:
            out.append(str(x))
    return ' '.join(out)


# ---- what several calls share

def finite(x):
    return x - x == 0.0


def rows_of(m, n, flat):
    return [[flat[j * m + i] for j in range(n)] for i in range(m)]


def flat_of(m, n, rows):
    return [rows[i][j] for j in range(n) for i in range(m)]


def size(x, least, most=64):
    refuse(1, x < least or x > most)


def length(items, wanted):
    refuse(3, len(items) != wanted)


def swap_list(store, count, below, most):
    refuse(4, count > most)
    out = []
    for p in range(count):
        i, j = store[2 * p], store[2 * p + 1]
        refuse(4, i == j)
        refuse(4, i >= below)
        refuse(4, j >= below)
        out.append((i, j))
    return out


def numbers(items):
    for x in items:
        refuse(5, not finite(x))


def overflow(items):
    for x in items:
        refuse(7, not finite(x))


def swap(rows, pairs):
    for i, j in pairs:
        rows[i], rows[j] = rows[j], rows[i]


# ---- elimination: document 01, steps 1 to 5

def magnitude(x):
    return -x if x < 0.0 else x


def pivot_row(column, i):
    best = i
    for r in range(i + 1, len(column)):
        if magnitude(column[best]) < magnitude(column[r]):
            best = r
    return best


def toss_up(column, i, best):
    """Another row at or below i has the pivot's magnitude, this not being zero."""
    if best < len(column) and column[best] != 0.0:
        for r in range(i, len(column)):
            if r != best and magnitude(column[r]) == magnitude(column[best]):
                return 1
    return 0


def unseen(*turn):
    """What looks at the numbers after a step or a turn, where nothing does."""


def eliminate(m, n, a, look=unseen):
    """Gives the pairs, the number of toss-ups and that of skipped steps: each leaves a zero on the diagonal, and no other step does."""
    pairs, tosses, dead = [], 0, 0
    for i in range(min(m, n)):
        column = [row[i] for row in a]
        p = pivot_row(column, i)
        tosses += toss_up(column, i, p)
        if a[p][i] == 0.0:
            dead += 1
            continue
        if p != i:
            pairs.append((i, p))
            a[i], a[p] = a[p], a[i]
        for r in range(i + 1, m):
            a[r][i] *= 1.0 / a[i][i]
        for r in range(i + 1, m):
            for j in range(i + 1, n):
                a[r][j] = (-a[i][j]) * a[r][i] + a[r][j]
        look(i, p)
    return pairs, tosses, dead


def add_column(m, n, a, pairs, column):
    """The rows of a get one entry more; gives the new pairs, and 0 or 1 for a toss-up and for a dead column."""
    new, tosses, dead = list(column), 0, 0
    swap(new, pairs)
    for i in range(min(m, n)):
        if a[i][i] == 0.0:
            continue
        for r in range(i + 1, m):
            new[r] += (-new[i]) * a[r][i]
    for r in range(m):
        a[r].append(new[r])
    if n < m:
        p = pivot_row(new, n)
        tosses = toss_up(new, n, p)
        dead = int(a[p][n] == 0.0)
        if dead == 0:
            if p != n:
                pairs = pairs + [(n, p)]
                a[n], a[p] = a[p], a[n]
            for r in range(n + 1, m):
                a[r][n] *= 1.0 / a[n][n]
    return pairs, tosses, dead


# ---- solves of one right-hand column

def unit_lower(t, b, d=1.0, look=unseen):
    for i in range(len(b)):
        if i + 1 < len(b):
            c = b[i] / d
            for r in range(i + 1, len(b)):
                b[r] = (-c) * t[r][i] + b[r]
            look(i)


def lower(t, b):
    for i in range(len(b)):
        b[i] /= t[i][i]
        for r in range(i + 1, len(b)):
            b[r] = (-b[i]) * t[r][i] + b[r]


def upper(t, b, look=unseen):
    for i in reversed(range(len(b))):
        b[i] /= t[i][i]
        for r in range(i):
            b[r] = (-b[i]) * t[r][i] + b[r]
        look(i)


def dot(x, y):
    """blas.rs: eight running sums over whole blocks of eight, added 0+4, 1+5, 2+6, 3+7, then the rest one by one."""
    sums = [0.0] * 8
    whole = len(x) // 8 * 8
    for i in range(whole):
        sums[i % 8] += x[i] * y[i]
    total = 0.0
    for lane in range(4):
        total += sums[lane] + sums[lane + 4]
    for i in range(whole, len(x)):
        total += x[i] * y[i]
    return total


def transposed_lower(t, b):
    for i in reversed(range(len(b))):
        rest = range(i + 1, len(b))
        b[i] = (b[i] - dot([t[r][i] for r in rest], [b[r] for r in rest])) / t[i][i]


def transposed_upper(t, b):
    for i in range(len(b)):
        b[i] = (b[i] - dot([t[r][i] for r in range(i)], b[:i])) / t[i][i]


def transposed_unit_lower(t, b):
    for i in reversed(range(len(b))):
        b[i] -= dot([row[i] for row in t[i + 1:]], b[i + 1:])


def solved(n, t, pairs, b):
    """Factors t, right-hand columns b as a list of columns."""
    for column in b:
        swap(column, pairs)
        unit_lower(t, column)
        upper(t, column)


def transposed_solved(n, t, pairs, b):
    for column in b:
        transposed_upper(t, column)
        transposed_unit_lower(t, column)
        swap(column, reversed(pairs))


def columns_of(n, k, flat):
    return [flat[c * n:c * n + n] for c in range(k)]


# ---- the calls: each gives the parts of an accepted call, or refuses; LEFT gives the parts of a refused one

def factor(m, n, k, matrix, out0, swaps):
    size(m, 1), size(n, 0)
    length(matrix, m * n), length(out0, m * n), length(swaps, 128)
    numbers(matrix)
    a = rows_of(m, n, matrix)
    pairs, tosses, dead = eliminate(m, n, a)
    made = flat_of(m, n, a)
    overflow(made)
    used = [x for p in pairs for x in p]
    return [len(pairs)], made, used + [0] * (128 - len(used)), [tosses], [dead]


def factor_left(number, m, n, k, matrix, out0, swaps):
    if number == 7:
        return [0], [0.0] * len(out0), [0] * 128, [0], [0]
    return [0], out0, swaps, [0], [0]


def dead_number(m, n, t, told):
    """The zeros on the diagonal, of either sign, are those that the record tells."""
    dead = 0
    for i in range(min(m, n)):
        if t[i][i] == 0.0:
            dead += 1
    refuse(9, told != dead)


def add(m, n, k, store, column, swaps, told):
    size(m, 1), size(n, 0, 63)
    length(store, m * n + m), length(column, m), length(swaps, 128)
    pairs = swap_list(swaps, told[0], m, min(m, n))
    numbers(store[:m * n]), numbers(column)
    a = rows_of(m, n, store)
    dead_number(m, n, a, told[1])
    pairs, tosses, dead = add_column(m, n, a, pairs, column)
    made = flat_of(m, n + 1, a)
    overflow(made)
    after = list(swaps)
    for p, pair in enumerate(pairs):
        after[2 * p:2 * p + 2] = pair
    return [len(pairs)], made, after, [tosses], [told[1] + dead]


def add_left(number, m, n, k, store, column, swaps, told):
    if number == 7:
        store = store[:m * n] + [0.0] * m
    return told[:1], store, swaps, [0], told[1:]


def factors(m, n, flat, swaps, told, square, *others):
    """Refusals 1 to 5 and 9 of calls on factors; `others` are (slice, wanted length, is it an input)."""
    size(m, 1), size(n, 0)
    refuse(2, square and m != n)
    length(flat, m * n), length(swaps, 128)
    for items, wanted, _ in others:
        length(items, wanted)
    pairs = swap_list(swaps, told[0], m, min(m, n))
    numbers(flat)
    for items, _, is_input in others:
        if is_input:
            numbers(items)
    t = rows_of(m, n, flat)
    dead_number(m, n, t, told[1])
    return t, pairs


def zero_diagonal(n, t):
    for i in range(n):
        refuse(6, t[i][i] == 0.0)


def solving(run):
    def call(m, n, k, flat, swaps, told, b, x0):
        size(k, 1)
        t, pairs = factors(m, n, flat, swaps, told, True, (b, m * k, True), (x0, m * k, False))
        refuse(6, told[1] > 0)
        x = columns_of(n, k, b)
        run(n, t, pairs, x)
        made = sum(x, [])
        overflow(made)
        return made,
    return call


def inverse(m, n, k, flat, swaps, told, x0):
    t, pairs = factors(m, n, flat, swaps, told, True, (x0, m * n, False))
    refuse(6, told[1] > 0)
    x = [[1.0 if i == j else 0.0 for i in range(n)] for j in range(n)]
    solved(n, t, pairs, x)
    made = sum(x, [])
    overflow(made)
    return made,


def determinant(m, n, k, flat, swaps, told):
    t, pairs = factors(m, n, flat, swaps, told, True)
    product = 1.0
    for i in range(n):
        product *= t[i][i]
    product *= -1.0 if len(pairs) % 2 else 1.0
    overflow([product])
    return [product],


def scaled_number(n, t, pairs):
    """A significand of magnitude from 1 up to but not 2, and a binary exponent."""
    s, e = 1.0, 0
    for i in range(n):
        if t[i][i] == 0.0:
            return [0.0], [0]
        half, power = math.frexp(t[i][i])
        s *= 2.0 * half
        e += power - 1
        if magnitude(s) >= 2.0:
            s *= 0.5
            e += 1
    return [-s if len(pairs) % 2 else s], [e]


def scaled(m, n, k, flat, swaps, told):
    t, pairs = factors(m, n, flat, swaps, told, True)
    return scaled_number(n, t, pairs)


def invertible(m, n, k, flat, swaps, told):
    factors(m, n, flat, swaps, told, True)
    return [int(told[1] == 0)],


def l_of(m, n, k, flat, swaps, told, out0):
    t, _ = factors(m, n, flat, swaps, told, False, (out0, m * min(m, n), False))
    least = min(m, n)
    return flat_of(m, least, [[1.0 if i == j else t[i][j] if i > j else 0.0 for j in range(least)] for i in range(m)]),


def u_of(m, n, k, flat, swaps, told, out0):
    t, _ = factors(m, n, flat, swaps, told, False, (out0, min(m, n) * n, False))
    least = min(m, n)
    return flat_of(least, n, [[t[i][j] if i <= j else 0.0 for j in range(n)] for i in range(least)]),


def triangular(run):
    def call(m, n, k, matrix, b, x0):
        size(n, 1), size(k, 1)
        length(matrix, n * n), length(b, n * k), length(x0, n * k)
        numbers(matrix), numbers(b)
        t = rows_of(n, n, matrix)
        zero_diagonal(n, t)
        return ran(run, n, k, t, b)
    return call


def ran(run, n, k, t, b):
    x = columns_of(n, k, b)
    for column in x:
        run(t, column)
    made = sum(x, [])
    overflow(made)
    return made,


def given_diagonal(run):
    def call(m, n, k, matrix, d, b, x0):
        size(n, 1), size(k, 1)
        length(matrix, n * n), length(b, n * k), length(x0, n * k)
        numbers(matrix), numbers(b), numbers(d)
        refuse(6, d[0] == 0.0)
        return ran(lambda t, column: run(t, column, d[0]), n, k, rows_of(n, n, matrix), b)
    return call


def corrected(t, b, d):
    """Row by row: what the rows above leave of entry r, divided and stored."""
    for r in range(len(b)):
        for i in range(r):
            b[r] += (-b[i]) * t[r][i]
        b[r] /= d


def permute(of_columns, backwards):
    def call(m, n, k, swaps, count, matrix):
        size(m, 1), size(n, 0)
        length(matrix, m * n), length(swaps, 128)
        pairs = swap_list(swaps, count[0], n if of_columns else m, 64)
        numbers(matrix)
        if backwards:
            pairs = pairs[::-1]
        if of_columns:
            lines = columns_of(m, n, matrix)
            swap(lines, pairs)
            return sum(lines, []),
        a = rows_of(m, n, matrix)
        swap(a, pairs)
        return flat_of(m, n, a),
    return call


def append(m, n, k, swaps, count, two):
    size(m, 1)
    length(swaps, 128)
    swap_list(swaps, count[0], 64, m)
    i, j = two
    refuse(4, i > 63)
    refuse(4, j > 63)
    if i == j:
        return count, swaps
    p = count[0]
    refuse(4, p == m)
    return [p + 1], swaps[:2 * p] + [i, j] + swaps[2 * p + 2:]


def order(loads, pads):
    """Of these pads, counted from 0, picks the greatest magnitude that is left, the lowest number first."""
    left = list(pads)
    out = []
    while left:
        best = left[0]
        for pad in left:
            if abs(loads[pad]) > abs(loads[best]):
                best = pad
        left.remove(best)
        out.append(best + 1)
    return out


def rank(m, n, k, loads, out0):
    size(n, 1)
    length(loads, n), length(out0, n)
    numbers(loads)
    listed = order(loads, [pad for pad in range(n) if m or loads[pad] != 0.0])
    out = listed + [0] * (n - len(listed))
    return [len(listed)], out


def read_panel(k, items):
    data = struct.pack(f'<{len(items)}Q', *items)[:k]
    refuse(8, k < 6)
    refuse(8, data[:5] != b'LXP\x01\x00')
    pads = data[5]
    size(pads, 1)
    refuse(3, k != 6 + 8 * pads * (pads + 1))
    values = [x for x, in struct.iter_unpack('<d', data[6:])]
    numbers(values)
    return pads, values


def factored_panel(pads, values):
    t = rows_of(pads, pads, values)
    pairs, _, _ = eliminate(pads, pads, t)
    overflow(flat_of(pads, pads, t))
    zero_diagonal(pads, t)
    return t, pairs


def panel_file(m, n, k, items):
    pads, values = read_panel(k, items)
    t, pairs = factored_panel(pads, values)
    loads = values[pads * pads:]
    solved(pads, t, pairs, [loads])
    overflow(loads)
    return f'pads {pads}\n' + ''.join(f'{pad} {text([loads[pad - 1]])}\n' for pad in order(loads, range(pads))),


def write_file(m, n, k, matrix, readings, items):
    size(n, 1)
    length(matrix, n * n), length(readings, n)
    data = bytearray(struct.pack(f'<{len(items)}Q', *items)[:k])
    count = 6 + 8 * n * (n + 1)
    refuse(3, k < count)
    numbers(matrix), numbers(readings)
    data[:6] = [76, 88, 80, 1, 0, n]
    for i, x in enumerate(matrix + readings):
        bits, = struct.unpack('<Q', struct.pack('<d', x))
        for j in range(8):
            data[6 + 8 * i + j] = bits >> 8 * j & 255
    return [count], data.hex()


def write_left(number, m, n, k, matrix, readings, items):
    return '-', struct.pack(f'<{len(items)}Q', *items)[:k].hex()


def remove(m, n, k, store, swaps, told):
    size(m, 1), size(n, 1)
    length(store, m * n), length(swaps, 128)
    pairs = swap_list(swaps, told[0], m, min(m, n))
    undone = [pair for pair in pairs[-1:] if pair[0] == n - 1]
    left = len(pairs) - len(undone)
    refuse(4, left > min(m, n - 1))
    for i, j in undone:
        refuse(4, j < i)
    numbers(store)
    a = rows_of(m, n, store)
    dead_number(m, n, a, told[1])
    own = int(n <= m and a[n - 1][n - 1] == 0.0)
    older = rows_of(m, n - 1, store)
    swap(older, undone)
    after = [0 if 2 * left <= at < 2 * len(pairs) else x for at, x in enumerate(swaps)]
    return [left], flat_of(m, n - 1, older) + [0.0] * m, after, [told[1] - own]


def search(m, n, k, column):
    row = pivot_row(column, m)
    return [row], [toss_up(column, m, row)]


def moves(m, n, k, items):
    pads, values = read_panel(k, items)
    refuse(1, m < 1)
    refuse(1, m > pads)
    t, pairs = factored_panel(pads, values)
    unit = [0.0] * pads
    unit[m - 1] = 1.0
    transposed_solved(pads, t, pairs, [unit])
    overflow(unit)
    return unit,


# ---- why: the numbers are looked at after each step or turn, those that it stored, in their order

def explain_elimination(m, n, a, place):
    def look(i, p):
        for j in range(i, n):
            for r in range(i + 1, m):
                finite(a[r][j]) or tell(7, place(i, j, r))
    return eliminate(m, n, a, look)[0]


def explain_passes(t, pairs, sides, place):
    def look(which, c, b, rows):
        for r in rows:
            finite(b[r]) or tell(7, place(which, c, r))
    for b in sides:
        swap(b, pairs)
    for c, b in enumerate(sides):
        unit_lower(t, b, look=lambda i: look(1, c, b, range(i + 1, len(b))))
    for c, b in enumerate(sides):
        upper(t, b, look=lambda i: look(2, c, b, [i, *range(i)]))


def explain_singular(t, place):
    for i in range(len(t)):
        t[i][i] == 0.0 and tell(6, place(i))


def from_0(*numbers):
    return list(numbers)


def why_factor(m, n, k, matrix, out0, swaps):
    size(m, 1), size(n, 0)
    length(matrix, m * n), length(out0, m * n), length(swaps, 128)
    numbers(matrix)
    explain_elimination(m, n, rows_of(m, n, matrix), from_0)
    return '-',


def why_solve(m, n, k, flat, swaps, told, b, x0):
    size(k, 1)
    t, pairs = factors(m, n, flat, swaps, told, True, (b, m * k, True), (x0, m * k, False))
    explain_singular(t, from_0)
    explain_passes(t, pairs, columns_of(n, k, b), from_0)
    return '-',


def why_panel_file(m, n, k, items):
    """A planner counts from 1."""
    pads, values = read_panel(k, items)
    t = rows_of(pads, pads, values)
    pairs = explain_elimination(pads, pads, t, lambda i, j, r: f'refused 7\nfactoring: step {i + 1}, column {j + 1}, row {r + 1}\n')
    explain_singular(t, lambda j: f'refused 6\ncolumn {j + 1}\n')
    names = ['', 'lower', 'upper']
    explain_passes(t, pairs, [values[pads * pads:]], lambda which, c, r: f'refused 7\nsolving: {names[which]} pass, column {c + 1}, row {r + 1}\n')
    return 'no reason\n',


def stiffness(m, n, k, items):
    pads, values = read_panel(k, items)
    t = rows_of(pads, pads, values)
    pairs = eliminate(pads, pads, t)[0]
    overflow(flat_of(pads, pads, t))
    return scaled_number(pads, t, pairs)


def four_pads(m, n, k, matrix, readings):
    numbers(matrix), numbers(readings)
    t, pairs = factored_panel(4, matrix)
    loads = readings[:]
    solved(4, t, pairs, [loads])
    overflow(loads)
    return flat_of(4, 4, t), [len(pairs)], [row for pair in pairs for row in pair], loads


def four_pads_file(m, n, k, items):
    data = struct.pack(f'<{len(items)}Q', *items)[:k]
    refuse(8, k < 6 or data[:5] != b'LXP\x01\x00')
    refuse(1, data[5] != 4)
    _, values = read_panel(k, items)
    return four_pads(m, n, k, values[:16], values[16:])


def four_left(number, *case):
    return [0.0] * 16, [0], [], [0.0] * 4


def exponent_of(x):
    bits, = struct.unpack('<Q', struct.pack('<d', x))
    return bits // 2 ** 52 % 2048


def share(file):
    """The pads that carry something, and the exponent that the band goes by."""
    data = file + bytes(-len(file) % 8)
    pads, values = read_panel(len(file), [x for x, in struct.iter_unpack('<Q', data)])
    t, pairs = factored_panel(pads, values)
    loads = values[pads * pads:]
    solved(pads, t, pairs, [loads])
    overflow(loads)
    least = t[0][0]
    for i in range(pads):
        if magnitude(t[i][i]) < magnitude(least):
            least = t[i][i]
    return len([x for x in loads if x != 0.0]), exponent_of(least)


def season(m, n, k, lengths, items):
    data = struct.pack(f'<{len(items)}Q', *items)
    if sum(lengths) > len(data):
        raise BadCase
    refuse(10, len(lengths) > 4000)
    accepted, refused, listed, bands = 0, [0] * 10, 0, [0] * 5
    at = 0
    for length in lengths:
        file = data[at:at + length]
        at += length
        try:
            pads, exponent = share(file)
        except Refused as e:
            refused[e.args[0]] += 1
            continue
        accepted += 1
        listed += pads
        bands[(exponent > 0) + (exponent > 511) + (exponent > 1022) + (exponent > 1534)] += 1
    return [accepted] + refused[1:] + [listed] + bands,


def season_left(number, m, n, k, lengths, items):
    """The season is full: the counts of those that filled it."""
    return season(m, n, k, lengths[:4000], items)


def last_left(number, *case):
    """The lent result is the last slice: +0.0 after an overflow, else as it was."""
    return [0.0] * len(case[-1]) if number == 7 else case[-1],


CALLS = {
    1: (factor, factor_left), 2: (add, add_left), 3: (solving(solved), last_left), 4: (inverse, last_left),
    5: (determinant, lambda *case: ('-',)), 6: (invertible, lambda *case: ('-',)), 7: (l_of, last_left), 8: (u_of, last_left),
    9: (triangular(lower), last_left), 10: (triangular(upper), last_left), 11: (given_diagonal(unit_lower), last_left),
    12: (triangular(transposed_lower), last_left), 13: (triangular(transposed_upper), last_left),
    14: (permute(False, False), last_left), 15: (permute(False, True), last_left),
    16: (permute(True, False), last_left), 17: (permute(True, True), last_left),
    18: (append, lambda number, m, n, k, swaps, count, two: (count, swaps)), 19: (rank, lambda number, *case: ('-', case[-1])),
    20: (panel_file, lambda number, *case: (f'refused {number}\n',)), 21: (write_file, write_left),
    22: (remove, lambda number, m, n, k, store, swaps, told: (told[:1], store, swaps, told[1:])),
    23: (search, None), 24: (given_diagonal(corrected), last_left), 25: (solving(transposed_solved), last_left),
    26: (moves, lambda *case: ('-',)), 27: (why_factor, lambda *case: ('-',)), 28: (why_solve, lambda *case: ('-',)),
    29: (why_panel_file, lambda number, *case: (f'refused {number}\n',)), 30: (scaled, lambda *case: '--'), 31: (stiffness, lambda *case: '--'),
    32: (four_pads, four_left), 33: (four_pads_file, four_left), 34: (season, season_left),
    35: (factor, factor_left),
}


def answer(op, *case):
    call, left = CALLS[op]
    try:
        number, parts = 0, call(*case)
    except Refused as e:
        number, *parts = e.args
        parts = parts or left(number, *case)
    return ' | '.join([str(number)] + [p.replace('\n', ' / ') if isinstance(p, str) else text(p) for p in parts])


def main():
    cases = Input(sys.stdin.buffer.read())
    try:
        while cases.at < len(cases.data):
            op, m, n, k = cases.take('<BQQQ')
            if op not in TAKES:
                raise BadCase
            print(answer(op, m, n, k, *[cases.slice(kind) for kind in TAKES[op]]))
    except BadCase:
        print('bad case')


if __name__ == '__main__':
    main()
