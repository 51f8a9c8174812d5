"""Matrices and right-hand sides that overflow at planted places, and singular ones: each maker takes a source of chance and tries a few
times until what it planted is met. Where no overflow can be (no row below, no column) it gives what it has."""
from array import array

from . import floats
from .rules import built_up, dead_columns, first_overflow, stored_in_factoring, stored_in_solve

TRIES = 6

CALM = [1.0, -1.0, 1.0, -1.0, 2.0, -2.0, 0.5, -0.5, 0.0]        # with ties
PIVOTS = [8.0, -8.0, 16.0, -11.0]                               # greater than any calm number


def calm(r, count):
    return array('d', r.choices(CALM, k=count))


def huge(r, count):
    """Of the two greatest exponents: a product by one and a sum may pass the largest number."""
    return floats.bits_with(r, count, (2045, 2046))


def until(wanted, make):
    """What `make` gives, once it is wanted, or the last one that was tried."""
    for _ in range(TRIES):
        made = make()
        if wanted(*made):
            break
    return made


def shuffled(r, m, n, columns):
    """The rows in another order, three times in four: the steps have to exchange them."""
    rows = list(range(m))
    if r.random() < 0.75:
        r.shuffle(rows)
    return array('d', [columns[j][i] for j in range(n) for i in rows])


# ---- factoring

def overflowing_matrix(r, m, n):
    """One whose elimination overflows: in a step that is chosen, in its multipliers or in an update of a column that is chosen."""
    if m < 2 or n < 1:
        return floats.matrix(r, m, n)
    return until(lambda a: first_overflow(stored_in_factoring(m, n, a)), lambda: [planted_matrix(r, m, n)])[0]


def planted_matrix(r, m, n):
    if r.random() < 0.15:
        return r.choice((floats.huge, floats.subnormal, floats.edges, floats.any_bits))(r, m * n)
    last = min(m - 1, n)
    step = r.choice((0, r.randrange(last), r.randrange(last)))
    columns = calm_steps(r, m, n, step)
    if n > step + 1 and r.random() < 0.75:
        plant_update(r, m, n, step, columns)
    else:
        plant_multipliers(r, m, step, columns)
    return shuffled(r, m, n, columns)


def calm_steps(r, m, n, step):
    """Calm numbers, and a pivot on the diagonal of each column before that of the step; now and then one of them is dead."""
    columns = [calm(r, m) for _ in range(n)]
    for i in range(step):
        columns[i][i] = r.choice(PIVOTS)
        if r.random() < 0.08:
            columns[i] = array('d', r.choices((0.0, -0.0), k=m))
    return columns


def plant_multipliers(r, m, step, columns):
    """In the step's column a zero for each step before, and below them numbers whose reciprocals overflow."""
    columns[step][:] = array('d', [0.0] * step + [r.choice((1.0, -1.0)) * floats.from_bits(r.getrandbits(49)) for _ in range(m - step)])
    if r.random() < 0.5:
        columns[step][r.randrange(step, m)] = r.choice((0.0, -0.0))
    for column in columns[step + 1:]:
        if r.random() < 0.3:
            column[:] = floats.numbers(r, m)


def plant_update(r, m, n, step, columns):
    """Multipliers of the step that are about one, and from a column to its right on numbers near the top of the format."""
    if r.random() < 0.7:
        columns[step][step:] = array('d', r.choices((1.0, -1.0, 1.0, -1.0, 0.5), k=m - step))
    for column in columns[r.randrange(step + 1, n):]:
        column[step:] = huge(r, m - step)


# ---- solving

def overflowing_solve(r, n, k, list_):
    """Factors and right-hand columns whose solve by that list overflows, in a place of either pass that is planted, or in several."""
    return until(lambda factors, b: first_overflow(stored_in_solve(n, k, factors, list_, b)), lambda: planted_solve(r, n, k))


def planted_solve(r, n, k):
    factors, b = calm(r, n * n), calm(r, n * k)
    for i in range(n):
        factors[i * n + i] = r.choice((1.0, -1.0, 2.0, 0.5))
    for _ in range(r.choice((1, 1, 2, 3))):
        side = r.randrange(k) * n
        r.choice(PLANTS if n > 1 else PLANTS[:1])(r, n, factors, b, side)
    return factors, b


def plant_quotient(r, n, factors, b, side):
    factors[r.randrange(n) * (n + 1)] = r.choice((1.0, -1.0)) * 2.0 ** r.choice((-1074, -1030, -1020, -1000))
    b[side:side + n] = large(r, n)


def plant_upper_update(r, n, factors, b, side):
    """In one row above that of a turn, or in several."""
    i = r.randrange(1, n)
    for row in r.choices(range(i), k=r.choice((1, 2, 3))):
        factors[i * n + row] = r.choice((1.0, -1.0)) * 2.0 ** r.randint(950, 1023)
    b[side:side + n] = large(r, n)


def plant_lower_update(r, n, factors, b, side):
    """In one row below that of a turn, or in several."""
    i = r.randrange(n - 1)
    for row in r.choices(range(i + 1, n), k=r.choice((1, 2, 3))):
        factors[i * n + row] = r.choice((1.0, -1.0)) * 2.0 ** r.randint(950, 1023)
    b[side:side + n] = large(r, n)


def plant_sum(r, n, factors, b, side):
    """By multipliers of one, from right-hand numbers near the top of the format."""
    b[side:side + n] = huge(r, n)


PLANTS = [plant_quotient, plant_upper_update, plant_lower_update, plant_sum]


def large(r, count):
    return array('d', [x * 2.0 ** r.randint(80, 120) for x in r.choices(CALM[:-1], k=count)])


def singular_factors(r, n, numbers=floats.numbers):
    """Any factors with some dead columns, the lowest of them most often not column 0."""
    factors = floats.without_zero_diagonal(r, n, numbers(r, n * n))
    lowest = r.randrange(n)
    for i in sorted({lowest, *r.choices(range(lowest, n), k=r.randint(0, 3))}):
        factors[i * n + i] = r.choice((0.0, -0.0))
    return factors


# ---- panel files: the matrix and the readings

def overflowing_crossing(r, n):
    """One whose matrix is factored and whose solve overflows."""
    return until(lambda matrix, readings: solve_overflows(n, matrix, readings), lambda: planted_crossing(r, n))


def solve_overflows(n, matrix, readings):
    if first_overflow(stored_in_factoring(n, n, matrix)):
        return False
    factors, list_, _ = built_up(n, n, matrix)
    return not dead_columns(n, n, factors) and first_overflow(stored_in_solve(n, 1, factors, list_, readings))


def planted_crossing(r, n):
    """Readings near the top of the format; or a triangle, which is its own upper factor, with a place planted in it."""
    if n > 1 and r.random() < 0.35:
        return calm(r, n * n), huge(r, n)
    factors, readings = planted_solve(r, n, 1)
    return triangle(r, n, factors, readings)


def singular_crossing(r, n):
    """A triangle with some dead columns, the lowest of them most often not column 0."""
    return triangle(r, n, singular_factors(r, n, calm), calm(r, n))


def triangle(r, n, factors, readings):
    """The upper factor and the readings as a matrix and its readings, three times in four with the rows in another order."""
    columns = [factors[j * n:j * n + j + 1] + array('d', [0.0] * (n - 1 - j)) for j in range(n)]
    both = shuffled(r, n, n + 1, columns + [readings])
    return both[:n * n], both[n * n:]
