"""Numbers and matrices to try: each maker takes a source of chance and gives an array of doubles."""
import struct
from array import array


def from_bits(bits):
    return struct.unpack('<d', struct.pack('<Q', bits))[0]


SMALL = [float(i) for i in range(-4, 5)] + [0.0, 1.0, -1.0, -0.0]
SIGNED_ZEROS = [0.0, -0.0, 0.0, -0.0, 1.0, -1.0, 2.0, -0.5]
TIES = [1.0, -1.0, 3.0, -3.0, 3.0, -3.0]
EDGES = [s * x for s in (1.0, -1.0) for x in (
    2.0 ** -1074, 2.0 ** -1024, 2.0 ** -1023, 2.0 ** -1022, 2.0 ** -1022 - 2.0 ** -1074, 2.0 ** -600, 2.0 ** -511, 2.0 ** 511,
    2.0 ** 1022, 2.0 ** 1023, 1.75 * 2.0 ** 1023, (2.0 - 2.0 ** -52) * 2.0 ** 1023, 1.0, 1.0 + 2.0 ** -52, 1.0 - 2.0 ** -53, 2.0 ** -1000,
    2.0 ** 100, 0.1, 1.0 / 3.0)]
NOT_FINITE = [from_bits(b) for b in (
    0x7ff0000000000000, 0xfff0000000000000, 0x7ff8000000000000, 0xfff8000000000000, 0x7ff0000000000001, 0xffffffffffffffff)]


def bits_with(r, count, exponents):
    """Random sign and significand; the biased exponent from the range of that pair."""
    low, high = exponents
    raw = array('Q', r.getrandbits(64 * count).to_bytes(8 * count, 'little'))
    chosen = r.choices(range(low, high + 1), k=count)
    return array('d', array('Q', [x & 0x800fffffffffffff | e << 52 for x, e in zip(raw, chosen)]).tobytes())


def unit(r, count):
    return array('d', [2.0 * r.random() - 1.0 for _ in range(count)])


def small(r, count):
    return array('d', r.choices(SMALL, k=count))


def signed_zeros(r, count):
    return array('d', r.choices(SIGNED_ZEROS, k=count))


def ties(r, count):
    return array('d', r.choices(TIES, k=count))


def edges(r, count):
    return array('d', r.choices(EDGES, k=count))


def powers(r, count):
    return array('d', [r.choice((1.0, -1.0)) * 2.0 ** r.randint(-1074, 1023) for _ in range(count)])


def near_powers(r, count):
    return array('d', [r.choice((1.0, -1.0)) * 2.0 ** r.randint(-9, 9) for _ in range(count)])


def modest(r, count):
    return bits_with(r, count, (1003, 1043))


def subnormal(r, count):
    """Of any number of leading zeros: the reciprocals of the smaller ones overflow."""
    few = r.choice((0, 0, 1, 2, 20))
    return array('d', [r.choice((1.0, -1.0)) * from_bits(r.getrandbits(52) >> few) for _ in range(count)])


def tiny(r, count):
    return bits_with(r, count, (0, 60))


def huge(r, count):
    return bits_with(r, count, r.choice(((2040, 2046), (2046, 2046))))


def any_bits(r, count):
    return bits_with(r, count, (0, 2046))


def near_two(r, count):
    """Significands near 1, near the root of 2 and near 2, so that products of them round to 2 or just not."""
    near = (0x10000000000000, 0x16a09e667f3bcd, 0x1fffffffffffff)
    return array('d', [r.choice((1.0, -1.0)) * min(max(r.choice(near) + r.randint(-3, 3), near[0]), near[2]) * 2.0 ** r.randint(-800, 800)
                       for _ in range(count)])


def mixed(r, count):
    return array('d', [r.choices(KINDS, WEIGHTS)[0](r, 1)[0] for _ in range(count)])


KINDS = [unit, small, signed_zeros, ties, edges, powers, near_powers, modest, subnormal, tiny, huge, any_bits, mixed]
WEIGHTS = [6, 6, 3, 4, 2, 2, 4, 4, 2, 1, 3, 2, 0]
ALL_WEIGHTS = WEIGHTS[:-1] + [2]


def kind(r):
    return r.choices(KINDS, ALL_WEIGHTS)[0]


def numbers(r, count):
    return kind(r)(r, count)


def anything(r, count):
    """What a lent result slice holds before the call: any numbers, not finite ones too."""
    if r.random() < 0.5:
        return array('d', [r.choice((0.0, 7.5, -0.0, 1e300))]) * count
    made = numbers(r, count)
    if count and r.random() < 0.3:
        made[r.randrange(count)] = r.choice(NOT_FINITE)
    return made


# ---- matrices, column after column: numbers of one kind, then one of these changes

def as_made(r, m, n, a):
    pass


def column_repeated(r, m, n, a):
    i, j = r.randrange(n), r.randrange(n)
    a[i * m:i * m + m] = a[j * m:j * m + m]


def column_multiplied(r, m, n, a):
    i, j, c = r.randrange(n), r.randrange(n), r.choice((-1.0, 2.0, -0.5, 3.0))
    a[i * m:i * m + m] = array('d', [min(max(c * x, -1e308), 1e308) for x in a[j * m:j * m + m]])


def column_of_zeros(r, m, n, a):
    i = r.randrange(n)
    a[i * m:i * m + m] = array('d', r.choices((0.0, -0.0), k=m))


def row_of_zeros(r, m, n, a):
    i = r.randrange(m)
    for j in range(n):
        a[j * m + i] = r.choice((0.0, -0.0))


def rows_equal(r, m, n, a):
    i, k = r.randrange(m), r.randrange(m)
    sign = r.choice((1.0, -1.0))
    for j in range(n):
        a[j * m + i] = sign * a[j * m + k]


def equal_magnitudes(r, m, n, a):
    x = a[0]
    for i in range(m * n):
        a[i] = x if r.random() < 0.5 else -x


def first_zero(r, m, n, a):
    """A zero in the first rows of the diagonal: the pivot stands lower down."""
    for i in range(min(m, n)):
        if r.random() < 0.6:
            a[i * m + i] = r.choice((0.0, -0.0))


def lower_left_zero(r, m, n, a):
    for j in range(n):
        for i in range(j + 1, m):
            a[j * m + i] = r.choice((0.0, -0.0))


def of_a_permutation(r, m, n, a):
    at = list(range(m))
    r.shuffle(at)
    for j in range(n):
        for i in range(m):
            if i != at[j % m]:
                a[j * m + i] = 0.0


CHANGES = [as_made, column_repeated, column_multiplied, column_of_zeros, row_of_zeros, rows_equal, equal_magnitudes, first_zero,
           lower_left_zero, of_a_permutation]
CHANGE_WEIGHTS = [12, 2, 2, 1, 1, 2, 1, 2, 1, 1]


def matrix(r, m, n):
    a = numbers(r, m * n)
    if m * n:
        r.choices(CHANGES, CHANGE_WEIGHTS)[0](r, m, n, a)
    return a


def without_zero_diagonal(r, n, a):
    """Zeros on the diagonal of an n by n matrix replaced."""
    for i in range(0, n * n, n + 1):
        if a[i] == 0.0:
            a[i] = r.choice((1.0, -1.0, 2.0, 0.5, 3.0))
    return a
