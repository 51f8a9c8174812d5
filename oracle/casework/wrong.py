"""Wrong programs that a list of cases must show up: edits of model.py, each a reasonable-looking error. (what, old text, new text)"""

SKIP = """        if a[p][i] == 0.0:
            dead += 1
            continue
"""

SOLVING = """        t, pairs = factors(m, n, flat, swaps, told, True, (b, m * k, True), (x0, m * k, False))
"""

# of the explaining calls: the order in which a step is looked at, its function, the lowest dead column, and the two passes
ORDER = """        for j in range(i, n):
            for r in range(i + 1, m):
                finite(a[r][j]) or"""

LOOK = """    def look(i, p):
""" + ORDER + """ tell(7, place(i, j, r))
    return eliminate(m, n, a, look)[0]
"""

LAST = LOOK.replace('tell(7, place(i, j, r))', 'last.append(place(i, j, r))').replace(
    '    return eliminate(m, n, a, look)[0]\n',
    '    last = []\n    pairs = eliminate(m, n, a, look)[0]\n    last and tell(7, last[-1])\n    return pairs\n')

SINGULAR = """    for i in range(len(t)):
        t[i][i] == 0.0 and tell(6, place(i))"""

PASSES = """    for c, b in enumerate(sides):
        unit_lower(t, b, look=lambda i: look(1, c, b, range(i + 1, len(b))))
    for c, b in enumerate(sides):
        upper(t, b, look=lambda i: look(2, c, b, [i, *range(i)]))
"""

WRONG = [
    ('divides by the pivot', 'a[r][i] *= 1.0 / a[i][i]', 'a[r][i] /= a[i][i]'),
    ('divides by the pivot when adding', 'a[r][n] *= 1.0 / a[n][n]', 'a[r][n] /= a[n][n]'),
    ('takes the last of equal magnitudes', 'if magnitude(column[best]) < magnitude(column[r]):',
     'if magnitude(column[best]) <= magnitude(column[r]):'),
    ('compares signed numbers', 'if magnitude(column[best]) < magnitude(column[r]):', 'if column[best] < column[r]:'),
    ("runs a skipped column's step", SKIP,
     SKIP.replace('continue', '\n            '.join(['for r in range(i + 1, m):', '    for j in range(i + 1, n):',
                                                     '        a[r][j] = (-a[i][j]) * a[r][i] + a[r][j]', 'continue']))),
    ("runs a skipped column's step when adding", 'if a[i][i] == 0.0:\n            continue', 'pass'),
    ('refuses a reciprocal that no row uses', '        for r in range(i + 1, m):\n            a[r][i] *=',
     '        refuse(7, not finite(1.0 / a[i][i]))\n        for r in range(i + 1, m):\n            a[r][i] *='),
    ('fuses product and sum', 'a[r][j] = (-a[i][j]) * a[r][i] + a[r][j]', 'a[r][j] = fused(-a[i][j], a[r][i], a[r][j])'),
    ('swaps only from the pivot column on', '            a[i], a[p] = a[p], a[i]\n',
     '            a[i][i:], a[p][i:] = a[p][i:], a[i][i:]\n'),
    ('stops at a zero column', SKIP, SKIP.replace('continue', 'break')),
    ('applies the list backwards in a solve', '        swap(column, pairs)\n        unit_lower',
     '        swap(column, pairs[::-1])\n        unit_lower'),
    ('solves upper by reciprocals', 'for i in reversed(range(len(b))):\n        b[i] /= t[i][i]',
     'for i in reversed(range(len(b))):\n        b[i] *= 1.0 / t[i][i]'),
    ('solves lower by reciprocals', 'for i in range(len(b)):\n        b[i] /= t[i][i]',
     'for i in range(len(b)):\n        b[i] *= 1.0 / t[i][i]'),
    ('sums dot in one run', 'whole = len(x) // 8 * 8', 'whole = 0'),
    ('sums the eight lanes in a row', 'total += sums[lane] + sums[lane + 4]', 'total = total + sums[lane] + sums[lane + 4]'),
    ('stores the given quotient', 'c = b[i] / d\n', 'c = b[i] = b[i] / d\n'),
    ('forms the last given quotient', '        if i + 1 < len(b):\n            c = b[i] / d\n',
     '        if True:\n            c = b[i] / d\n            refuse(7, not finite(c))\n'),
    ('tests the diagonal of the matrix where one is given', 'refuse(6, d[0] == 0.0)',
     'zero_diagonal(n, rows_of(n, n, matrix)), refuse(7, d[0] == 0.0)'),
    ('leaves the corrected entries undivided', '        b[r] /= d\n', '        pass\n'),
    ('drives the corrected updates by undivided entries', 'b[r] += (-b[i]) * t[r][i]\n        b[r] /= d',
     'b[r] += (-b[i]) * t[r][i]\n    for r in range(len(b)):\n        b[r] /= d'),
    ('multiplies the corrected entries by a reciprocal', '        b[r] /= d\n', '        b[r] *= 1.0 / d\n'),
    ('forgets the sign of the swaps', 'product *= -1.0 if len(pairs) % 2 else 1.0', 'pass'),
    ('takes invertible from the determinant', '    factors(m, n, flat, swaps, told, True)\n    return [int(told[1] == 0)],',
     "    t, _ = factors(m, n, flat, swaps, told, True)\n    return [int(__import__('math').prod(t[i][i] for i in range(n)) != 0.0)],"),
    ('takes -0.0 for no zero', 'refuse(6, t[i][i] == 0.0)', "refuse(6 if text([t[i][i]])[0] == '0' else 7, t[i][i] == 0.0)"),
    ('tests lengths before the square', "    refuse(2, square and m != n)\n    length(flat, m * n), length(swaps, 128)\n",
     "    length(flat, m * n), length(swaps, 128)\n    refuse(2, square and m != n)\n"),
    ('tests numbers before the list', '    pairs = swap_list(swaps, told[0], m, min(m, n))\n    numbers(flat)\n',
     '    numbers(flat)\n    pairs = swap_list(swaps, told[0], m, min(m, n))\n'),
    ('tests the diagonal before the numbers',
     '        numbers(matrix), numbers(b)\n        t = rows_of(n, n, matrix)\n        zero_diagonal(n, t)\n',
     '        t = rows_of(n, n, matrix)\n        zero_diagonal(n, t)\n        numbers(matrix), numbers(b)\n'),
    ('allows 64 pairs on factors', 'pairs = swap_list(swaps, told[0], m, min(m, n))\n    numbers(flat)',
     'pairs = swap_list(swaps, told[0], m, 64)\n    numbers(flat)'),
    ('allows min(m, n) pairs for permuting', 'n if of_columns else m, 64)', 'n if of_columns else m, min(m, n))'),
    ('allows a pair of equal numbers', '        refuse(4, i == j)\n', ''),
    ('tests the row count for columns', 'n if of_columns else m, 64)', 'm, 64)'),
    ('takes 2^63 pairs for none', '    refuse(4, count > most)\n', '    count %= 2 ** 63\n    refuse(4, count > most)\n'),
    ('takes sizes modulo 2^32', '    refuse(1, x < least or x > most)',
     '    refuse(1, x % 2 ** 32 < least or x % 2 ** 32 > most)\n    refuse(3, x >= 2 ** 32)'),
    ('takes n of 64 when adding', 'size(m, 1), size(n, 0, 63)', 'size(m, 1), size(n, 0, 64)'),
    ('reads the slot when adding', 'numbers(store[:m * n]), numbers(column)', 'numbers(store), numbers(column)'),
    ('clears the store when adding overflows', 'store = store[:m * n] + [0.0] * m', 'store = [0.0] * len(store)'),
    ('leaves the slot when adding overflows', '        store = store[:m * n] + [0.0] * m\n', '        pass\n'),
    ('clears what follows the last pair when adding', '    after = list(swaps)\n', '    after = [0] * 128\n'),
    ('leaves the swap store when factoring', 'used + [0] * (128 - len(used))', 'used + swaps[len(used):]'),
    ('leaves the swap store when factoring overflows', 'return [0], [0.0] * len(out0), [0] * 128, [0], [0]',
     'return [0], [0.0] * len(out0), swaps, [0], [0]'),
    ('leaves the result after an overflow', 'return [0.0] * len(case[-1]) if number == 7 else case[-1],', 'return case[-1],'),
    ('clears the result after any refusal', 'return [0.0] * len(case[-1]) if number == 7 else case[-1],',
     'return [0 if isinstance(x, int) else 0.0 for x in case[-1]],'),
    ('tests the result slice for finite numbers', "    length(matrix, m * n), length(out0, m * n), length(swaps, 128)\n    numbers(matrix)\n",
     "    length(matrix, m * n), length(out0, m * n), length(swaps, 128)\n    numbers(matrix), numbers(out0)\n"),
    ('keeps the diagonal in L', '1.0 if i == j else t[i][j] if i > j else 0.0', 't[i][j] if i >= j else 0.0'),
    ('permutes forward in reverse', '        if backwards:\n            pairs = pairs[::-1]\n', ''),
    ('adds nothing for (100, 100)', '    refuse(4, i > 63)\n    refuse(4, j > 63)\n', '    refuse(4, i != j and (i > 63 or j > 63))\n'),
    ('refuses an equal pair on a full list', '    if i == j:\n        return count, swaps\n    p = count[0]\n    refuse(4, p == m)\n',
     '    p = count[0]\n    refuse(4, p == m)\n    if i == j:\n        return count, swaps\n'),
    ('ranks by signed loads', 'if abs(loads[pad]) > abs(loads[best]):', 'if loads[pad] > loads[best]:'),
    ('ranks equal loads by the higher number', 'if abs(loads[pad]) > abs(loads[best]):', 'if abs(loads[pad]) >= abs(loads[best]):'),
    ('lists idle pads at the end', 'out = listed + [0] * (n - len(listed))', 'out = order(loads, range(n))'),
    ('lists a pad whose load is -0.0', 'if m or loads[pad] != 0.0]', "if m or text([loads[pad]]) != '0' * 16]"),
    ('counts all pads', 'return [len(listed)], out', 'return [n], out'),
    ('leaves the slots after the listed pads', 'out = listed + [0] * (n - len(listed))', 'out = listed + out0[len(listed):]'),
    ('lists all pads, asked or not', 'if m or loads[pad] != 0.0]', ']'),
    ('leaves idle pads off, asked for all', 'if m or loads[pad] != 0.0]', 'if loads[pad] != 0.0]'),
    ('lists all pads for m = 1 alone', 'if m or loads[pad] != 0.0]', 'if m == 1 or loads[pad] != 0.0]'),
    ("leaves idle pads off the program's answer", 'order(loads, range(pads))', 'order(loads, [pad for pad in range(pads) if loads[pad] != 0.0])'),
    ('takes a longer file', 'refuse(3, k != 6', 'refuse(3, k < 6'),
    ('tests one byte of the version', "data[:5] != b'LXP\\x01\\x00'", "data[:4] != b'LXP\\x01'"),
    ("tests the diagonal before factoring's overflow", '    overflow(flat_of(pads, pads, t))\n    zero_diagonal(pads, t)\n',
     '    zero_diagonal(pads, t)\n    overflow(flat_of(pads, pads, t))\n'),
    ("forgets the solve's overflow", '    overflow(loads)\n', ''),
    ('writes the greatest byte first', 'data[6 + 8 * i + j]', 'data[13 + 8 * i - j]'),
    ('writes the version the other way round', '[76, 88, 80, 1, 0, n]', '[76, 88, 80, 0, 1, n]'),
    ('writes the readings before the matrix', 'enumerate(matrix + readings)', 'enumerate(readings + matrix)'),
    ('writes +0.0 for -0.0', "struct.pack('<d', x))\n        for j", "struct.pack('<d', x + 0.0))\n        for j"),
    ('writes into a slice one byte too short', 'refuse(3, k < count)', 'refuse(3, k + 1 < count)\n    data += bytes(1)'),
    ('refuses a slice that just fits', 'refuse(3, k < count)', 'refuse(3, k <= count)'),
    ('writes readings that are not finite', "numbers(matrix), numbers(readings)\n    data", 'numbers(matrix)\n    data'),
    ('tests the numbers to write before the slice', "    refuse(3, k < count)\n    numbers(matrix), numbers(readings)\n",
     "    numbers(matrix), numbers(readings)\n    refuse(3, k < count)\n"),
    ('clears what follows the written file', '    return [count], data.hex()', '    data[count:] = bytes(len(data) - count)\n    return [count], data.hex()'),
    ('leaves the rows swapped when removing', '    swap(older, undone)\n', ''),
    ('undoes any last pair when removing', 'undone = [pair for pair in pairs[-1:] if pair[0] == n - 1]', 'undone = pairs[-1:]'),
    ("undoes any pair of the column's when removing", 'for pair in pairs[-1:] if pair[0] == n - 1', 'for pair in pairs if pair[0] == n - 1'),
    ('undoes a pair that ends with the column when removing', 'if pair[0] == n - 1]', 'if n - 1 in pair]'),
    ('leaves the pair in the store when removing', '0 if 2 * left <= at < 2 * len(pairs) else x', 'x'),
    ('clears what follows the last pair when removing', '0 if 2 * left <= at < 2 * len(pairs) else x', '0 if 2 * left <= at else x'),
    ('leaves the slot when removing', 'flat_of(m, n - 1, older) + [0.0] * m, after', 'flat_of(m, n - 1, older) + store[m * (n - 1):], after'),
    ('lets too many pairs remain', '    refuse(4, left > min(m, n - 1))\n', ''),
    ('counts the pair that goes among those that remain', 'refuse(4, left > min(m, n - 1))', 'refuse(4, len(pairs) > min(m, n - 1))'),
    ('undoes a pair with its second number below', '        refuse(4, j < i)\n', '        pass\n'),
    ('does not test the column that it removes', '    numbers(store)\n    a', '    numbers(store[:m * n - m])\n    a'),
    ('takes no columns when removing', 'size(m, 1), size(n, 1)\n    length(store, m * n), length(swaps, 128)',
     'size(m, 1), size(n, 0)\n    length(store, m * n), length(swaps, 128)'),
    ('counts a toss-up of zeros', 'if best < len(column) and column[best] != 0.0:', 'if best < len(column):'),
    ('asks for the same sign in a toss-up', 'magnitude(column[r]) == magnitude(column[best])', 'column[r] == column[best]'),
    ('looks for a toss-up in the rows above', 'for r in range(i, len(column)):', 'for r in range(len(column)):'),
    ('looks for a toss-up only above the pivot', 'for r in range(i, len(column)):', 'for r in range(i, best):'),
    ('looks for a toss-up only in the first row', 'for r in range(i, len(column)):', 'for r in range(i, min(i + 1, len(column))):'),
    ('takes equal rows that are not the pivot for a toss-up', 'if r != best and magnitude(column[r]) == magnitude(column[best]):',
     'if magnitude(column[r]) in [magnitude(x) for x in column[i:r]]:'),
    ('looks for toss-ups in the matrix as it was', 'tosses += toss_up(column, i, p)',
     'first = [row[:] for row in a] if i == 0 else first\n        was = [row[i] for row in first]\n'
     '        tosses += toss_up(was, i, pivot_row(was, i))'),
    ('counts every row of a toss-up', 'tosses += toss_up(column, i, p)',
     'tosses += sum(magnitude(x) == magnitude(a[p][i]) for x in column[i:]) - 1 if a[p][i] != 0.0 else 0'),
    ('says only whether there was a toss-up', 'tosses += toss_up(column, i, p)', 'tosses = max(tosses, toss_up(column, i, p))'),
    ("forgets the first column's toss-up", 'tosses += toss_up(column, i, p)', 'tosses += i > 0 and toss_up(column, i, p)'),
    ('never says toss-up when adding', '        tosses = toss_up(new, n, p)\n', ''),
    ('looks for the toss-up of the raw column', 'tosses = toss_up(new, n, p)', 'tosses = toss_up(column, n, pivot_row(column, n))'),
    ('counts toss-ups of an overflow', 'return [0], [0.0] * len(out0), [0] * 128, [0], [0]',
     'return [0], [0.0] * len(out0), [0] * 128, [eliminate(m, n, rows_of(m, n, matrix))[1]], [0]'),
    ('counts the toss-up of an overflow when adding', '        store = store[:m * n] + [0.0] * m\n    return',
     '        tosses = add_column(m, n, rows_of(m, n, store), swap_list(swaps, told[0], m, min(m, n)), column)[1]\n'
     '        return told[:1], store[:m * n] + [0.0] * m, swaps, [tosses], told[1:]\n    return'),
    ('takes NaNs for equal', 'magnitude(column[r]) == magnitude(column[best])', 'text([magnitude(column[r])]) == text([magnitude(column[best])])'),
    ('takes a NaN for the greatest', 'if magnitude(column[best]) < magnitude(column[r]):', 'if not magnitude(column[best]) >= magnitude(column[r]):'),
    ('stays within the column', '    row = pivot_row(column, m)\n', '    row = pivot_row(column, min(m, max(1, len(column)) - 1))\n'),
    ('applies the list in order in a transposed solve', 'swap(column, reversed(pairs))', 'swap(column, pairs)'),
    ('applies the list before a transposed solve',
     '        transposed_upper(t, column)\n        transposed_unit_lower(t, column)\n        swap(column, reversed(pairs))\n',
     '        swap(column, pairs)\n        transposed_upper(t, column)\n        transposed_unit_lower(t, column)\n'),
    ('divides by the diagonal in the transposed unit pass', '        transposed_unit_lower(t, column)\n', '        transposed_lower(t, column)\n'),
    ('takes the transposed passes the other way round', '        transposed_upper(t, column)\n        transposed_unit_lower(t, column)\n',
     '        transposed_unit_lower(t, column)\n        transposed_upper(t, column)\n'),
    ('solves the plain system in a transposed solve', '        transposed_upper(t, column)\n        transposed_unit_lower(t, column)\n',
     '        unit_lower(t, column)\n        upper(t, column)\n'),
    ('updates instead of summing in the transposed unit pass', 'b[i] -= dot([row[i] for row in t[i + 1:]], b[i + 1:])',
     'for r in range(i + 1, len(b)):\n            b[i] -= t[r][i] * b[r]'),
    ('sums the transposed unit pass in one run', 'b[i] -= dot([row[i] for row in t[i + 1:]], b[i + 1:])',
     'b[i] -= sum((t[r][i] * b[r] for r in range(i + 1, len(b))), 0.0)'),
    ('counts the pads that move from 0', 'unit[m - 1] = 1.0', 'unit[m % pads] = 1.0'),
    ('takes pad 0 for the last', '    refuse(1, m < 1)\n', ''),
    ('takes pads past the last one', '    refuse(1, m > pads)\n', '    m = min(m, pads)\n'),
    ('tests the pad number before the file', '    pads, values = read_panel(k, items)\n    refuse(1, m < 1)\n',
     '    refuse(1, m < 1)\n    pads, values = read_panel(k, items)\n'),
    ('tests the pad number after factoring', '    refuse(1, m > pads)\n    t, pairs = factored_panel(pads, values)\n',
     '    t, pairs = factored_panel(pads, values)\n    refuse(1, m > pads)\n'),
    ('solves the plain system for moves', 'transposed_solved(pads, t, pairs, [unit])', 'solved(pads, t, pairs, [unit])'),
    ("moves the pad by the file's readings", 'transposed_solved(pads, t, pairs, [unit])',
     'unit = values[pads * pads:]\n    transposed_solved(pads, t, pairs, [unit])'),
    ('refuses moves where the loads overflow', '    unit = [0.0] * pads\n',
     '    loads = values[pads * pads:]\n    solved(pads, t, pairs, [loads]), overflow(loads)\n    unit = [0.0] * pads\n'),
    ('forgets the overflow of moves', '    overflow(unit)\n', ''),
    ('never looks at the number of dead columns', '    refuse(9, told != dead)\n', ''),
    ('takes a number of dead columns that is too large', 'refuse(9, told != dead)', 'refuse(9, told < dead)'),
    ('takes a number of dead columns that is too small', 'refuse(9, told != dead)', 'refuse(9, told > dead)'),
    ('takes any number of dead columns for some', 'refuse(9, told != dead)', 'refuse(9, (told == 0) != (dead == 0))'),
    ('compares the number of dead columns modulo 2^32', 'refuse(9, told != dead)', 'refuse(9, told % 2 ** 32 != dead)'),
    ('takes +0.0 alone for dead', "if t[i][i] == 0.0:\n            dead += 1", "if text([t[i][i]]) == text([0.0]):\n            dead += 1"),
    ('compares the dead columns of all but the last diagonal', '    for i in range(min(m, n)):\n        if t[i][i] == 0.0:',
     '    for i in range(min(m, n) - 1):\n        if t[i][i] == 0.0:'),
    ('compares the dead columns past the last row', '    for i in range(min(m, n)):\n        if t[i][i] == 0.0:',
     '    for i in range(n):\n        if t[min(i, m - 1)][i] == 0.0:'),
    ('counts the last diagonal only where a row is below', 'a[p][i] == 0.0:\n            dead += 1', 'a[p][i] == 0.0:\n            dead += i + 1 < m'),
    ('counts +0.0 alone when factoring', 'a[p][i] == 0.0:\n            dead += 1', "a[p][i] == 0.0:\n            dead += text([a[i][i]]) == text([0.0])"),
    ('says only whether a column is dead', 'a[p][i] == 0.0:\n            dead += 1', 'a[p][i] == 0.0:\n            dead = 1'),
    ('counts columns past the last row as dead', '    return pairs, tosses, dead\n\n\ndef add_column',
     '    return pairs, tosses, dead + max(0, n - m)\n\n\ndef add_column'),
    ('counts the dead columns of an overflow', 'return [0], [0.0] * len(out0), [0] * 128, [0], [0]',
     'return [0], [0.0] * len(out0), [0] * 128, [0], [min(m, n)]'),
    ('tests the number of dead columns before the numbers',
     '    numbers(flat)\n    for items, _, is_input in others:\n        if is_input:\n            numbers(items)\n    t = rows_of(m, n, flat)\n'
     '    dead_number(m, n, t, told[1])\n',
     '    t = rows_of(m, n, flat)\n    dead_number(m, n, t, told[1])\n    numbers(flat)\n'
     '    for items, _, is_input in others:\n        if is_input:\n            numbers(items)\n'),
    ('tests the number of dead columns before the right-hand sides',
     '    for items, _, is_input in others:\n        if is_input:\n            numbers(items)\n    t = rows_of(m, n, flat)\n'
     '    dead_number(m, n, t, told[1])\n',
     '    t = rows_of(m, n, flat)\n    dead_number(m, n, t, told[1])\n'
     '    for items, _, is_input in others:\n        if is_input:\n            numbers(items)\n'),
    ('tests the number of dead columns before the numbers when adding',
     '    numbers(store[:m * n]), numbers(column)\n    a = rows_of(m, n, store)\n    dead_number(m, n, a, told[1])\n',
     '    a = rows_of(m, n, store)\n    dead_number(m, n, a, told[1])\n    numbers(store[:m * n]), numbers(column)\n'),
    ('tests the number of dead columns before the numbers when removing',
     '    numbers(store)\n    a = rows_of(m, n, store)\n    dead_number(m, n, a, told[1])\n',
     '    a = rows_of(m, n, store)\n    dead_number(m, n, a, told[1])\n    numbers(store)\n'),
    ('tests the diagonal of a solve before the number of dead columns', SOLVING,
     '        try:\n    ' + SOLVING + '        except Refused as e:\n            refuse(6, e.args[0] == 9 and 0.0 in flat[::n + 1])\n            raise\n'),
    ('refuses a solve by the number before it is compared', SOLVING,
     '        try:\n    ' + SOLVING + '        except Refused as e:\n            refuse(6, e.args[0] == 9 and told[1] > 0)\n            raise\n'),
    ('answers invertible by a number that it never compares', '    factors(m, n, flat, swaps, told, True)\n    return [int(',
     '    try:\n        factors(m, n, flat, swaps, told, True)\n    except Refused as e:\n        if e.args[0] != 9:\n            raise\n'
     '    return [int('),
    ('does not compare the number of dead columns when adding', '    dead_number(m, n, a, told[1])\n    pairs, tosses, dead = add_column',
     '    pairs, tosses, dead = add_column'),
    ('reads the slot for the number of dead columns when adding', '    a = rows_of(m, n, store)\n    dead_number(m, n, a, told[1])\n',
     '    a = rows_of(m, n, store)\n    dead_number(m, n + 1, rows_of(m, n + 1, store), told[1])\n'),
    ('forgets a dead column when adding', '[told[1] + dead]', '[told[1]]'),
    ('counts every added column as dead', '[told[1] + dead]', '[told[1] + 1]'),
    ('counts the raw column as dead when adding', '[told[1] + dead]', '[told[1] + int(n < m and column[n] == 0.0)]'),
    ('counts an added column past the last row as dead', '[told[1] + dead]', '[told[1] + int(a[min(m, n + 1) - 1][n] == 0.0)]'),
    ('says only of the added column whether it is dead', '[told[1] + dead]', '[dead]'),
    ('loses the dead columns when adding is refused', 'return told[:1], store, swaps, [0], told[1:]', 'return told[:1], store, swaps, [0], [0]'),
    ('answers the right number when adding is refused with 9', '    return told[:1], store, swaps, [0], told[1:]',
     '    if number == 9:\n        told = [told[0], sum(store[i * m + i] == 0.0 for i in range(min(m, n)))]\n    return told[:1], store, swaps, [0], told[1:]'),
    ('does not compare the number of dead columns when removing', '    dead_number(m, n, a, told[1])\n    own', '    own'),
    ('compares the number of those that remain when removing', '    dead_number(m, n, a, told[1])\n    own', '    dead_number(m, n - 1, a, told[1])\n    own'),
    ('never takes off a dead column when removing', '[told[1] - own]', 'told[1:]'),
    ('takes off a column that lived when removing', '[told[1] - own]', '[max(0, told[1] - 1)]'),
    ('takes off a column past the last row when removing', 'own = int(n <= m and a[n - 1][n - 1] == 0.0)', 'own = int(a[min(m, n) - 1][n - 1] == 0.0)'),
    ('takes off for +0.0 alone when removing', 'own = int(n <= m and a[n - 1][n - 1] == 0.0)', 'own = int(n <= m and text([a[n - 1][n - 1]]) == text([0.0]))'),
    ('loses the dead columns when removing is refused', '(told[:1], store, swaps, told[1:])', '(told[:1], store, swaps, [0])'),
    ('tells the last place of the step', ORDER, ORDER.replace('range(i, n)', 'reversed(range(i, n))').replace('range(i + 1, m)', 'reversed(range(i + 1, m))')),
    ('tells the last place of all', LOOK, LAST),
    ('tells the first place of the factors that are left', LOOK,
     '    pairs = eliminate(m, n, a)[0]\n    for j in range(n):\n        for r in range(1, m):\n'
     '            finite(a[r][j]) or tell(7, place(min(j, r - 1), j, r))\n    return pairs\n'),
    ('counts rows as they stood before the exchange', 'place(i, j, r))', 'place(i, j, i if r == p else r))'),
    ('counts rows as the matrix had them', 'place(i, j, r))', 'place(i, j, next(row for row in range(m) if was[row] is a[r])))\n    was = list(a)'),
    ('looks at the multipliers after the other columns', ORDER, ORDER.replace('range(i, n)', '[*range(i + 1, n), i]')),
    ('never looks at the multipliers', ORDER, ORDER.replace('range(i, n)', 'range(i + 1, n)')),
    ('looks at the multipliers alone', ORDER, ORDER.replace('range(i, n)', 'range(i, i + 1)')),
    ('looks at a step row by row', ORDER, '        for r in range(i + 1, m):\n            for j in range(i, n):\n                finite(a[r][j]) or'),
    ('never looks at the last row', ORDER, ORDER.replace('range(i + 1, m)', 'range(i + 1, m - 1)')),
    ('looks at the first step alone', '        look(i, p)\n', '        i or look(i, p)\n'),
    ('exchanges step and column', 'place(i, j, r))', 'place(j, i, r))'),
    ('exchanges column and row', 'place(i, j, r))', 'place(i, r, j))'),
    ('counts places from 1', '    return list(numbers)\n', '    return [x + 1 for x in numbers]\n'),
    ('counts steps that are not skipped', 'place(i, j, r))', 'place(sum(a[s][s] != 0.0 for s in range(i)), j, r))'),
    ('tells the place of a small pivot whose reciprocal no row uses', '    def look(i, p):\n',
     '    def look(i, p):\n        i + 1 < m or finite(1.0 / a[i][i]) or tell(7, place(i, i, i))\n'),
    ('tells the highest dead column', SINGULAR, SINGULAR.replace('range(len(t))', 'reversed(range(len(t)))')),
    ('tells the number of dead columns', 'place(i))', 'place(sum(t[j][j] == 0.0 for j in range(len(t)))))'),
    ('takes +0.0 alone for a dead column that it tells', 't[i][i] == 0.0 and tell(6, place(i))',
     'text([t[i][i]]) == text([0.0]) and tell(6, place(i))\n    zero_diagonal(len(t), t)'),
    ('explains a solve with a singular matrix by its overflow', '    explain_singular(t, from_0)\n    explain_passes(t, pairs, columns_of(n, k, b), from_0)\n',
     '    diagonal = [t[i][i] for i in range(n)]\n    for i in range(n):\n        t[i][i] = t[i][i] or 1.0\n'
     '    explain_passes(t, pairs, columns_of(n, k, b), from_0)\n    for i in range(n):\n        t[i][i] = diagonal[i]\n    explain_singular(t, from_0)\n'),
    ('tells the row of a quotient after the rows above it', '[i, *range(i)]', '[*range(i), i]'),
    ('never looks at the quotients', '[i, *range(i)]', 'range(i)'),
    ('looks at the quotients alone', '[i, *range(i)]', '[i]'),
    ('looks at the rows above from the lowest', '[i, *range(i)]', '[i, *reversed(range(i))]'),
    ('looks at the rows below from the lowest', 'range(i + 1, len(b))))\n    for c, b', 'reversed(range(i + 1, len(b)))))\n    for c, b'),
    ('looks at a right-hand column after its whole pass', PASSES,
     '    for c, b in enumerate(sides):\n        unit_lower(t, b), look(1, c, b, range(len(b)))\n'
     '    for c, b in enumerate(sides):\n        upper(t, b), look(2, c, b, range(len(b)))\n'),
    ('looks at the solution alone', PASSES,
     '    for c, b in enumerate(sides):\n        unit_lower(t, b), upper(t, b), look(2, c, b, range(len(b)))\n'),
    ('solves each right-hand column whole before the next', PASSES, PASSES.replace('    for c, b in enumerate(sides):\n        upper', '        upper')),
    ('never looks at the unit lower pass', 'look=lambda i: look(1, c, b, range(i + 1, len(b)))', 'look=unseen'),
    ('takes the right-hand columns from the last', PASSES, PASSES.replace('enumerate(sides)', 'reversed(list(enumerate(sides)))')),
    ('looks at the first right-hand column alone', 'look(which, c, b, rows):\n', 'look(which, c, b, rows):\n        rows = [] if c else rows\n'),
    ('counts the passes from 0', 'place(which, c, r))', 'place(which - 1, c, r))'),
    ('names the passes the other way round', 'place(which, c, r))', 'place(3 - which, c, r))'),
    ('exchanges right-hand column and row', 'place(which, c, r))', 'place(which, r, c))'),
    ('forgets the list when it explains a solve', '    for b in sides:\n        swap(b, pairs)\n', ''),
    ('applies the list backwards when it explains a solve', '    for b in sides:\n        swap(b, pairs)\n',
     '    for b in sides:\n        swap(b, pairs[::-1])\n'),
    ('counts right-hand rows as they stood before the list', 'place(which, c, r))',
     'place(which, c, at[r]))\n    at = list(range(len(t)))\n    swap(at, pairs)'),
    ("counts a file's steps from 0", 'factoring: step {i + 1}', 'factoring: step {i}'),
    ("counts a file's columns from 0", 'column {j + 1}, row {r + 1}', 'column {j}, row {r + 1}'),
    ("counts a file's rows from 0 in factoring", 'column {j + 1}, row {r + 1}', 'column {j + 1}, row {r}'),
    ("counts a file's rows from 0 in solving", 'pass, column {c + 1}, row {r + 1}', 'pass, column {c + 1}, row {r}'),
    ("counts a file's right-hand column from 0", 'pass, column {c + 1}, row {r + 1}', 'pass, column {c}, row {r + 1}'),
    ("counts a file's dead column from 0", "'refused 6\\ncolumn {j + 1}", "'refused 6\\ncolumn {j}"),
    ("exchanges a file's passes", "['', 'lower', 'upper']", "['', 'upper', 'lower']"),
    ('explains a file by its number alone', "29: (why_panel_file,", "29: (lambda *case: panel_file(*case) and ('no reason\\n',),"),
    ('says nothing where there is no reason', "    return 'no reason\\n',", "    return '',"),
    ('tells a singular file before its factoring is through', "    pairs = explain_elimination(pads, pads, t,",
     "    explain_singular(t, lambda j: f'refused 6\\ncolumn {j + 1}\\n')\n    pairs = explain_elimination(pads, pads, t,"),
    ('halves a significand twice', '            s *= 0.5\n            e += 1\n', '            s *= 0.25\n            e += 2\n'),
    ('halves a significand above 2 only', 'if magnitude(s) >= 2.0:', 'if magnitude(s) > 2.0:'),
    ('halves a positive significand only', 'if magnitude(s) >= 2.0:', 'if s >= 2.0:'),
    ('forgets the exponent of a halving', '            s *= 0.5\n            e += 1\n', '            s *= 0.5\n'),
    ("is one off in a subnormal number's exponent", 'e += power - 1', 'e += power - 1 - (magnitude(t[i][i]) < 2.0 ** -1022)'),
    ("takes a subnormal number's digits without raising them", 'half, power = math.frexp(t[i][i])',
     'half, power = math.frexp(t[i][i]) if magnitude(t[i][i]) >= 2.0 ** -1022 else (t[i][i] * 2.0 ** 1022, -1022)'),
    ('loses the sign of the swaps in the scaled determinant', 'return [-s if len(pairs) % 2 else s], [e]', 'return [s], [e]'),
    ('loses the sign of the diagonal', 's *= 2.0 * half', 's *= 2.0 * magnitude(half)'),
    ('gives a zero determinant the sign of the swaps', 'return [0.0], [0]', 'return [-0.0 if len(pairs) % 2 else 0.0], [0]'),
    ('keeps the exponent where a diagonal number is zero', 'return [0.0], [0]', 'return [0.0], [e]'),
    ('rounds the product of significands twice', 's *= 2.0 * half', 's = twice_rounded(s, 2.0 * half)'),
    ('scales the plain determinant', '    return scaled_number(n, t, pairs)\n\n\ndef invertible',
     '    plain = determinant(m, n, k, flat, swaps, told)[0][0]\n    half, power = math.frexp(plain)\n'
     '    return [2.0 * half], [power - 1 if plain else 0]\n\n\ndef invertible'),
    ('multiplies from the last diagonal on', '    s, e = 1.0, 0\n    for i in range(n):', '    s, e = 1.0, 0\n    for i in reversed(range(n)):'),
    ('refuses the stiffness of a singular crossing', '    overflow(flat_of(pads, pads, t))\n    return scaled_number',
     '    overflow(flat_of(pads, pads, t))\n    zero_diagonal(pads, t)\n    return scaled_number'),
    ('refuses a stiffness whose plain determinant overflows', '    overflow(flat_of(pads, pads, t))\n    return scaled_number',
     '    overflow(flat_of(pads, pads, t))\n    overflow([math.prod((t[i][i] for i in range(pads)), start=1.0)])\n    return scaled_number'),
    ('keeps the factors of four pads that are refused', 'return [0.0] * 16, [0], [], [0.0] * 4',
     'return case[3] if len(case) > 4 else [0.0] * 16, [0], [], [0.0] * 4'),
    ('reads four pads by row', 't, pairs = factored_panel(4, matrix)', 't, pairs = factored_panel(4, [matrix[4 * (i % 4) + i // 4] for i in range(16)])'),
    ('tests the readings of four pads after factoring', 'numbers(matrix), numbers(readings)\n    t, pairs = factored_panel(4, matrix)\n',
     'numbers(matrix)\n    t, pairs = factored_panel(4, matrix)\n    numbers(readings)\n'),
    ('forgets the list of four pads', 'solved(4, t, pairs, [loads])', 'solved(4, t, [], [loads])'),
    ('gives the loads of four pads in pivot order', '    overflow(loads)\n    return flat_of(4, 4, t)',
     '    swap(loads, pairs)\n    overflow(loads)\n    return flat_of(4, 4, t)'),
    ('puts zeros behind the recorded numbers of four pads', '[row for pair in pairs for row in pair], loads',
     '[row for pair in pairs for row in pair] + [0] * (8 - 2 * len(pairs)), loads'),
    ('records the swaps of four pads the other way round', '[row for pair in pairs for row in pair], loads',
     '[row for pair in pairs for row in pair[::-1]], loads'),
    ('takes a file of any size for four pads', 'refuse(1, data[5] != 4)',
     'size(data[5], 1)\n    refuse(3, k != 6 + 8 * data[5] * (data[5] + 1))\n    refuse(1, data[5] != 4)'),
    ('tests the size of a four-pad file after its numbers', '    refuse(1, data[5] != 4)\n    _, values = read_panel(k, items)\n',
     '    _, values = read_panel(k, items)\n    refuse(1, data[5] != 4)\n'),
    ('counts the file that is one too many', 'lengths[:4000], items)', 'lengths[:4001] if len(lengths) == 4001 else lengths[:4000], items)'),
    ('counts every file of a season that is full', 'refuse(10, len(lengths) > 4000)', 'refuse(10, False)'),
    ('takes the season for full one file early', 'refuse(10, len(lengths) > 4000)', 'refuse(10, len(lengths) >= 4000)'),
    ('counts the last files of a season that is full', 'lengths[:4000], items)',
     "lengths[-4000:], [x for x, in struct.iter_unpack('<Q', (struct.pack(f'<{len(items)}Q', *items)[sum(lengths[:-4000]):] + bytes(8))[:8 * len(items)])])"),
    ('lists idle pads in a season', 'len([x for x in loads if x != 0.0])', 'len(loads)'),
    ('lists pads whose load is -0.0 in a season', 'len([x for x in loads if x != 0.0])', "len([x for x in loads if text([x]) != '0' * 16])"),
    ('counts crossings that list pads', 'listed += pads', 'listed += pads > 0'),
    ('takes 1023 for the lower band', '(exponent > 1022)', '(exponent > 1023)'),
    ('takes 512 for the lower band', '(exponent > 511)', '(exponent > 512)'),
    ('takes 1535 for the lower band', '(exponent > 1534)', '(exponent > 1535)'),
    ('takes 1 for the lowest band', '(exponent > 0)', '(exponent > 1)'),
    ('takes the exponent without its bias', 'bits // 2 ** 52 % 2048', 'abs(bits // 2 ** 52 % 2048 - 1023)'),
    ('takes the sign into the exponent', 'bits // 2 ** 52 % 2048', 'bits // 2 ** 52'),
    ('takes the greatest of the diagonal', 'if magnitude(t[i][i]) < magnitude(least):', 'if magnitude(t[i][i]) > magnitude(least):'),
    ('takes the least of the diagonal with its sign', 'if magnitude(t[i][i]) < magnitude(least):', 'if t[i][i] < least:'),
    ('takes the first of the diagonal', 'if magnitude(t[i][i]) < magnitude(least):', 'if False:'),
    ('takes the last of the diagonal', 'if magnitude(t[i][i]) < magnitude(least):', 'if True:'),
    ("takes the matrix's diagonal for the factors'", 'least = t[0][0]\n    for i in range(pads):',
     'least, t = values[0], rows_of(pads, pads, values)\n    for i in range(pads):'),
    ('bands a file whose solve overflows', '            refused[e.args[0]] += 1\n',
     '            refused[e.args[0]] += 1\n            bands[3] += e.args[0] == 7\n'),
    ('bands a refused file', '            refused[e.args[0]] += 1\n', '            refused[e.args[0]] += 1\n            bands[0] += e.args[0] == 6\n'),
    ('counts refused files among the accepted', '            refused[e.args[0]] += 1\n', '            refused[e.args[0]] += 1\n            accepted += 1\n'),
    ('begins every file at the first', '        at += length\n', ''),
    ("forgets the solve's overflow in a season", '    overflow(loads)\n    least', '    least'),
]

# two roundings of the exact product, to 64 digits first
TWICE = '''
def twice_rounded(a, b):
    digits, power = int(a * 2.0 ** 52) * int(b * 2.0 ** 52), -104
    drop = max(magnitude(digits).bit_length() - 64, 0)
    kept, rest = divmod(magnitude(digits), 2 ** drop)
    kept += 2 * rest + kept % 2 > 2 ** drop
    return math.ldexp(-kept if digits < 0 else kept, power + drop)


'''

# one rounding of the exact product and sum
FUSED = '''
from fractions import Fraction


def fused(a, b, c):
    if not (finite(a) and finite(b) and finite(c)) or a * b + c == 0.0 or not finite(a * b + c):
        return a * b + c
    return float(Fraction(a) * Fraction(b) + Fraction(c))


'''


def programs(model):
    """(what, source) for each, from the source of model.py."""
    for what, old, new in WRONG:
        assert model.count(old) >= 1, f'model.py has no such text: {what}'
        source = model.replace(old, new, 1)
        for called, more in (('fused(', FUSED), ('twice_rounded(', TWICE)):
            if called in new:
                source = source.replace("if __name__ == '__main__':", more + "if __name__ == '__main__':")
        yield what, source
