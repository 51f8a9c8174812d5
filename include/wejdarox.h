/*
 * wejdarox.h: the calls of the library for C and C++ (see README.md, "From C, C++, Rust and Python").
 *
 * The f64 LU decomposition with row pivoting of nalgebra 0.35.0, for small panels, and the order in which pads are lifted. Every function is proved to
 * end, to stay within the buffers that it is lent, and to answer and leave what is written here, on every input.
 *
 *  Matrices   lie column after column (column-major): entry (i, j) of a matrix of m rows is a[j*m + i], counted from 0.
 *  Limits     1 to 64 rows, 0 to 64 columns, 1 to 64 right-hand columns, 1 to 64 loads. Past them a call answers 1.
 *  Lengths    a slice is a pointer and a length, the length counted in elements (bytes for a file). A length that does not fit the sizes is refused with 3.
 *  Swaps      the swap store has 128 numbers, pair after pair: rows swaps[2*i] and swaps[2*i + 1] were exchanged, i below the number of pairs, counted
 *             from 0 and in this order. What follows the last pair is 0 after a factoring.
 *  Record     what belongs to factors is four numbers: m rows, n columns, the pairs of the swap store, and the dead columns. A column is dead where the
 *             diagonal of the factors has a zero of either sign in it; one past the last row has no diagonal and is never dead. Factoring sets the number
 *             and adding keeps it true. Every call on factors compares it with them, and refuses another number with 9.
 *
 *  Answers    0: done. Else the call was refused, by the first of these that holds; each call lists those that it can give. The enum below has their names.
 *             A text, the version and the sign of a swap list have no refusal, and answer what their entry says.
 *             1  a size is outside its limits
 *             2  the matrix is not square
 *             3  a length differs from what the sizes ask for
 *             4  the swap list is bad: a pair of equal numbers, a number not below the row count, or more than min(m, n) pairs
 *             5  a number that goes in is an infinity or a NaN
 *             6  the matrix is singular: a zero on the diagonal of its factors
 *             7  a result is too large for a finite number
 *             8  not a panel file of version 1
 *             9  the number of dead columns is not that of the factors; it is tested after 5 and before 6
 *             10 the season is full: wejdarox_with_file alone
 *             1 to 6, 8 to 10 are answered before the work: every slice is left as it was. 7 is answered after it: results are +0.0, as each call says.
 *             The two calls of four pads alone leave zeros in all of their results by any refusal.
 *
 *  A caller   owes that
 *             - a pointer beside a length n points to n elements of its type, aligned, for the time of the call; where n is 0 nothing is read or written
 *               through it, and it is still no null pointer;
 *             - a pointer to one number, or to an array whose length stands here, points to it in the same way;
 *             - all of these hold values of their type when the call begins, outputs too: any bytes are a double, a size_t or an int32_t, so that an output
 *               need not be set; a `bool` holds false or true;
 *             - what a call may change (a pointer without `const`) is apart from every other slice and number of that call;
 *             - no other thread changes what is lent, or looks at what may change, until the call returns;
 *             - the floating-point state is the usual one of the ABI: rounding to nearest, no trap enabled, subnormal numbers kept;
 *             - the stack has room: on x86-64 wejdarox_why_text takes at most 104 KB of it; wejdarox_pad_order, wejdarox_stiffness, wejdarox_moves,
 *               wejdarox_with_file and the other texts at most 38 KB; the rest under 1 KB.
 *             It owes nothing else: sizes, lengths, swap lists and numbers may be anything.
 *
 *  Machine    `./library` writes libwejdarox.a and libwejdarox.so for x86-64 Linux. They need `memset`, `memcpy` and `memmove` and nothing else. No call
 *             allocates or keeps anything, so calls from several threads are safe on buffers that are apart.
 */
#ifndef WEJDAROX_H
#define WEJDAROX_H

#include <stdbool.h>
#include <stddef.h>
#include <stdint.h>

#ifdef __cplusplus
extern "C" {
#endif

/*
 * The version of this header and of the archive that it was packed with: the same number as in the file VERSION.
 * Since 0.7.0: a record has a fourth number, the dead columns. The six calls on matrices take it behind the pairs (wejdarox_factor and
 * wejdarox_add_column through a pointer, the others as it is), and those that take factors can answer 9. wejdarox_scaled_determinant, wejdarox_stiffness,
 * wejdarox_with_file, wejdarox_why_factor and wejdarox_why_solve are new.
 */
#define WEJDAROX_VERSION "0.8.0"

/* The same as one number, 1000000 * 0 + 1000 * 8 + 0, to compare with what wejdarox_version answers. */
#define WEJDAROX_VERSION_NUMBER 8000

/* The most rows, columns, right-hand columns and loads; and the length of a swap store. */
#define WEJDAROX_MOST 64
#define WEJDAROX_SWAPS 128

/* The most files of a season. */
#define WEJDAROX_FILES 4000

/* The length of the slice that a text is written to: no text is longer. */
#define WEJDAROX_TEXT 1288

/* The bytes of a panel file of n pads. */
#define WEJDAROX_FILE_LENGTH(n) (6 + 8 * ((size_t)(n) * (size_t)(n) + (size_t)(n)))

/* The answers of the calls by name. */
enum wejdarox_refusal {
    WEJDAROX_DONE = 0,
    WEJDAROX_REFUSAL_SIZE = 1,
    WEJDAROX_REFUSAL_NOT_SQUARE = 2,
    WEJDAROX_REFUSAL_LENGTH = 3,
    WEJDAROX_REFUSAL_SWAP_LIST = 4,
    WEJDAROX_REFUSAL_NOT_FINITE = 5,
    WEJDAROX_REFUSAL_SINGULAR = 6,
    WEJDAROX_REFUSAL_OVERFLOW = 7,
    WEJDAROX_REFUSAL_NOT_A_PANEL_FILE = 8,
    WEJDAROX_REFUSAL_DEAD_COLUMNS = 9,
    WEJDAROX_REFUSAL_SEASON_FULL = 10
};

/*
 * wejdarox_words
 *
 *  Purpose
 *  =======
 *  An answer in words. It is a function of this header and not of the proved library.
 *
 *  Arguments
 *  =========
 *  number    (input) what a call answered.
 *
 *  Answer
 *  ======
 *  A text that stays for ever. A number that no call answers gives "no such refusal".
 */
static inline const char *wejdarox_words(size_t number) {
    switch (number) {
    case WEJDAROX_DONE: return "done";
    case WEJDAROX_REFUSAL_SIZE: return "a size is outside its limits: 1 to 64 rows, right-hand columns or pads, 0 to 64 columns";
    case WEJDAROX_REFUSAL_NOT_SQUARE: return "the matrix is not square";
    case WEJDAROX_REFUSAL_LENGTH: return "a length differs from what the sizes ask for";
    case WEJDAROX_REFUSAL_SWAP_LIST: return "the swap list has a pair of equal numbers, a number that is not a row's, or too many pairs";
    case WEJDAROX_REFUSAL_NOT_FINITE: return "a number is not finite";
    case WEJDAROX_REFUSAL_SINGULAR: return "the matrix is singular: a zero on the diagonal of its factors";
    case WEJDAROX_REFUSAL_OVERFLOW: return "a result is too large for a finite number";
    case WEJDAROX_REFUSAL_NOT_A_PANEL_FILE: return "this is no panel file of version 1: under 6 bytes, another mark or another version";
    case WEJDAROX_REFUSAL_DEAD_COLUMNS: return "the number of dead columns is not that of the factors";
    case WEJDAROX_REFUSAL_SEASON_FULL: return "the season is full: it has 4,000 files";
    default: return "no such refusal";
    }
}

/*
 * wejdarox_version
 *
 *  Purpose
 *  =======
 *  The version of the library that is linked, to compare with WEJDAROX_VERSION_NUMBER of the header that was compiled.
 *
 *  Answer
 *  ======
 *  1000000 times its first number, 1000 times its second, and its third, added.
 */
size_t wejdarox_version(void);

/*
 * wejdarox_factor
 *
 *  Purpose
 *  =======
 *  Factors the m by n matrix a with row pivoting: with the recorded rows exchanged, a = L * U.
 *
 *  Arguments
 *  =========
 *  a         (input) double array, dimension (m * n)
 *            The matrix.
 *  a_len     (input) the length of a: m * n.
 *  m         (input) the number of rows, 1 to 64.
 *  n         (input) the number of columns, 0 to 64.
 *  factors   (output) double array, dimension (m * n)
 *            L and U packed: U on and above the diagonal, L below it; the ones on L's diagonal are not stored. It may hold anything before.
 *  factors_len (input) the length of factors: m * n.
 *  swaps     (output) array of numbers, dimension (128)
 *            The exchanged rows, pair after pair; what follows the last pair is 0. It may hold anything before.
 *  swaps_len (input) the length of swaps: 128.
 *  pairs     (output) the number of pairs, at most min(m, n). Refused: 0.
 *  dead      (output) the number of dead columns, at most min(m, n): those whose step was skipped. Refused: 0.
 *  toss_ups  (output) the number of columns whose pivot was a toss-up: another row had the same magnitude, not zero. Refused: 0.
 *
 *  Answer
 *  ======
 *  0  done
 *  1  m is not 1 to 64, or n is not 0 to 64             factors and swaps as they were
 *  3  a_len or factors_len is not m * n, or swaps_len is not 128   factors and swaps as they were
 *  5  a number of a is not finite                        factors and swaps as they were
 *  7  a factor is not finite                             factors all +0.0, swaps all 0
 *  A zero pivot is no refusal: its step is skipped. a is never changed.
 */
size_t wejdarox_factor(const double *a, size_t a_len, size_t m, size_t n, double *factors, size_t factors_len,
                       size_t *swaps, size_t swaps_len, size_t *pairs, size_t *dead, size_t *toss_ups);

/*
 * wejdarox_add_column
 *
 *  Purpose
 *  =======
 *  Adds one raw column to the factors of an m by n matrix. What it leaves is, bit for bit, what factoring the m by (n + 1) matrix gives, pairs and dead
 *  columns too, where the factors came from accepted calls of wejdarox_factor and wejdarox_add_column.
 *
 *  Arguments
 *  =========
 *  factors   (input/output) double array, dimension (m * (n + 1))
 *            On entry the m by n factors, and behind them room for one column, which may hold anything. On exit the factors of m by (n + 1).
 *  factors_len (input) the length of factors: m * (n + 1).
 *  column    (input) double array, dimension (m)
 *            The column as it stands in the matrix.
 *  column_len (input) the length of column: m.
 *  swaps     (input/output) array of numbers, dimension (128)
 *            The exchanged rows; at most one pair is written behind those there are.
 *  swaps_len (input) the length of swaps: 128.
 *  m         (input) the number of rows, 1 to 64.
 *  n         (input) the number of columns before the call, 0 to 63.
 *  pairs     (input/output) the number of pairs. Refused: as it was.
 *  dead      (input/output) the number of dead columns; one more where the new column has a diagonal and is dead. Refused: as it was.
 *  toss_ups  (output) 1 where the pivot of the new column was a toss-up, else 0. Refused: 0.
 *
 *  Answer
 *  ======
 *  0  done: the matrix now has n + 1 columns
 *  1  m is not 1 to 64, or n is not 0 to 63              factors and swaps as they were
 *  3  factors_len is not m * (n + 1), column_len is not m, or swaps_len is not 128   factors and swaps as they were
 *  4  the swap list is bad                               factors and swaps as they were
 *  5  a number of the n columns or of column is not finite   factors and swaps as they were
 *  9  dead is not the number of dead columns of the factors  factors and swaps as they were
 *  7  a number of the new column is not finite           the room for the column +0.0; the n columns and swaps as they were
 *  column is never changed.
 */
size_t wejdarox_add_column(double *factors, size_t factors_len, const double *column, size_t column_len, size_t *swaps,
                           size_t swaps_len, size_t m, size_t n, size_t *pairs, size_t *dead, size_t *toss_ups);

/*
 * wejdarox_remove_column
 *
 *  Purpose
 *  =======
 *  Takes the last column off the factors of an m by n matrix. What it leaves is, bit for bit, what factoring the m by (n - 1) matrix gives, pairs and dead
 *  columns too, where the factors came from accepted calls of wejdarox_factor, wejdarox_add_column and this one. It undoes an adding.
 *
 *  Arguments
 *  =========
 *  factors   (input/output) double array, dimension (m * n)
 *            On entry the m by n factors. On exit those of m by (n - 1), and +0.0 in the slot of the last column.
 *  factors_len (input) the length of factors: m * n.
 *  swaps     (input/output) array of numbers, dimension (128)
 *            The exchanged rows; at most the last pair is taken off, and 0 stands in its place.
 *  swaps_len (input) the length of swaps: 128.
 *  m         (input) the number of rows, 1 to 64.
 *  n         (input) the number of columns before the call, 1 to 64.
 *  pairs     (input/output) the number of pairs. Refused: as it was.
 *  dead      (input/output) the number of dead columns; one less where the last column has a diagonal and is dead. Refused: as it was.
 *
 *  Answer
 *  ======
 *  0  done: the matrix now has n - 1 columns
 *  1  m or n is not 1 to 64                              factors and swaps as they were
 *  3  factors_len is not m * n, or swaps_len is not 128  factors and swaps as they were
 *  4  the swap list is bad: also where more than min(m, n - 1) pairs would remain, or the pair to be undone has its second number below its first
 *                                                        factors and swaps as they were
 *  5  a number of factors is not finite                  factors and swaps as they were
 *  9  dead is not the number of dead columns of factors  factors and swaps as they were
 */
size_t wejdarox_remove_column(double *factors, size_t factors_len, size_t *swaps, size_t swaps_len, size_t m, size_t n,
                              size_t *pairs, size_t *dead);

/*
 * wejdarox_build_up
 *
 *  Purpose
 *  =======
 *  Factors the m by n matrix a by adding one column after another. It answers and leaves, bit for bit, what wejdarox_factor does, and is slower.
 *
 *  Arguments and answer
 *  ====================
 *  As those of wejdarox_factor.
 */
size_t wejdarox_build_up(const double *a, size_t a_len, size_t m, size_t n, double *factors, size_t factors_len,
                         size_t *swaps, size_t swaps_len, size_t *pairs, size_t *dead, size_t *toss_ups);

/*
 * wejdarox_solve
 *
 *  Purpose
 *  =======
 *  Solves A * X = B by the factors of the square matrix A.
 *
 *  Arguments
 *  =========
 *  factors   (input) double array, dimension (m * n)
 *            The factors, as wejdarox_factor or wejdarox_add_column left them.
 *  factors_len (input) the length of factors: m * n.
 *  swaps     (input) array of numbers, dimension (128)
 *            The exchanged rows.
 *  swaps_len (input) the length of swaps: 128.
 *  m         (input) the number of rows, 1 to 64.
 *  n         (input) the number of columns: m.
 *  pairs     (input) the number of pairs.
 *  dead      (input) the number of dead columns.
 *  b         (input) double array, dimension (m * k)
 *            The k right-hand columns.
 *  b_len     (input) the length of b: m * k.
 *  k         (input) the number of right-hand columns, 1 to 64.
 *  x         (output) double array, dimension (m * k)
 *            The k solution columns. It may hold anything before.
 *  x_len     (input) the length of x: m * k.
 *
 *  Answer
 *  ======
 *  0  done
 *  1  m or k is not 1 to 64, or n is not 0 to 64         x as it was
 *  2  m is not n                                         x as it was
 *  3  factors_len is not m * n, swaps_len is not 128, or b_len or x_len is not m * k   x as it was
 *  4  the swap list is bad                               x as it was
 *  5  a number of factors or b is not finite             x as it was
 *  9  dead is not the number of dead columns of factors  x as it was
 *  6  dead is not 0: a zero of either sign on the diagonal   x as it was
 *  7  a number of the solution is not finite             x all +0.0
 *  factors, swaps and b are never changed.
 */
size_t wejdarox_solve(const double *factors, size_t factors_len, const size_t *swaps, size_t swaps_len, size_t m, size_t n,
                      size_t pairs, size_t dead, const double *b, size_t b_len, size_t k, double *x, size_t x_len);

/*
 * wejdarox_tr_solve
 *
 *  Purpose
 *  =======
 *  Solves A^T * X = B by the factors of the square matrix A.
 *
 *  Arguments and answer
 *  ====================
 *  As those of wejdarox_solve.
 */
size_t wejdarox_tr_solve(const double *factors, size_t factors_len, const size_t *swaps, size_t swaps_len, size_t m, size_t n,
                         size_t pairs, size_t dead, const double *b, size_t b_len, size_t k, double *x, size_t x_len);

/*
 * wejdarox_l
 *
 *  Purpose
 *  =======
 *  L of the factors of an m by n matrix: what lies below their diagonal, ones on it, +0.0 above.
 *
 *  Arguments
 *  =========
 *  factors   (input) double array, dimension (m * n)
 *            The factors, as wejdarox_factor or wejdarox_add_column left them.
 *  factors_len (input) the length of factors: m * n.
 *  swaps     (input) array of numbers, dimension (128)
 *            The exchanged rows.
 *  swaps_len (input) the length of swaps: 128.
 *  m         (input) the number of rows, 1 to 64.
 *  n         (input) the number of columns, 0 to 64.
 *  pairs     (input) the number of pairs.
 *  dead      (input) the number of dead columns.
 *  x         (output) double array, dimension (m * min(m, n))
 *            L, of m rows and min(m, n) columns. It may hold anything before.
 *  x_len     (input) the length of x: m * min(m, n).
 *
 *  Answer
 *  ======
 *  0  done
 *  1  m is not 1 to 64, or n is not 0 to 64              x as it was
 *  3  factors_len is not m * n, swaps_len is not 128, or x_len is not m * min(m, n)   x as it was
 *  4  the swap list is bad                               x as it was
 *  5  a number of factors is not finite                  x as it was
 *  9  dead is not the number of dead columns of factors  x as it was
 *  factors and swaps are never changed.
 */
size_t wejdarox_l(const double *factors, size_t factors_len, const size_t *swaps, size_t swaps_len, size_t m, size_t n,
                  size_t pairs, size_t dead, double *x, size_t x_len);

/*
 * wejdarox_u
 *
 *  Purpose
 *  =======
 *  U of the factors of an m by n matrix: what lies on and above their diagonal, +0.0 below.
 *
 *  Arguments
 *  =========
 *  factors   (input) double array, dimension (m * n)
 *            The factors, as wejdarox_factor or wejdarox_add_column left them.
 *  factors_len (input) the length of factors: m * n.
 *  swaps     (input) array of numbers, dimension (128)
 *            The exchanged rows.
 *  swaps_len (input) the length of swaps: 128.
 *  m         (input) the number of rows, 1 to 64.
 *  n         (input) the number of columns, 0 to 64.
 *  pairs     (input) the number of pairs.
 *  dead      (input) the number of dead columns.
 *  x         (output) double array, dimension (min(m, n) * n)
 *            U, of min(m, n) rows and n columns. It may hold anything before.
 *  x_len     (input) the length of x: min(m, n) * n.
 *
 *  Answer
 *  ======
 *  0  done
 *  1  m is not 1 to 64, or n is not 0 to 64              x as it was
 *  3  factors_len is not m * n, swaps_len is not 128, or x_len is not min(m, n) * n   x as it was
 *  4  the swap list is bad                               x as it was
 *  5  a number of factors is not finite                  x as it was
 *  9  dead is not the number of dead columns of factors  x as it was
 *  factors and swaps are never changed.
 */
size_t wejdarox_u(const double *factors, size_t factors_len, const size_t *swaps, size_t swaps_len, size_t m, size_t n,
                  size_t pairs, size_t dead, double *x, size_t x_len);

/*
 * wejdarox_why_factor
 *
 *  Purpose
 *  =======
 *  Tells why wejdarox_factor would refuse the same arguments: its number and, for 7, where the first result stands that is not finite. It leaves factors
 *  and swaps as wejdarox_factor leaves them.
 *
 *  Arguments
 *  =========
 *  a to swaps_len: as for wejdarox_factor.
 *  step      (output) for 7 the step of the elimination that stored the result, counted from 0; else 0.
 *  column    (output) for 7 the column that it was stored in; else 0.
 *  row       (output) for 7 the row that it was stored in, as the rows stood after that step's exchange; else 0.
 *
 *  Answer
 *  ======
 *  0  no reason: wejdarox_factor accepts the arguments
 *  1, 3, 5, 7  the number with which it refuses them     factors and swaps as it leaves them
 *  The results are those of the original, in its order: step by step; the multipliers of the step's own column, then each column to the right; in each the
 *  rows below the step, from the top.
 */
size_t wejdarox_why_factor(const double *a, size_t a_len, size_t m, size_t n, double *factors, size_t factors_len,
                           size_t *swaps, size_t swaps_len, size_t *step, size_t *column, size_t *row);

/*
 * wejdarox_why_solve
 *
 *  Purpose
 *  =======
 *  Tells why wejdarox_solve would refuse the same arguments: its number; for 6 the dead column; for 7 where the first result stands that is not finite. It
 *  leaves x as wejdarox_solve leaves it.
 *
 *  Arguments
 *  =========
 *  factors to x_len: as for wejdarox_solve.
 *  pass      (output) for 7 the pass that stored the result: 1 the unit lower one, 2 the upper one; else 0.
 *  column    (output) for 7 the right-hand column, counted from 0; for 6 the lowest column with a zero on the diagonal; else 0.
 *  row       (output) for 7 the row; else 0.
 *
 *  Answer
 *  ======
 *  0  no reason: wejdarox_solve accepts the arguments
 *  1 to 5, 9, 6, 7  the number with which it refuses them   x as it leaves it
 *  The results are those of the original, in its order: the lower pass over all right-hand columns, then the upper pass over all. In each column it goes
 *  row by row: downward, and for each the rows below it; upward, and for each its quotient, then the rows above it from 0 on.
 */
size_t wejdarox_why_solve(const double *factors, size_t factors_len, const size_t *swaps, size_t swaps_len, size_t m, size_t n,
                          size_t pairs, size_t dead, const double *b, size_t b_len, size_t k, double *x, size_t x_len,
                          size_t *pass, size_t *column, size_t *row);

/*
 * wejdarox_inverse
 *
 *  Purpose
 *  =======
 *  The inverse of the square matrix A, by its factors: A * X = I solved.
 *
 *  Arguments
 *  =========
 *  factors   (input) double array, dimension (m * n)
 *            The factors, as wejdarox_factor or wejdarox_add_column left them.
 *  factors_len (input) the length of factors: m * n.
 *  swaps     (input) array of numbers, dimension (128)
 *            The exchanged rows.
 *  swaps_len (input) the length of swaps: 128.
 *  m         (input) the number of rows, 1 to 64.
 *  n         (input) the number of columns: m.
 *  pairs     (input) the number of pairs.
 *  dead      (input) the number of dead columns.
 *  x         (output) double array, dimension (m * m)
 *            The inverse. It may hold anything before.
 *  x_len     (input) the length of x: m * m.
 *
 *  Answer
 *  ======
 *  0  done
 *  1  m is not 1 to 64, or n is not 0 to 64              x as it was
 *  2  m is not n                                         x as it was
 *  3  factors_len is not m * n, swaps_len is not 128, or x_len is not m * m   x as it was
 *  4  the swap list is bad                               x as it was
 *  5  a number of factors is not finite                  x as it was
 *  9  dead is not the number of dead columns of factors  x as it was
 *  6  dead is not 0: a zero of either sign on the diagonal   x as it was
 *  7  a number of the inverse is not finite              x all +0.0
 *  factors and swaps are never changed.
 */
size_t wejdarox_inverse(const double *factors, size_t factors_len, const size_t *swaps, size_t swaps_len, size_t m, size_t n,
                        size_t pairs, size_t dead, double *x, size_t x_len);

/*
 * wejdarox_determinant
 *
 *  Purpose
 *  =======
 *  The determinant of the square matrix A, by its factors. It may underflow to zero while the matrix counts as invertible.
 *
 *  Arguments
 *  =========
 *  factors   (input) double array, dimension (m * n)
 *            The factors, as wejdarox_factor or wejdarox_add_column left them.
 *  factors_len (input) the length of factors: m * n.
 *  swaps     (input) array of numbers, dimension (128)
 *            The exchanged rows.
 *  swaps_len (input) the length of swaps: 128.
 *  m         (input) the number of rows, 1 to 64.
 *  n         (input) the number of columns: m.
 *  pairs     (input) the number of pairs.
 *  dead      (input) the number of dead columns.
 *  value     (output) the determinant.
 *
 *  Answer
 *  ======
 *  0  done
 *  1  m is not 1 to 64, or n is not 0 to 64              value as it was
 *  2  m is not n                                         value as it was
 *  3  factors_len is not m * n, or swaps_len is not 128  value as it was
 *  4  the swap list is bad                               value as it was
 *  5  a number of factors is not finite                  value as it was
 *  9  dead is not the number of dead columns of factors  value as it was
 *  7  the determinant is not finite                      value +0.0
 *  factors and swaps are never changed.
 */
size_t wejdarox_determinant(const double *factors, size_t factors_len, const size_t *swaps, size_t swaps_len, size_t m,
                            size_t n, size_t pairs, size_t dead, double *value);

/*
 * wejdarox_scaled_determinant
 *
 *  Purpose
 *  =======
 *  The determinant of the square matrix A, by its factors, as significand * 2^exponent. It neither underflows nor overflows: it is zero only where a column
 *  is dead. Where no running product of the plain determinant leaves the normal numbers, it is that number exactly.
 *
 *  Arguments
 *  =========
 *  factors   (input) double array, dimension (m * n)
 *            The factors, as wejdarox_factor or wejdarox_add_column left them.
 *  factors_len (input) the length of factors: m * n.
 *  swaps     (input) array of numbers, dimension (128)
 *            The exchanged rows.
 *  swaps_len (input) the length of swaps: 128.
 *  m         (input) the number of rows, 1 to 64.
 *  n         (input) the number of columns: m.
 *  pairs     (input) the number of pairs.
 *  dead      (input) the number of dead columns.
 *  significand (output) of magnitude from 1 up to but not 2, with the sign of the determinant; or +0.0.
 *  exponent  (output) the exponent of two, -68736 to 65535; 0 beside +0.0.
 *
 *  Answer
 *  ======
 *  0  done
 *  1  m is not 1 to 64, or n is not 0 to 64              significand and exponent as they were
 *  2  m is not n                                         significand and exponent as they were
 *  3  factors_len is not m * n, or swaps_len is not 128  significand and exponent as they were
 *  4  the swap list is bad                               significand and exponent as they were
 *  5  a number of factors is not finite                  significand and exponent as they were
 *  9  dead is not the number of dead columns of factors  significand and exponent as they were
 *  factors and swaps are never changed.
 */
size_t wejdarox_scaled_determinant(const double *factors, size_t factors_len, const size_t *swaps, size_t swaps_len, size_t m,
                                   size_t n, size_t pairs, size_t dead, double *significand, int32_t *exponent);

/*
 * wejdarox_is_invertible
 *
 *  Purpose
 *  =======
 *  Whether the square matrix A is invertible, by its factors: no dead column, that is, no zero of either sign on the diagonal.
 *
 *  Arguments
 *  =========
 *  factors   (input) double array, dimension (m * n)
 *            The factors, as wejdarox_factor or wejdarox_add_column left them.
 *  factors_len (input) the length of factors: m * n.
 *  swaps     (input) array of numbers, dimension (128)
 *            The exchanged rows.
 *  swaps_len (input) the length of swaps: 128.
 *  m         (input) the number of rows, 1 to 64.
 *  n         (input) the number of columns: m.
 *  pairs     (input) the number of pairs.
 *  dead      (input) the number of dead columns.
 *  invertible (output) true or false.
 *
 *  Answer
 *  ======
 *  0  done
 *  1  m is not 1 to 64, or n is not 0 to 64              invertible as it was
 *  2  m is not n                                         invertible as it was
 *  3  factors_len is not m * n, or swaps_len is not 128  invertible as it was
 *  4  the swap list is bad                               invertible as it was
 *  5  a number of factors is not finite                  invertible as it was
 *  9  dead is not the number of dead columns of factors  invertible as it was
 *  factors and swaps are never changed.
 */
size_t wejdarox_is_invertible(const double *factors, size_t factors_len, const size_t *swaps, size_t swaps_len, size_t m,
                              size_t n, size_t pairs, size_t dead, bool *invertible);

/*
 * wejdarox_solve_lower_triangular
 *
 *  Purpose
 *  =======
 *  Solves T * X = B by the lower triangle of the n by n matrix t, its diagonal too. What lies above the diagonal is not used, but has to be finite.
 *
 *  Arguments
 *  =========
 *  t         (input) double array, dimension (n * n)
 *            The matrix.
 *  t_len     (input) the length of t: n * n.
 *  n         (input) the number of rows and of columns, 1 to 64.
 *  b         (input) double array, dimension (n * k)
 *            The k right-hand columns.
 *  b_len     (input) the length of b: n * k.
 *  k         (input) the number of right-hand columns, 1 to 64.
 *  x         (output) double array, dimension (n * k)
 *            The k solution columns. It may hold anything before.
 *  x_len     (input) the length of x: n * k.
 *
 *  Answer
 *  ======
 *  0  done
 *  1  n or k is not 1 to 64                              x as it was
 *  3  t_len is not n * n, or b_len or x_len is not n * k  x as it was
 *  5  a number of t or b is not finite                   x as it was
 *  6  a zero of either sign on the diagonal of t         x as it was
 *  7  a number of the solution is not finite             x all +0.0
 *  t and b are never changed.
 */
size_t wejdarox_solve_lower_triangular(const double *t, size_t t_len, size_t n, const double *b, size_t b_len, size_t k, double *x,
                                       size_t x_len);

/* wejdarox_solve_upper_triangular: the same by the upper triangle of t. What lies below the diagonal is not used, but has to be finite. */
size_t wejdarox_solve_upper_triangular(const double *t, size_t t_len, size_t n, const double *b, size_t b_len, size_t k, double *x,
                                       size_t x_len);

/* wejdarox_tr_solve_lower_triangular: the same by the transposed lower triangle of t. */
size_t wejdarox_tr_solve_lower_triangular(const double *t, size_t t_len, size_t n, const double *b, size_t b_len, size_t k, double *x,
                                          size_t x_len);

/* wejdarox_tr_solve_upper_triangular: the same by the transposed upper triangle of t. */
size_t wejdarox_tr_solve_upper_triangular(const double *t, size_t t_len, size_t n, const double *b, size_t b_len, size_t k, double *x,
                                          size_t x_len);

/*
 * wejdarox_solve_lower_triangular_with_diag
 *
 *  Purpose
 *  =======
 *  The lower triangle of t with diag in place of each number of its diagonal, as nalgebra 0.35.0 does it: a row divided by diag drives the rows below it, and
 *  the rows themselves are not divided. For diag equal to 1 it is the solution; else wejdarox_solve_lower_triangular_with_diag_corrected has it.
 *
 *  Arguments
 *  =========
 *  As those of wejdarox_solve_lower_triangular, and
 *  diag      (input) the number that stands for each of the diagonal.
 *
 *  Answer
 *  ======
 *  As that of wejdarox_solve_lower_triangular, but 5 also where diag is not finite, and 6 where diag is a zero of either sign; t's diagonal does not count.
 */
size_t wejdarox_solve_lower_triangular_with_diag(const double *t, size_t t_len, size_t n, const double *b, size_t b_len, size_t k,
                                                 double *x, size_t x_len, double diag);

/* wejdarox_solve_lower_triangular_with_diag_corrected: the same, and each row is divided by diag: the solution for every diag. */
size_t wejdarox_solve_lower_triangular_with_diag_corrected(const double *t, size_t t_len, size_t n, const double *b, size_t b_len,
                                                           size_t k, double *x, size_t x_len, double diag);

/*
 * wejdarox_append_permutation
 *
 *  Purpose
 *  =======
 *  Appends the pair (i, i2) to a swap list for dimension d. Two equal numbers append nothing, and are no refusal.
 *
 *  Arguments
 *  =========
 *  swaps     (input/output) array of numbers, dimension (128)
 *            The list, pair after pair.
 *  swaps_len (input) the length of swaps: 128.
 *  pairs     (input/output) the number of pairs. Refused: as it was.
 *  d         (input) the dimension, 1 to 64: the most pairs.
 *  i         (input) a number below 64.
 *  i2        (input) a number below 64.
 *
 *  Answer
 *  ======
 *  0  done
 *  1  d is not 1 to 64                                   swaps as it was
 *  3  swaps_len is not 128                               swaps as it was
 *  4  the list is bad, for 64 rows and at most d pairs; i or i2 is not below 64; or the list is full and i is not i2   swaps as it was
 */
size_t wejdarox_append_permutation(size_t *swaps, size_t swaps_len, size_t *pairs, size_t d, size_t i, size_t i2);

/*
 * wejdarox_permute_rows
 *
 *  Purpose
 *  =======
 *  Exchanges rows of the m by n matrix a by a swap list, the first pair first.
 *
 *  Arguments
 *  =========
 *  a         (input/output) double array, dimension (m * n)
 *            The matrix.
 *  a_len     (input) the length of a: m * n.
 *  m         (input) the number of rows, 1 to 64.
 *  n         (input) the number of columns, 0 to 64.
 *  swaps     (input) array of numbers, dimension (128)
 *            The list, pair after pair.
 *  swaps_len (input) the length of swaps: 128.
 *  pairs     (input) the number of pairs, at most 64.
 *
 *  Answer
 *  ======
 *  0  done
 *  1  m is not 1 to 64, or n is not 0 to 64              a as it was
 *  3  a_len is not m * n, or swaps_len is not 128        a as it was
 *  4  the list is bad: a pair of equal numbers, a number not below m, or more than 64 pairs   a as it was
 *  5  a number of a is not finite                        a as it was
 *  swaps is never changed.
 */
size_t wejdarox_permute_rows(double *a, size_t a_len, size_t m, size_t n, const size_t *swaps, size_t swaps_len, size_t pairs);

/* wejdarox_inv_permute_rows: the same, the last pair first. It undoes wejdarox_permute_rows, bit for bit. */
size_t wejdarox_inv_permute_rows(double *a, size_t a_len, size_t m, size_t n, const size_t *swaps, size_t swaps_len, size_t pairs);

/* wejdarox_permute_columns: the same for the columns of a, so that 4 asks for numbers below n. */
size_t wejdarox_permute_columns(double *a, size_t a_len, size_t m, size_t n, const size_t *swaps, size_t swaps_len, size_t pairs);

/* wejdarox_inv_permute_columns: the columns, the last pair first. */
size_t wejdarox_inv_permute_columns(double *a, size_t a_len, size_t m, size_t n, const size_t *swaps, size_t swaps_len, size_t pairs);

/* wejdarox_permutation_sign: the sign of a swap list of so many pairs, 1.0 where they are even and -1.0 where they are odd. It has no refusal. */
double wejdarox_permutation_sign(size_t pairs);

/*
 * wejdarox_rank
 *
 *  Purpose
 *  =======
 *  The pads that carry a load, in the order to lift them: greatest magnitude of load first, equal magnitudes by the lower number. Pads whose load is a
 *  zero of either sign are left off.
 *
 *  Arguments
 *  =========
 *  loads     (input) double array, dimension (n)
 *            The load of each pad.
 *  loads_len (input) the length of loads: n.
 *  n         (input) the number of pads, 1 to 64.
 *  ranks     (output) array of numbers, dimension (n)
 *            The numbers of the listed pads, counted from 1, and 0 in the slots behind them. It may hold anything before.
 *  ranks_len (input) the length of ranks: n.
 *  count     (output) the number of listed pads. Refused: 0.
 *
 *  Answer
 *  ======
 *  0  done
 *  1  n is not 1 to 64                                   ranks as it was
 *  3  loads_len or ranks_len is not n                    ranks as it was
 *  5  a load is not finite                               ranks as it was
 *  loads is never changed.
 */
size_t wejdarox_rank(const double *loads, size_t loads_len, size_t n, size_t *ranks, size_t ranks_len, size_t *count);

/*
 * wejdarox_rank_all
 *
 *  Purpose
 *  =======
 *  The same with every pad listed, those without a load too: without them its list is that of wejdarox_rank.
 *
 *  Arguments and answer
 *  ====================
 *  As those of wejdarox_rank; where it is done, count is n.
 */
size_t wejdarox_rank_all(const double *loads, size_t loads_len, size_t n, size_t *ranks, size_t ranks_len, size_t *count);

/*
 * wejdarox_pad_order
 *
 *  Purpose
 *  =======
 *  The whole answer for a panel file: its matrix factored, its readings solved for, all its pads ranked by their loads.
 *
 *  Arguments
 *  =========
 *  file      (input) bytes, dimension (file_len)
 *            The panel file: the three bytes `LXP`, two of the version 1, one of the number of pads n, then the n * n numbers of the matrix by column and
 *            the n readings, 8 bytes each, the least byte first.
 *  file_len  (input) how many bytes the file has: 6 + 8 * (n * n + n).
 *  ranks     (output) array of numbers, dimension (64)
 *            The first n are the pads' numbers, counted from 1, in the order to lift them; the others are as they were.
 *  loads     (output) double array, dimension (64)
 *            The first n are the pads' loads, in the order of the pads; the others are as they were.
 *  pads      (output) the number of pads n. Refused: 0.
 *  toss_ups  (output) at how many columns of the matrix another row had the pivot's magnitude, so that the first was taken. Refused: 0.
 *
 *  Answer
 *  ======
 *  0  done
 *  1  the number of pads is not 1 to 64                  ranks and loads as they were
 *  3  the file has not the length that its number of pads asks for   ranks and loads as they were
 *  5  a number of the file is not finite                 ranks and loads as they were
 *  6  the matrix is singular                             ranks and loads as they were
 *  7  a factor or a load is not finite                   the first n loads +0.0; the other loads and ranks as they were
 *  8  under 6 bytes, another mark or another version     ranks and loads as they were
 *  8 is tested first, then 1, 3 and 5; 7 of the factoring before 6, and 7 of the solve behind it. file is never changed.
 */
size_t wejdarox_pad_order(const uint8_t *file, size_t file_len, size_t ranks[64], double loads[64], size_t *pads, size_t *toss_ups);

/*
 * wejdarox_stiffness
 *
 *  Purpose
 *  =======
 *  How stiff a panel file's crossing is: its matrix factored, and the determinant as significand * 2^exponent.
 *
 *  Arguments
 *  =========
 *  file      (input) bytes, dimension (file_len)
 *            The panel file, as wejdarox_pad_order takes it.
 *  file_len  (input) how many bytes the file has: 6 + 8 * (n * n + n).
 *  significand (output) of magnitude from 1 up to but not 2, with the sign of the determinant; or +0.0, where the matrix is singular.
 *  exponent  (output) the exponent of two, -68736 to 65535; 0 beside +0.0.
 *  toss_ups  (output) at how many columns of the matrix another row had the pivot's magnitude, so that the first was taken. Refused: 0.
 *
 *  Answer
 *  ======
 *  0  done
 *  1  the number of pads is not 1 to 64                  significand and exponent as they were
 *  3  the file has not the length that its number of pads asks for   significand and exponent as they were
 *  5  a number of the file is not finite                 significand and exponent as they were
 *  7  a factor is not finite                             significand +0.0, exponent 0
 *  8  under 6 bytes, another mark or another version     significand and exponent as they were
 *  8 is tested first, then 1, 3 and 5; 7 is the factoring's. file is never changed.
 */
size_t wejdarox_stiffness(const uint8_t *file, size_t file_len, double *significand, int32_t *exponent, size_t *toss_ups);

/*
 * wejdarox_moves
 *
 *  Purpose
 *  =======
 *  How the load of one pad of a panel file moves with each reading: the transposed solve of that pad's unit column.
 *
 *  Arguments
 *  =========
 *  file      (input) bytes, dimension (file_len)
 *            The panel file, as wejdarox_pad_order takes it.
 *  file_len  (input) how many bytes the file has: 6 + 8 * (n * n + n).
 *  pad       (input) the number of the pad, 1 to n.
 *  moves     (output) double array, dimension (64)
 *            The first n are the changes of that load by one more of each reading; the others are as they were.
 *  pads      (output) the number of pads n. Refused: 0.
 *  toss_ups  (output) at how many columns of the matrix another row had the pivot's magnitude, so that the first was taken. Refused: 0.
 *
 *  Answer
 *  ======
 *  0  done
 *  1  the number of pads is not 1 to 64; or, tested behind 5, pad is not 1 to n   moves as it was
 *  3  the file has not the length that its number of pads asks for   moves as it was
 *  5  a number of the file is not finite                 moves as it was
 *  6  the matrix is singular                             moves as it was
 *  7  a factor or a change is not finite                 the first n of moves +0.0, the others as they were
 *  8  under 6 bytes, another mark or another version     moves as it was
 *  8 is tested first, then 1, 3 and 5; 7 of the factoring before 6, and 7 of the solve behind it. file is never changed.
 */
size_t wejdarox_moves(const uint8_t *file, size_t file_len, size_t pad, double moves[64], size_t *pads, size_t *toss_ups);

/*
 * wejdarox_read_panel
 *
 *  Purpose
 *  =======
 *  Reads a panel file: its matrix and its readings.
 *
 *  Arguments
 *  =========
 *  file      (input) bytes, dimension (file_len)
 *            The panel file, as wejdarox_pad_order takes it.
 *  file_len  (input) how many bytes the file has: 6 + 8 * (n * n + n).
 *  matrix    (output) double array, dimension (4096)
 *            The first n * n are the matrix, column after column; the others are as they were.
 *  matrix_len (input) the length of matrix: 4096, whatever n is.
 *  readings  (output) double array, dimension (64)
 *            The first n are the readings; the others are as they were.
 *  readings_len (input) the length of readings: 64, whatever n is.
 *  pads      (output) the number of pads n. Refused: 0.
 *
 *  Answer
 *  ======
 *  0  done
 *  1  the number of pads is not 1 to 64                  matrix and readings as they were
 *  3  the file has not the length that its number of pads asks for, matrix_len is not 4096, or readings_len is not 64   both as they were
 *  5  a number of the file is not finite                 matrix and readings as they were
 *  8  under 6 bytes, another mark or another version     matrix and readings as they were
 *  8 is tested first, then 1, 3 and 5. file is never changed.
 */
size_t wejdarox_read_panel(const uint8_t *file, size_t file_len, double *matrix, size_t matrix_len, double *readings,
                           size_t readings_len, size_t *pads);

/*
 * wejdarox_write_panel
 *
 *  Purpose
 *  =======
 *  Writes the panel file of a crossing. wejdarox_read_panel reads the same bits from it.
 *
 *  Arguments
 *  =========
 *  n         (input) the number of pads, 1 to 64.
 *  matrix    (input) double array, dimension (n * n)
 *            The matrix, column after column.
 *  matrix_len (input) the length of matrix: n * n.
 *  readings  (input) double array, dimension (n)
 *            The readings.
 *  readings_len (input) the length of readings: n.
 *  out       (output) bytes, dimension (at least 6 + 8 * (n * n + n), which is WEJDAROX_FILE_LENGTH(n))
 *            The file; bytes behind it are as they were.
 *  out_len   (input) the length of out.
 *  count     (output) how many bytes the file has. Refused: 0.
 *
 *  Answer
 *  ======
 *  0  done
 *  1  n is not 1 to 64                                   out as it was
 *  3  matrix_len is not n * n, readings_len is not n, or out_len is less than the file needs   out as it was
 *  5  a number of matrix or readings is not finite       out as it was
 *  matrix and readings are never changed.
 */
size_t wejdarox_write_panel(size_t n, const double *matrix, size_t matrix_len, const double *readings, size_t readings_len,
                            uint8_t *out, size_t out_len, size_t *count);

/*
 * wejdarox_text
 *
 *  Purpose
 *  =======
 *  What the program prints for a panel file: `pads N` and a line for each pad in the order to lift them, its number and the 16 hex digits of its load; or
 *  `refused K`. Each line ends with a newline; no zero byte stands behind the last.
 *
 *  Arguments
 *  =========
 *  file      (input) bytes, dimension (file_len)
 *            The file. It may be anything: one that wejdarox_pad_order refuses has the text of its refusal.
 *  file_len  (input) how many bytes the file has.
 *  out       (output) bytes, dimension (1288)
 *            The text at the front; bytes behind it are as they were.
 *
 *  Answer
 *  ======
 *  How many bytes the text has, 10 to 1288. There is no refusal. file is never changed.
 */
size_t wejdarox_text(const uint8_t *file, size_t file_len, uint8_t out[1288]);

/* wejdarox_moves_text: the same of what wejdarox_moves answers for one pad: a line for each reading, its number and the 16 hex digits of the change. */
size_t wejdarox_moves_text(const uint8_t *file, size_t file_len, size_t pad, uint8_t out[1288]);

/* wejdarox_stiffness_text: the same of what wejdarox_stiffness answers: 16 hex digits of the significand, a space and the exponent in decimal. */
size_t wejdarox_stiffness_text(const uint8_t *file, size_t file_len, uint8_t out[1288]);

/*
 * wejdarox_why_text: the same of why wejdarox_pad_order refuses a file: `no reason`; or `refused K` and, for 6, the lowest dead column, for 7 the place of the
 * first number that is not finite, each counted from 1.
 */
size_t wejdarox_why_text(const uint8_t *file, size_t file_len, uint8_t out[1288]);

/*
 * The figures of a season: sixteen counts, and the number of files handed over. A season of no file is all zeros.
 */
struct wejdarox_season {
    size_t accepted;   /* the files whose answer wejdarox_pad_order gives */
    size_t refused[9]; /* those that it refuses with 1, with 2, and so on up to 9 */
    size_t pads;       /* the pads that wejdarox_rank lists of the accepted files: those without a load are left off */
    size_t bands[5];   /* the accepted files by the least magnitude on the diagonal of their factors: its biased exponent is 0, 1 to 511, 512 to 1022,
                          1023 to 1534, 1535 to 2046 */
    size_t files;      /* how many files were handed over: accepted and refused add to it, and the bands to the accepted */
};

/*
 * wejdarox_with_file
 *
 *  Purpose
 *  =======
 *  Hands a panel file over to a season, which counts it by what becomes of it.
 *
 *  Arguments
 *  =========
 *  file      (input) bytes, dimension (file_len)
 *            The file, as wejdarox_pad_order takes it; what it would refuse is counted as refused.
 *  file_len  (input) how many bytes the file has.
 *  season    (input/output) the season. All counts but those of this file stay. Counts may be anything: a sum past 2^64 - 1 starts again from 0.
 *
 *  Answer
 *  ======
 *  0   counted
 *  10  the season is full: files is 4000 or more         season as it was
 *  file is never changed. In whatever order up to 4000 files are handed over, the counts are the same.
 */
size_t wejdarox_with_file(const uint8_t *file, size_t file_len, struct wejdarox_season *season);

/*
 * wejdarox_four_pads
 *
 *  Purpose
 *  =======
 *  Factors and solves a crossing of exactly four pads: bit for bit what wejdarox_factor and then wejdarox_solve give, in less time.
 *
 *  Arguments
 *  =========
 *  matrix    (input) double array, dimension (4 * 4)
 *            The matrix, column after column.
 *  readings  (input) double array, dimension (4)
 *  factors   (output) double array, dimension (4 * 4)
 *            L and U packed, as wejdarox_factor leaves them. Refused: +0.0.
 *  pairs     (output) the number of pairs, at most 3. Refused: 0.
 *  swaps     (output) array of numbers, dimension (8)
 *            The exchanged rows, pair after pair; what follows the last pair is 0. Refused: 0.
 *  loads     (output) double array, dimension (4)
 *            The loads, in the order of the pads. Refused: +0.0.
 *
 *  Answer
 *  ======
 *  0  done
 *  5  a number of matrix or readings is not finite
 *  7  a factor is not finite
 *  6  the matrix is singular: a zero of either sign on the diagonal of its factors
 *  7  a load is not finite
 *  They are tested in this order. matrix and readings are never changed.
 */
size_t wejdarox_four_pads(const double matrix[16], const double readings[4], double factors[16], size_t *pairs, size_t swaps[8],
                          double loads[4]);

/*
 * wejdarox_four_pads_of
 *
 *  Purpose
 *  =======
 *  The same for a panel file of four pads.
 *
 *  Arguments
 *  =========
 *  file      (input) bytes, dimension (file_len)
 *            The file, as wejdarox_pad_order takes it.
 *  file_len  (input) how many bytes the file has: 166.
 *  factors, pairs, swaps, loads (output) as in wejdarox_four_pads.
 *
 *  Answer
 *  ======
 *  0  done
 *  8  under 6 bytes, another mark or another version
 *  1  the number of pads is not 4
 *  3  the file has not 166 bytes
 *  5  a number of the file is not finite
 *  7, 6, 7  as in wejdarox_four_pads
 *  They are tested in this order: on a file of four pads the number is that of wejdarox_pad_order. file is never changed.
 */
size_t wejdarox_four_pads_of(const uint8_t *file, size_t file_len, double factors[16], size_t *pairs, size_t swaps[8], double loads[4]);

#ifdef __cplusplus
}
#endif

#endif /* WEJDAROX_H */
