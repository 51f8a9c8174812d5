/*
 * Each call of include/wejdarox.h once accepted and once refused, as C99 and as C++17: tests/c/run compiles and runs it. What a refused call leaves as it was
 * is compared. It prints 'N passed, M failed'; status 0 where M is 0.
 */
#include <stdio.h>
#include <string.h>

#include "wejdarox.h"

static int passed, failed;

static void expect(int holds, const char *what, int line) {
    if (holds) {
        passed++;
    } else {
        failed++;
        printf("calls.c:%d: %s\n", line, what);
    }
}
#define EXPECT(fact) expect((fact), #fact, __LINE__)

/* Two numbers with the same bits. */
static int same(double a, double b) { return memcmp(&a, &b, sizeof a) == 0; }

/* columns (0, 2) and (1, 0); readings (5, 8): loads 4 and 5 */
static const double matrix[4] = {0, 2, 1, 0};
static const double readings[2] = {5, 8};

/* The factors of the matrix, as each part starts with them. */
struct held {
    double factors[4];
    size_t swaps[WEJDAROX_SWAPS], pairs, dead, toss_ups;
};

static struct held factored(void) {
    struct held h;
    EXPECT(wejdarox_factor(matrix, 4, 2, 2, h.factors, 4, h.swaps, 128, &h.pairs, &h.dead, &h.toss_ups) == WEJDAROX_DONE);
    return h;
}

static void factoring(void) {
    struct held h = factored(), other = h;
    EXPECT(h.pairs == 1 && h.dead == 0 && h.toss_ups == 0 && h.swaps[0] == 0 && h.swaps[1] == 1);
    EXPECT(same(h.factors[0], 2) && same(h.factors[1], 0) && same(h.factors[2], 0) && same(h.factors[3], 1));
    EXPECT(wejdarox_factor(matrix, 4, 2, 3, other.factors, 4, other.swaps, 128, &other.pairs, &other.dead, &other.toss_ups) == WEJDAROX_REFUSAL_LENGTH);
    EXPECT(memcmp(other.factors, h.factors, sizeof h.factors) == 0 && other.pairs == 0);

    EXPECT(wejdarox_build_up(matrix, 4, 2, 2, other.factors, 4, other.swaps, 128, &other.pairs, &other.dead, &other.toss_ups) == WEJDAROX_DONE);
    EXPECT(memcmp(other.factors, h.factors, sizeof h.factors) == 0 && memcmp(other.swaps, h.swaps, sizeof h.swaps) == 0 && other.pairs == h.pairs);
    EXPECT(wejdarox_build_up(matrix, 4, 0, 2, other.factors, 4, other.swaps, 128, &other.pairs, &other.dead, &other.toss_ups) == WEJDAROX_REFUSAL_SIZE);
}

static void columns(void) {
    struct held h = factored(), one = h;
    const double column[2] = {1, 0}, endless[2] = {1e308 * 10, 0};
    EXPECT(wejdarox_remove_column(one.factors, 4, one.swaps, 128, 2, 2, &one.pairs, &one.dead) == WEJDAROX_DONE);
    EXPECT(one.pairs == 1 && same(one.factors[2], 0) && same(one.factors[3], 0));
    EXPECT(wejdarox_add_column(one.factors, 4, column, 2, one.swaps, 128, 2, 1, &one.pairs, &one.dead, &one.toss_ups) == WEJDAROX_DONE);
    EXPECT(memcmp(one.factors, h.factors, sizeof h.factors) == 0 && one.pairs == h.pairs && one.dead == h.dead && one.toss_ups == 0);
    EXPECT(wejdarox_add_column(one.factors, 4, endless, 2, one.swaps, 128, 2, 1, &one.pairs, &one.dead, &one.toss_ups) == WEJDAROX_REFUSAL_NOT_FINITE);
    EXPECT(wejdarox_remove_column(one.factors, 4, one.swaps, 128, 2, 0, &one.pairs, &one.dead) == WEJDAROX_REFUSAL_SIZE);
    one.dead = 1;
    EXPECT(wejdarox_remove_column(one.factors, 4, one.swaps, 128, 2, 2, &one.pairs, &one.dead) == WEJDAROX_REFUSAL_DEAD_COLUMNS);
    EXPECT(memcmp(one.factors, h.factors, sizeof h.factors) == 0 && one.dead == 1);
}

static void from_factors(void) {
    struct held h = factored();
    double x[4] = {9, 9, 9, 9}, value = 9;
    int32_t exponent = 9;
    bool invertible = false;
    EXPECT(wejdarox_solve(h.factors, 4, h.swaps, 128, 2, 2, h.pairs, h.dead, readings, 2, 1, x, 2) == WEJDAROX_DONE);
    EXPECT(same(x[0], 4) && same(x[1], 5) && same(x[2], 9));
    EXPECT(wejdarox_solve(h.factors, 4, h.swaps, 128, 2, 1, h.pairs, h.dead, readings, 2, 1, x, 2) == WEJDAROX_REFUSAL_NOT_SQUARE);
    EXPECT(wejdarox_tr_solve(h.factors, 4, h.swaps, 128, 2, 2, h.pairs, h.dead, readings, 2, 1, x, 2) == WEJDAROX_DONE);
    EXPECT(same(x[0], 8) && same(x[1], 2.5));
    EXPECT(wejdarox_tr_solve(h.factors, 4, h.swaps, 128, 2, 2, 3, h.dead, readings, 2, 1, x, 2) == WEJDAROX_REFUSAL_SWAP_LIST);
    EXPECT(same(x[0], 8) && same(x[1], 2.5));
    EXPECT(wejdarox_l(h.factors, 4, h.swaps, 128, 2, 2, h.pairs, h.dead, x, 4) == WEJDAROX_DONE);
    EXPECT(same(x[0], 1) && same(x[1], 0) && same(x[2], 0) && same(x[3], 1));
    EXPECT(wejdarox_l(h.factors, 4, h.swaps, 128, 2, 2, h.pairs, h.dead, x, 3) == WEJDAROX_REFUSAL_LENGTH);
    EXPECT(wejdarox_u(h.factors, 4, h.swaps, 128, 2, 2, h.pairs, h.dead, x, 4) == WEJDAROX_DONE);
    EXPECT(same(x[0], 2) && same(x[1], 0) && same(x[2], 0) && same(x[3], 1));
    EXPECT(wejdarox_u(h.factors, 4, h.swaps, 127, 2, 2, h.pairs, h.dead, x, 4) == WEJDAROX_REFUSAL_LENGTH);
    EXPECT(wejdarox_inverse(h.factors, 4, h.swaps, 128, 2, 2, h.pairs, h.dead, x, 4) == WEJDAROX_DONE);
    EXPECT(same(x[0], 0) && same(x[1], 1) && same(x[2], 0.5) && same(x[3], 0));
    EXPECT(wejdarox_inverse(h.factors, 4, h.swaps, 128, 2, 2, h.pairs, 1, x, 4) == WEJDAROX_REFUSAL_DEAD_COLUMNS);
    EXPECT(wejdarox_determinant(h.factors, 4, h.swaps, 128, 2, 2, h.pairs, h.dead, &value) == WEJDAROX_DONE && same(value, -2));
    EXPECT(wejdarox_determinant(h.factors, 4, h.swaps, 128, 65, 65, h.pairs, h.dead, &value) == WEJDAROX_REFUSAL_SIZE && same(value, -2));
    EXPECT(wejdarox_scaled_determinant(h.factors, 4, h.swaps, 128, 2, 2, h.pairs, h.dead, &value, &exponent) == WEJDAROX_DONE);
    EXPECT(same(value, -1) && exponent == 1);
    EXPECT(wejdarox_scaled_determinant(h.factors, 4, h.swaps, 128, 2, 1, h.pairs, h.dead, &value, &exponent) == WEJDAROX_REFUSAL_NOT_SQUARE);
    EXPECT(wejdarox_is_invertible(h.factors, 4, h.swaps, 128, 2, 2, h.pairs, h.dead, &invertible) == WEJDAROX_DONE && invertible);
    EXPECT(wejdarox_is_invertible(h.factors, 4, h.swaps, 128, 1, 2, h.pairs, h.dead, &invertible) == WEJDAROX_REFUSAL_NOT_SQUARE && invertible);
}

static void reasons(void) {
    struct held h = factored();
    const double large[4] = {1, -1, 1e308, 1e308}, singular[4] = {1, 0, 1, 0};
    double x[2];
    size_t first = 9, second = 9, third = 9;
    EXPECT(wejdarox_why_factor(matrix, 4, 2, 2, h.factors, 4, h.swaps, 128, &first, &second, &third) == WEJDAROX_DONE);
    EXPECT(first == 0 && second == 0 && third == 0);
    EXPECT(wejdarox_why_factor(large, 4, 2, 2, h.factors, 4, h.swaps, 128, &first, &second, &third) == WEJDAROX_REFUSAL_OVERFLOW);
    EXPECT(first == 0 && second == 1 && third == 1);
    h = factored();
    EXPECT(wejdarox_why_solve(h.factors, 4, h.swaps, 128, 2, 2, h.pairs, h.dead, readings, 2, 1, x, 2, &first, &second, &third) == WEJDAROX_DONE);
    EXPECT(wejdarox_factor(singular, 4, 2, 2, h.factors, 4, h.swaps, 128, &h.pairs, &h.dead, &h.toss_ups) == WEJDAROX_DONE && h.dead == 1);
    EXPECT(wejdarox_why_solve(h.factors, 4, h.swaps, 128, 2, 2, h.pairs, h.dead, readings, 2, 1, x, 2, &first, &second, &third) == WEJDAROX_REFUSAL_SINGULAR);
    EXPECT(first == 0 && second == 1 && third == 0);
}

static void triangles(void) {
    const double lower[4] = {2, 4, 0, 8}, upper[4] = {2, 0, 4, 8}, dead[4] = {2, 4, 0, 0}, b[2] = {2, 12};
    double x[2] = {9, 9};
    EXPECT(wejdarox_solve_lower_triangular(lower, 4, 2, b, 2, 1, x, 2) == WEJDAROX_DONE && same(x[0], 1) && same(x[1], 1));
    EXPECT(wejdarox_solve_lower_triangular(dead, 4, 2, b, 2, 1, x, 2) == WEJDAROX_REFUSAL_SINGULAR && same(x[0], 1));
    EXPECT(wejdarox_solve_upper_triangular(upper, 4, 2, b, 2, 1, x, 2) == WEJDAROX_DONE && same(x[0], -2) && same(x[1], 1.5));
    EXPECT(wejdarox_solve_upper_triangular(upper, 4, 2, b, 2, 65, x, 2) == WEJDAROX_REFUSAL_SIZE && same(x[0], -2));
    EXPECT(wejdarox_tr_solve_lower_triangular(lower, 4, 2, b, 2, 1, x, 2) == WEJDAROX_DONE && same(x[0], -2) && same(x[1], 1.5));
    EXPECT(wejdarox_tr_solve_lower_triangular(lower, 3, 2, b, 2, 1, x, 2) == WEJDAROX_REFUSAL_LENGTH && same(x[0], -2));
    EXPECT(wejdarox_tr_solve_upper_triangular(upper, 4, 2, b, 2, 1, x, 2) == WEJDAROX_DONE && same(x[0], 1) && same(x[1], 1));
    EXPECT(wejdarox_tr_solve_upper_triangular(dead, 4, 2, b, 2, 1, x, 2) == WEJDAROX_REFUSAL_SINGULAR && same(x[0], 1));
    EXPECT(wejdarox_solve_lower_triangular_with_diag(dead, 4, 2, b, 2, 1, x, 2, 2.0) == WEJDAROX_DONE && same(x[0], 2) && same(x[1], 8));
    EXPECT(wejdarox_solve_lower_triangular_with_diag(dead, 4, 2, b, 2, 1, x, 2, -0.0) == WEJDAROX_REFUSAL_SINGULAR && same(x[0], 2));
    EXPECT(wejdarox_solve_lower_triangular_with_diag_corrected(dead, 4, 2, b, 2, 1, x, 2, 2.0) == WEJDAROX_DONE && same(x[0], 1) && same(x[1], 4));
    EXPECT(wejdarox_solve_lower_triangular_with_diag_corrected(dead, 4, 2, b, 2, 1, x, 2, 1e308 * 10) == WEJDAROX_REFUSAL_NOT_FINITE && same(x[1], 4));
}

static void swap_lists(void) {
    size_t swaps[WEJDAROX_SWAPS] = {0}, pairs = 0;
    double a[6] = {1, 2, 3, 4, 5, 6};
    EXPECT(wejdarox_append_permutation(swaps, 128, &pairs, 3, 0, 1) == WEJDAROX_DONE && pairs == 1);
    EXPECT(wejdarox_append_permutation(swaps, 128, &pairs, 3, 1, 1) == WEJDAROX_DONE && pairs == 1);
    EXPECT(wejdarox_append_permutation(swaps, 128, &pairs, 3, 1, 2) == WEJDAROX_DONE && pairs == 2 && swaps[2] == 1 && swaps[3] == 2);
    EXPECT(wejdarox_append_permutation(swaps, 128, &pairs, 3, 64, 2) == WEJDAROX_REFUSAL_SWAP_LIST && pairs == 2);
    EXPECT(wejdarox_permute_rows(a, 6, 3, 2, swaps, 128, pairs) == WEJDAROX_DONE && same(a[0], 2) && same(a[1], 3) && same(a[2], 1));
    EXPECT(wejdarox_permute_rows(a, 6, 2, 3, swaps, 128, pairs) == WEJDAROX_REFUSAL_SWAP_LIST && same(a[0], 2));
    EXPECT(wejdarox_inv_permute_rows(a, 6, 3, 2, swaps, 128, pairs) == WEJDAROX_DONE && same(a[0], 1) && same(a[5], 6));
    EXPECT(wejdarox_inv_permute_rows(a, 5, 3, 2, swaps, 128, pairs) == WEJDAROX_REFUSAL_LENGTH && same(a[0], 1));
    EXPECT(wejdarox_permute_columns(a, 6, 2, 3, swaps, 128, pairs) == WEJDAROX_DONE && same(a[0], 3) && same(a[2], 5) && same(a[4], 1));
    EXPECT(wejdarox_permute_columns(a, 6, 3, 2, swaps, 128, pairs) == WEJDAROX_REFUSAL_SWAP_LIST && same(a[0], 3));
    EXPECT(wejdarox_inv_permute_columns(a, 6, 2, 3, swaps, 128, pairs) == WEJDAROX_DONE && same(a[0], 1) && same(a[5], 6));
    EXPECT(wejdarox_inv_permute_columns(a, 6, 0, 3, swaps, 128, pairs) == WEJDAROX_REFUSAL_SIZE && same(a[0], 1));
    EXPECT(same(wejdarox_permutation_sign(0), 1) && same(wejdarox_permutation_sign(3), -1));
}

static void ranking(void) {
    const double loads[3] = {-1, 0, 2}, endless[3] = {1, 1e308 * 10, 2};
    size_t ranks[3] = {9, 9, 9}, count = 9;
    EXPECT(wejdarox_rank(loads, 3, 3, ranks, 3, &count) == WEJDAROX_DONE && count == 2 && ranks[0] == 3 && ranks[1] == 1 && ranks[2] == 0);
    EXPECT(wejdarox_rank(endless, 3, 3, ranks, 3, &count) == WEJDAROX_REFUSAL_NOT_FINITE && count == 0 && ranks[0] == 3);
    EXPECT(wejdarox_rank_all(loads, 3, 3, ranks, 3, &count) == WEJDAROX_DONE && count == 3 && ranks[2] == 2);
    EXPECT(wejdarox_rank_all(loads, 3, 0, ranks, 3, &count) == WEJDAROX_REFUSAL_SIZE && count == 0);
}

static void files(void) {
    uint8_t file[WEJDAROX_FILE_LENGTH(2) + 1], text[WEJDAROX_TEXT];
    double read[4096], found[64], loads[64], moves[64], significand = 9;
    size_t count = 9, pads = 9, toss_ups = 9, ranks[64], length;
    int32_t exponent = 9;
    struct wejdarox_season season;
    memset(&season, 0, sizeof season);
    file[54] = 77;
    EXPECT(wejdarox_write_panel(2, matrix, 4, readings, 2, file, sizeof file, &count) == WEJDAROX_DONE && count == 54 && file[54] == 77);
    EXPECT(wejdarox_write_panel(2, matrix, 4, readings, 2, file, 53, &pads) == WEJDAROX_REFUSAL_LENGTH && pads == 0);
    EXPECT(memcmp(file, "LXP\1\0\2", 6) == 0);
    EXPECT(wejdarox_read_panel(file, count, read, 4096, found, 64, &pads) == WEJDAROX_DONE && pads == 2);
    EXPECT(memcmp(read, matrix, sizeof matrix) == 0 && memcmp(found, readings, sizeof readings) == 0);
    EXPECT(wejdarox_read_panel(file, 5, read, 4096, found, 64, &pads) == WEJDAROX_REFUSAL_NOT_A_PANEL_FILE && pads == 0);
    EXPECT(wejdarox_pad_order(file, count, ranks, loads, &pads, &toss_ups) == WEJDAROX_DONE && pads == 2 && toss_ups == 0);
    EXPECT(ranks[0] == 2 && ranks[1] == 1 && same(loads[0], 4) && same(loads[1], 5));
    EXPECT(wejdarox_pad_order(file, count - 1, ranks, loads, &pads, &toss_ups) == WEJDAROX_REFUSAL_LENGTH && pads == 0);
    EXPECT(wejdarox_moves(file, count, 1, moves, &pads, &toss_ups) == WEJDAROX_DONE && pads == 2 && same(moves[0], 0) && same(moves[1], 0.5));
    EXPECT(wejdarox_moves(file, count, 3, moves, &pads, &toss_ups) == WEJDAROX_REFUSAL_SIZE && pads == 0 && same(moves[1], 0.5));
    EXPECT(wejdarox_stiffness(file, count, &significand, &exponent, &toss_ups) == WEJDAROX_DONE && same(significand, -1) && exponent == 1);
    EXPECT(wejdarox_stiffness(file, 0, &significand, &exponent, &toss_ups) == WEJDAROX_REFUSAL_NOT_A_PANEL_FILE && exponent == 1);
    EXPECT(wejdarox_with_file(file, count, &season) == WEJDAROX_DONE && season.accepted == 1 && season.files == 1 && season.pads == 2);
    season.files = WEJDAROX_FILES;
    EXPECT(wejdarox_with_file(file, count, &season) == WEJDAROX_REFUSAL_SEASON_FULL && season.accepted == 1);

    length = wejdarox_text(file, count, text);
    EXPECT(length == 45 && memcmp(text, "pads 2\n2 4014000000000000\n1 4010000000000000\n", 45) == 0);
    length = wejdarox_text(file, 5, text);
    EXPECT(length == 10 && memcmp(text, "refused 8\n", 10) == 0);
    length = wejdarox_moves_text(file, count, 1, text);
    EXPECT(length == 38 && memcmp(text, "1 0000000000000000\n2 3fe0000000000000\n", 38) == 0);
    EXPECT(wejdarox_moves_text(file, count, 0, text) == 10 && memcmp(text, "refused 1\n", 10) == 0);
    EXPECT(wejdarox_stiffness_text(file, count, text) == 19 && memcmp(text, "bff0000000000000 1\n", 19) == 0);
    EXPECT(wejdarox_stiffness_text(file, 53, text) == 10 && memcmp(text, "refused 3\n", 10) == 0);
    EXPECT(wejdarox_why_text(file, count, text) == 10 && memcmp(text, "no reason\n", 10) == 0);
    memset(file + 6, 0, 16);
    EXPECT(wejdarox_why_text(file, count, text) == 19 && memcmp(text, "refused 6\ncolumn 1\n", 19) == 0);
}

static void four_pads(void) {
    const double four[16] = {2, 0, 0, 0, 0, 4, 0, 0, 0, 0, 8, 0, 0, 0, 0, 16}, told[4] = {2, 8, 24, 64}, endless[4] = {1, 1e308 * 10, 0, 0};
    double factors[16], loads[4];
    size_t swaps[8], pairs = 9, count = 0;
    uint8_t file[WEJDAROX_FILE_LENGTH(4)];
    EXPECT(wejdarox_four_pads(four, told, factors, &pairs, swaps, loads) == WEJDAROX_DONE && pairs == 0);
    EXPECT(same(loads[0], 1) && same(loads[1], 2) && same(loads[2], 3) && same(loads[3], 4) && memcmp(factors, four, sizeof four) == 0);
    EXPECT(wejdarox_four_pads(four, endless, factors, &pairs, swaps, loads) == WEJDAROX_REFUSAL_NOT_FINITE && same(loads[0], 0));
    EXPECT(wejdarox_write_panel(4, four, 16, told, 4, file, sizeof file, &count) == WEJDAROX_DONE);
    EXPECT(wejdarox_four_pads_of(file, count, factors, &pairs, swaps, loads) == WEJDAROX_DONE && same(loads[3], 4));
    EXPECT(wejdarox_four_pads_of(file, count - 1, factors, &pairs, swaps, loads) == WEJDAROX_REFUSAL_LENGTH && same(loads[3], 0));
}

static void words(void) {
    size_t number;
    EXPECT(wejdarox_version() == WEJDAROX_VERSION_NUMBER);
    EXPECT(strcmp(wejdarox_words(WEJDAROX_REFUSAL_NOT_SQUARE), "the matrix is not square") == 0);
    for (number = 0; number <= 10; number++) EXPECT(strcmp(wejdarox_words(number), wejdarox_words(11)) != 0);
}

int main(void) {
    factoring();
    columns();
    from_factors();
    reasons();
    triangles();
    swap_lists();
    ranking();
    files();
    four_pads();
    words();
    printf("%d passed, %d failed\n", passed, failed);
    return failed ? 1 : 0;
}
