// Times our calls beside the original's, a hand-written update's and the peers', in one process and on the same inputs.
//   measure ROUNDS SIZE...   compares the bits, prints "bits MATRICES", then times and prints lines "WORK SIZE WHO NANOSECONDS"
// -DEIGEN and -DLAPACK say which peers are linked.
#include "wejdarox.h"
#include <math.h>
#include <stdint.h>
#include <stdio.h>
#include <stdlib.h>
#include <string.h>
#include <time.h>

enum { INPUTS = 8, SWAPS = 128, RANDOM_MATRICES = 600, LEAST_NANOSECONDS = 400000 };

// original/src/lib.rs
struct original;
struct original *original_new(size_t m, size_t n);
void original_free(struct original *o);
void original_factor(struct original *o, const double *a);
_Bool original_solve(struct original *o, const double *b);
_Bool original_solve_vector(struct original *o, const double *b);
const double *original_solution(const struct original *o);
const double *original_factors(const struct original *o);
size_t original_pairs(const struct original *o, size_t *swaps);
_Bool original_four(const double *a, const double *b, double *x);
// original/src/by_hand.rs
void by_hand_add_column(double *factors, const double *raw, size_t *swaps, size_t m, size_t n, size_t *pairs, size_t *dead);
size_t by_hand_tested_add_column(double *factors, size_t factors_length, const double *raw, size_t raw_length, size_t *swaps,
                                 size_t swaps_length, size_t m, size_t n, size_t *pairs, size_t *dead);

// What the timed calls work on: an n by n matrix, its last column, a right-hand column, each of the three once more with a NaN at
// its end, and the stores. `narrow` holds the factors of all columns but the last, with room for it. `wrong` gathers wrong answers.
struct input {
    size_t n, wrong, pairs, dead, narrow_pairs, narrow_dead, toss_ups;
    double *a, *last, *b, *bad_a, *bad_last, *bad_b;
    double *factors, *narrow, *x, *peer_factors;
    size_t *swaps, *narrow_swaps;
    int *pivots;
    struct original *original;
    void *eigen;
};

static _Noreturn void stop(const char *what, const char *why, size_t m, size_t n) {
    fprintf(stderr, "measure: %s: %s (%zu rows, %zu columns)\n", what, why, m, n);
    exit(1);
}

// ---- numbers

static uint64_t state = 12345;

static uint64_t draw(void) {
    state = state * 6364136223846793005u + 1442695040888963407u;
    return state >> 33;
}

static double uniform(void) { return (double)draw() / 536870912.0 - 2.0; }

// Plain numbers; small whole ones, which give ties, zeros and singular matrices; numbers of all sizes; large ones, whose results overflow.
enum kind { PLAIN, SMALL, ALL_SIZES, LARGE, KINDS };

static double drawn(enum kind kind) {
    if (kind == SMALL) return (double)(draw() % 5) - 2.0;
    if (kind == ALL_SIZES) return ldexp(uniform(), (int)(draw() % 2097) - 1074);
    if (kind == LARGE) return ldexp(uniform(), 1022 - (int)(draw() % 32));
    return uniform();
}

static void fill(double *p, size_t count, enum kind kind) {
    while (count--) *p++ = drawn(kind);
}

static void *room(size_t count, size_t size) {
    void *p = aligned_alloc(64, (count * size + 64) / 64 * 64);
    if (!p) stop("the inputs", "no memory", count, size);
    return memset(p, 0, count * size);
}

static double *numbers(size_t count) { return room(count, sizeof(double)); }

static double *spoiled(const double *p, size_t count) {
    double *q = memcpy(numbers(count), p, count * sizeof *p);
    q[count - 1] = NAN;
    return q;
}

// ---- the calls that test their input, with the lengths that their sizes ask for

static size_t factor(const double *a, size_t m, size_t n, double *factors, size_t *swaps, size_t *pairs, size_t *dead, size_t *toss_ups) {
    return wejdarox_factor(a, m * n, m, n, factors, m * n, swaps, SWAPS, pairs, dead, toss_ups);
}

static size_t add(double *factors, const double *column, size_t *swaps, size_t m, size_t n, size_t *pairs, size_t *dead, size_t *toss_ups) {
    return wejdarox_add_column(factors, m * (n + 1), column, m, swaps, SWAPS, m, n, pairs, dead, toss_ups);
}

static size_t add_by_hand_tested(double *factors, const double *column, size_t *swaps, size_t m, size_t n, size_t *pairs, size_t *dead) {
    return by_hand_tested_add_column(factors, m * (n + 1), column, m, swaps, SWAPS, m, n, pairs, dead);
}

static size_t solve(const double *factors, const size_t *swaps, size_t n, size_t pairs, size_t dead, const double *b, double *x) {
    return wejdarox_solve(factors, n * n, swaps, SWAPS, n, n, pairs, dead, b, n, 1, x, n);
}

// ---- what is timed

static void our_factor(struct input *p) { p->wrong |= factor(p->a, p->n, p->n, p->factors, p->swaps, &p->pairs, &p->dead, &p->toss_ups); }
static void our_solve(struct input *p) { p->wrong |= solve(p->factors, p->swaps, p->n, p->pairs, p->dead, p->b, p->x); }
static void our_both(struct input *p) { our_factor(p); our_solve(p); }
static void our_add(struct input *p) {
    p->wrong |= add(p->narrow, p->last, p->narrow_swaps, p->n, p->n - 1, &p->narrow_pairs, &p->narrow_dead, &p->toss_ups);
}

static void refused_factor(struct input *p) {
    size_t no_pairs, no_dead;
    p->wrong |= 5 ^ factor(p->bad_a, p->n, p->n, p->factors, p->swaps, &no_pairs, &no_dead, &p->toss_ups);
}
static void refused_solve(struct input *p) { p->wrong |= 5 ^ solve(p->factors, p->swaps, p->n, p->pairs, p->dead, p->bad_b, p->x); }
static void refused_add(struct input *p) {
    p->wrong |= 5 ^ add(p->narrow, p->bad_last, p->narrow_swaps, p->n, p->n - 1, &p->narrow_pairs, &p->narrow_dead, &p->toss_ups);
}

static void its_factor(struct input *p) { original_factor(p->original, p->a); }
static void its_solve(struct input *p) { p->wrong |= !original_solve(p->original, p->b); }
static void its_solve_vector(struct input *p) { p->wrong |= !original_solve_vector(p->original, p->b); }
static void its_both(struct input *p) { its_factor(p); its_solve(p); }

// Four pads: one call that factors and solves. Our profile and the general calls tell the factors and the swaps too; the others only the loads.
static void our_four(struct input *p) { p->wrong |= wejdarox_four_pads(p->a, p->b, p->factors, &p->pairs, p->swaps, p->x); }
static void its_four(struct input *p) { p->wrong |= !original_four(p->a, p->b, p->x); }

static void hand_add(struct input *p) {
    by_hand_add_column(p->narrow, p->last, p->narrow_swaps, p->n, p->n - 1, &p->narrow_pairs, &p->narrow_dead);
}
static void hand_tested_add(struct input *p) {
    p->wrong |= add_by_hand_tested(p->narrow, p->last, p->narrow_swaps, p->n, p->n - 1, &p->narrow_pairs, &p->narrow_dead);
}

#ifdef EIGEN // eigen.cpp
void *eigen_new(size_t n);
void eigen_factor(void *e, const double *a);
void eigen_solve(void *e, const double *b, double *x);
void eigen_four(const double *a, const double *b, double *x);
static void eigens_factor(struct input *p) { eigen_factor(p->eigen, p->a); }
static void eigens_solve(struct input *p) { eigen_solve(p->eigen, p->b, p->x); }
static void eigens_both(struct input *p) { eigens_factor(p); eigens_solve(p); }
static void eigens_four(struct input *p) { eigen_four(p->a, p->b, p->x); }
#else
static void *eigen_new(size_t n) { return n ? NULL : NULL; }
#endif

#ifdef LAPACK
void dgetrf_(const int *m, const int *n, double *a, const int *lda, int *pivots, int *info);
void dgetrs_(const char *trans, const int *n, const int *k, const double *a, const int *lda, const int *pivots, double *b,
             const int *ldb, int *info, size_t trans_length);
static void lapacks_factor(struct input *p) {
    int n = (int)p->n, info;
    memcpy(p->peer_factors, p->a, p->n * p->n * sizeof(double));
    dgetrf_(&n, &n, p->peer_factors, &n, p->pivots, &info);
    p->wrong |= info != 0;
}
static void lapacks_solve(struct input *p) {
    int n = (int)p->n, one = 1, info;
    memcpy(p->x, p->b, p->n * sizeof(double));
    dgetrs_("N", &n, &one, p->peer_factors, &n, p->pivots, p->x, &n, &info, 1);
    p->wrong |= info != 0;
}
static void lapacks_both(struct input *p) { lapacks_factor(p); lapacks_solve(p); }
#endif

// In a round each is timed once, in this order. Factoring comes first: solving uses its factors. `only` is the one size that a call is for, 0 for every size.
static const struct contender { const char *work, *who; void (*call)(struct input *); size_t only; } contenders[] = {
    {"factor", "ours", our_factor}, {"factor", "original", its_factor}, {"factor", "refused", refused_factor},
    {"solve", "ours", our_solve}, {"solve", "original", its_solve}, {"solve", "vector", its_solve_vector}, {"solve", "refused", refused_solve},
    {"both", "ours", our_both}, {"both", "original", its_both},
    {"add", "ours", our_add}, {"add", "by-hand", hand_add}, {"add", "by-hand-tested", hand_tested_add},
    {"add", "refused", refused_add},
    {"four", "ours", our_four, 4}, {"four", "general", our_both, 4}, {"four", "original", its_four, 4},
#ifdef EIGEN
    {"factor", "eigen", eigens_factor}, {"solve", "eigen", eigens_solve}, {"both", "eigen", eigens_both}, {"four", "eigen", eigens_four, 4},
#endif
#ifdef LAPACK
    {"factor", "lapack", lapacks_factor}, {"solve", "lapack", lapacks_solve}, {"both", "lapack", lapacks_both},
#endif
};
enum { CONTENDERS = sizeof contenders / sizeof *contenders };

static int is_for(const struct contender *c, size_t n) { return c->only == 0 || c->only == n; }

// ---- the bits

static size_t compared;

struct factored { double *factors; size_t swaps[SWAPS], pairs, dead, toss_ups; };

static int same(const void *p, const void *q, size_t count) { return memcmp(p, q, count * 8) == 0; }

static int all_finite(const double *p, size_t count) {
    while (count--) if (!isfinite(*p++)) return 0;
    return 1;
}

static void must_agree(const char *what, const struct factored *f, const struct original *o, size_t m, size_t n) {
    size_t swaps[SWAPS], pairs = original_pairs(o, swaps);
    if (f->pairs != pairs || !same(f->swaps, swaps, SWAPS)) stop(what, "the swaps differ from the original's", m, n);
    if (!same(f->factors, original_factors(o), m * n)) stop(what, "the factors differ from the original's", m, n);
    size_t dead = 0;
    for (size_t i = 0; i < m && i < n; i++) dead += f->factors[i * m + i] == 0.0;
    if (f->dead != dead) stop(what, "the number of dead columns is not that of the factors", m, n);
}

static void check_solve(const struct factored *f, struct original *o, size_t n, enum kind kind) {
    double b[64], x[64], vector[64];
    fill(b, n, kind);
    size_t answer = solve(f->factors, f->swaps, n, f->pairs, f->dead, b, x);
    _Bool solved = original_solve_vector(o, b);
    memcpy(vector, original_solution(o), n * sizeof *b);
    if (solved != original_solve(o, b)) stop("solve", "the original's two ways differ", n, n);
    const double *its = original_solution(o);
    size_t right = !solved ? 6 : all_finite(its, n) ? 0 : 7;
    if (answer != right) stop("solve", "accepted or refused otherwise than the original's result asks for", n, n);
    if (right == 0 && (!same(x, its, n) || !same(vector, its, n))) stop("solve", "the solution differs from the original's", n, n);
}

// The last column is added to the factors of the others, by our call and by hand with and without tests: the original's factors of the
// whole must come out.
static void check_add(const double *a, const struct original *o, size_t m, size_t n) {
    static const char *const ways[] = {"add a column", "add a column by hand", "add a column by hand, tested"};
    const double *last = a + m * (n - 1);
    for (int way = 0; way < 3; way++) {
        struct factored f = {.factors = numbers(m * n)};
        size_t number = 0;
        if (factor(a, m, n - 1, f.factors, f.swaps, &f.pairs, &f.dead, &f.toss_ups)) stop("factor", "a part of an accepted matrix is refused", m, n - 1);
        if (way == 0) number = add(f.factors, last, f.swaps, m, n - 1, &f.pairs, &f.dead, &f.toss_ups);
        if (way == 1) by_hand_add_column(f.factors, last, f.swaps, m, n - 1, &f.pairs, &f.dead);
        if (way == 2) number = add_by_hand_tested(f.factors, last, f.swaps, m, n - 1, &f.pairs, &f.dead);
        if (number) stop(ways[way], "refused, though the whole is accepted", m, n);
        must_agree(ways[way], &f, o, m, n);
        free(f.factors);
    }
}

// Four pads at once: the number, or the factors, swaps and loads of factoring and solving.
static void check_four(const double *a, enum kind kind) {
    struct factored f = {.factors = (double[16]){0}}, g = {.factors = (double[16]){0}};
    double b[4], x[4] = {0}, y[4], z[4];
    fill(b, 4, kind);
    size_t right = factor(a, 4, 4, f.factors, f.swaps, &f.pairs, &f.dead, &f.toss_ups);
    if (!right) right = solve(f.factors, f.swaps, 4, f.pairs, f.dead, b, x);
    size_t answer = wejdarox_four_pads(a, b, g.factors, &g.pairs, g.swaps, y);
    if (answer != right) stop("four pads", "another number than the general path's", 4, 4);
    if (right) return;
    if (g.pairs != f.pairs || !same(g.swaps, f.swaps, 8) || !same(g.factors, f.factors, 16) || !same(x, y, 4))
        stop("four pads", "other factors, swaps or loads than the general path's", 4, 4);
    if (!original_four(a, b, z) || !same(z, x, 4)) stop("four pads", "the original with known sizes gives another solution", 4, 4);
}

static void check(const double *a, size_t m, size_t n, enum kind kind) {
    struct factored f = {.factors = numbers(m * n)};
    struct original *o = original_new(m, n);
    original_factor(o, a);
    size_t answer = factor(a, m, n, f.factors, f.swaps, &f.pairs, &f.dead, &f.toss_ups);
    size_t right = all_finite(original_factors(o), m * n) ? 0 : 7;
    if (answer != right) stop("factor", "accepted or refused otherwise than the original's result asks for", m, n);
    if (right == 0) {
        must_agree("factor", &f, o, m, n);
        if (m == n) check_solve(&f, o, n, kind);
        check_add(a, o, m, n);
    }
    if (m == 4 && n == 4) check_four(a, kind);
    compared++;
    free(f.factors);
    original_free(o);
}

static void check_random(void) {
    for (int k = 0; k < RANDOM_MATRICES; k++) {
        size_t m = k % 10 == 1 ? 4 : 1 + draw() % 64, n = k % 2 ? m : 1 + draw() % 64;
        double *a = numbers(m * n);
        enum kind kind = k / 2 % KINDS;
        fill(a, m * n, kind);
        check(a, m, n, kind);
        free(a);
    }
}

// Every contender once. The peers round otherwise, but their solutions must come near the original's.
static void try_all(struct input *p) {
    its_both(p);
    const double *its = original_solution(p->original);
    for (int c = 0; c < CONTENDERS; c++) {
        if (!is_for(&contenders[c], p->n)) continue;
        contenders[c].call(p);
        if (strcmp(contenders[c].work, "both") != 0 && strcmp(contenders[c].work, "four") != 0) continue;
        for (size_t i = 0; i < p->n; i++)
            if (!(fabs(p->x[i] - its[i]) <= 1e-6 * (1 + fabs(its[i])))) stop(contenders[c].who, "another solution than the original's", p->n, p->n);
    }
    if (p->wrong) stop("the timed calls", "an answer that they should not give", p->n, p->n);
}

// ---- the time

static void make(struct input *p, size_t n) {
    *p = (struct input){.n = n, .a = numbers(n * n), .b = numbers(n), .x = numbers(n), .original = original_new(n, n), .eigen = eigen_new(n)};
    p->factors = numbers(n * n);
    p->narrow = numbers(n * n);
    p->peer_factors = numbers(n * n);
    p->swaps = room(SWAPS, sizeof(size_t));
    p->narrow_swaps = room(SWAPS, sizeof(size_t));
    p->pivots = room(n, sizeof(int));
    p->last = p->a + n * (n - 1);
    fill(p->a, n * n, PLAIN);
    fill(p->b, n, PLAIN);
    p->bad_a = spoiled(p->a, n * n);
    p->bad_b = spoiled(p->b, n);
    p->bad_last = spoiled(p->last, n);
    check(p->a, n, n, PLAIN);
    p->wrong |= factor(p->a, n, n - 1, p->narrow, p->narrow_swaps, &p->narrow_pairs, &p->narrow_dead, &p->toss_ups);
    try_all(p);
}

static double now(void) {
    struct timespec t;
    clock_gettime(CLOCK_MONOTONIC, &t);
    return (double)t.tv_sec * 1e9 + (double)t.tv_nsec;
}

static double time_of(void (*call)(struct input *), struct input *inputs, size_t turns) {
    double start = now();
    for (size_t t = 0; t < turns; t++)
        for (int k = 0; k < INPUTS; k++) call(&inputs[k]);
    return now() - start;
}

static size_t turns_for(void (*call)(struct input *), struct input *inputs) {
    size_t turns = 1;
    while (time_of(call, inputs, turns) < LEAST_NANOSECONDS) turns *= 2;
    return turns;
}

static void measure(struct input *inputs, int rounds) {
    double least[CONTENDERS];
    size_t turns[CONTENDERS];
    for (int c = 0; c < CONTENDERS; c++) {
        if (is_for(&contenders[c], inputs->n)) turns[c] = turns_for(contenders[c].call, inputs);
        least[c] = INFINITY;
    }
    for (int r = 0; r < rounds; r++)
        for (int c = 0; c < CONTENDERS; c++)
            if (is_for(&contenders[c], inputs->n)) least[c] = fmin(least[c], time_of(contenders[c].call, inputs, turns[c]));
    for (int c = 0; c < CONTENDERS; c++)
        if (is_for(&contenders[c], inputs->n))
            printf("%s %zu %s %.2f\n", contenders[c].work, inputs->n, contenders[c].who, least[c] / (double)(turns[c] * INPUTS));
    fflush(stdout);
}

int main(int count, char **arg) {
    static struct input inputs[64][INPUTS];
    if (count < 3 || count > 66) {
        fprintf(stderr, "usage: measure ROUNDS SIZE..., at most 64 sizes from 1 to 64\n");
        return 2;
    }
    check_random();
    for (int s = 2; s < count; s++)
        for (int k = 0; k < INPUTS; k++) make(&inputs[s - 2][k], (size_t)atoi(arg[s]));
    printf("bits %zu\n", compared);
    for (int s = 2; s < count; s++) measure(inputs[s - 2], atoi(arg[1]));
    for (int s = 2; s < count; s++)
        for (int k = 0; k < INPUTS; k++)
            if (inputs[s - 2][k].wrong) stop("the timed calls", "an answer that they should not give", inputs[s - 2][k].n, inputs[s - 2][k].n);
    return 0;
}
