// Prints the bytes of stack that the calls take at 64 pads, and those of four pads at four: the stack below the caller is painted, the call is made, and
// what it wrote over is counted, less what an empty call writes. A program for x86-64 that needs no C library, so that an emulator can run it.
#include "wejdarox.h"

typedef unsigned char byte;

void *memset(void *p, int c, size_t n) { volatile byte *q = p; while (n--) *q++ = (byte)c; return p; }
void *memcpy(void *p, const void *s, size_t n) { volatile byte *q = p; const byte *r = s; while (n--) *q++ = *r++; return p; }
void *memmove(void *p, const void *s, size_t n) {
    volatile byte *q = p;
    const byte *r = s;
    if ((const byte *)p < r) return memcpy(p, s, n);
    while (n--) q[n] = r[n];
    return p;
}

static long system_call(long number, long a, long b, long c) {
    long answer;
    __asm__ volatile("syscall" : "=a"(answer) : "a"(number), "D"(a), "S"(b), "d"(c) : "rcx", "r11", "memory");
    return answer;
}
static void leave(int status) { system_call(60, status, 0, 0); }
static void put(const char *text, size_t count) { system_call(1, 1, (long)text, (long)count); }
__asm__(".globl _start\n_start: and $-16,%rsp\n call start\n");

enum { DEEP = 262144, FULL = 4096, HEAD = 6, REFUSED = 10 }; // `refused K` and `no reason` have ten bytes
static double a[FULL], factors[FULL], result[FULL], column[64], x[64], loads[64], value;
static bool invertible;
static int32_t exponent;
static struct wejdarox_season season;
static size_t swaps[128], ranks[64], pairs, dead, toss_ups, pads, listed, answer;
static byte file[HEAD + FULL * 8 + 64 * 8], printed[1288];

#define APART __attribute__((noinline)) static
APART void paint(void) { volatile byte s[DEEP]; for (int i = 0; i < DEEP; i++) s[i] = 0xA5; }
APART size_t used(void) { volatile byte s[DEEP]; size_t i = 0; while (i < DEEP && s[i] == 0xA5) i++; return DEEP - i; }
APART void nothing(void) { __asm__ volatile(""); }
APART void factor(void) { answer = wejdarox_factor(a, FULL, 64, 64, factors, FULL, swaps, 128, &pairs, &dead, &toss_ups); __asm__ volatile(""); }
APART void add(void) { answer = wejdarox_add_column(factors, FULL, column, 64, swaps, 128, 64, 63, &pairs, &dead, &toss_ups); __asm__ volatile(""); }
APART void solve(void) { answer = wejdarox_solve(factors, FULL, swaps, 128, 64, 64, pairs, dead, column, 64, 1, x, 64); __asm__ volatile(""); }
APART void inverse(void) { answer = wejdarox_inverse(factors, FULL, swaps, 128, 64, 64, pairs, dead, result, FULL); __asm__ volatile(""); }
APART void determinant(void) { answer = wejdarox_determinant(factors, FULL, swaps, 128, 64, 64, pairs, dead, &value); __asm__ volatile(""); }
APART void scaled(void) { answer = wejdarox_scaled_determinant(factors, FULL, swaps, 128, 64, 64, pairs, dead, &value, &exponent); __asm__ volatile(""); }
APART void is_invertible(void) { answer = wejdarox_is_invertible(factors, FULL, swaps, 128, 64, 64, pairs, dead, &invertible); __asm__ volatile(""); }
APART void why_factor(void) { answer = wejdarox_why_factor(a, FULL, 64, 64, factors, FULL, swaps, 128, &pads, &listed, &toss_ups); __asm__ volatile(""); }
APART void why_solve(void) {
    answer = wejdarox_why_solve(factors, FULL, swaps, 128, 64, 64, pairs, dead, column, 64, 1, x, 64, &pads, &listed, &toss_ups);
    __asm__ volatile("");
}
APART void remove_column(void) { answer = wejdarox_remove_column(factors, FULL, swaps, 128, 64, 64, &pairs, &dead); __asm__ volatile(""); }
APART void build_up(void) { answer = wejdarox_build_up(a, FULL, 64, 64, factors, FULL, swaps, 128, &pairs, &dead, &toss_ups); __asm__ volatile(""); }
APART void tr_solve(void) { answer = wejdarox_tr_solve(factors, FULL, swaps, 128, 64, 64, pairs, dead, column, 64, 1, x, 64); __asm__ volatile(""); }
APART void lower(void) { answer = wejdarox_l(factors, FULL, swaps, 128, 64, 64, pairs, dead, result, FULL); __asm__ volatile(""); }
APART void upper(void) { answer = wejdarox_u(factors, FULL, swaps, 128, 64, 64, pairs, dead, result, FULL); __asm__ volatile(""); }
APART void triangular(void) { answer = wejdarox_solve_upper_triangular(factors, FULL, 64, column, 64, 1, x, 64); __asm__ volatile(""); }
APART void permute(void) { answer = wejdarox_permute_rows(a, FULL, 64, 64, swaps, 128, pairs); __asm__ volatile(""); }
APART void rank(void) { answer = wejdarox_rank(x, 64, 64, ranks, 64, &listed); __asm__ volatile(""); }
APART void order(void) { answer = wejdarox_pad_order(file, sizeof file, ranks, loads, &pads, &toss_ups); __asm__ volatile(""); }
APART void stiffness(void) { answer = wejdarox_stiffness(file, sizeof file, &value, &exponent, &toss_ups); __asm__ volatile(""); }
APART void moves(void) { answer = wejdarox_moves(file, sizeof file, 1, loads, &pads, &toss_ups); __asm__ volatile(""); }
APART void read_panel(void) { answer = wejdarox_read_panel(file, sizeof file, result, FULL, x, 64, &pads); __asm__ volatile(""); }
APART void write_panel(void) { answer = wejdarox_write_panel(64, a, FULL, column, 64, file, sizeof file, &listed); __asm__ volatile(""); }
APART void text(void) { answer = wejdarox_text(file, sizeof file, printed) <= REFUSED; __asm__ volatile(""); }
APART void moves_text(void) { answer = wejdarox_moves_text(file, sizeof file, 1, printed) <= REFUSED; __asm__ volatile(""); }
APART void stiffness_text(void) { answer = wejdarox_stiffness_text(file, sizeof file, printed) <= REFUSED; __asm__ volatile(""); }
APART void why_text(void) { answer = wejdarox_why_text(file, sizeof file, printed) != REFUSED; __asm__ volatile(""); }
APART void four_pads(void) { answer = wejdarox_four_pads(a, column, factors, &pairs, swaps, x); __asm__ volatile(""); }
APART void four_pads_of(void) { answer = wejdarox_four_pads_of(file, HEAD + 20 * 8, factors, &pairs, swaps, x); __asm__ volatile(""); }
APART void with_file(void) { answer = wejdarox_with_file(file, sizeof file, &season); __asm__ volatile(""); }

static size_t taken(void (*call)(void)) {
    paint();
    nothing();
    size_t empty = used();
    paint();
    call();
    return used() - empty;
}

// A line "NAME BYTES"; ends the program where the call is refused, since it then did not do its work.
static void say(const char *name, void (*call)(void)) {
    size_t bytes = taken(call), k = 0, first;
    char digits[24], line[64];
    if (answer != 0) { put("refused\n", 8); leave(1); }
    while (name[k]) { line[k] = name[k]; k++; }
    line[k++] = ' ';
    first = sizeof digits;
    do { digits[--first] = (char)('0' + bytes % 10); bytes /= 10; } while (bytes);
    while (first < sizeof digits) line[k++] = digits[first++];
    line[k++] = '\n';
    put(line, k);
}

static void numbers(double *p, int count) {
    static unsigned state = 12345;
    while (count--) { state = state * 1664525u + 1013904223u; *p++ = (double)(state >> 8) / 4194304.0 - 2.0; }
}

__attribute__((used)) void start(void) {
    numbers(a, FULL);
    numbers(column, 64);
    memcpy(file, "LXP\1\0\100", HEAD);
    memcpy(file + HEAD, a, sizeof a);
    memcpy(file + HEAD + sizeof a, column, sizeof column);
    say("factor", factor);
    wejdarox_factor(a, FULL - 64, 64, 63, factors, FULL - 64, swaps, 128, &pairs, &dead, &toss_ups);
    say("add_column", add);
    say("solve", solve);
    say("tr_solve", tr_solve);
    say("why_solve", why_solve);
    say("l", lower);
    say("u", upper);
    say("solve_upper", triangular);
    say("permute_rows", permute);
    say("inverse", inverse);
    say("determinant", determinant);
    say("scaled_determinant", scaled);
    say("is_invertible", is_invertible);
    say("rank", rank);
    say("pad_order", order);
    say("stiffness", stiffness);
    say("with_file", with_file);
    say("moves", moves);
    say("read_panel", read_panel);
    say("write_panel", write_panel);
    say("text", text);
    say("moves_text", moves_text);
    say("stiffness_text", stiffness_text);
    say("why_text", why_text);
    say("remove_column", remove_column);
    say("build_up", build_up);
    say("why_factor", why_factor);
    memset(a, 0, 64 * sizeof *a); // the first step is skipped
    wejdarox_factor(a, FULL - 64, 64, 63, factors, FULL - 64, swaps, 128, &pairs, &dead, &toss_ups);
    say("add_skipped", add);
    numbers(a, 16);
    memcpy(file, "LXP\1\0\4", HEAD);
    say("four_pads", four_pads);
    say("four_pads_of", four_pads_of);
    leave(0);
}
