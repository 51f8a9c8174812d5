/*
 * A crossing of four pads, in C or C++: three columns are factored, the fourth pad is added, the loads solved for and ranked, the file written, a refusal
 * explained. At the top of a checkout, after ./library:
 *
 *     cc $(PKG_CONFIG_PATH=target/library/lib/pkgconfig pkg-config --cflags wejdarox) bindings/c/pads.c target/library/lib/libwejdarox.a -o pads && ./pads
 */
#include <stdio.h>
#include <string.h>
#include <wejdarox.h>

/* Says why, and ends the program. */
static int stopped(size_t answer) {
    printf("refused %d: %s\n", (int)answer, wejdarox_words(answer));
    return 1;
}

int main(void) {
    /* how each of four pads moves the four readings, a column a pad; and the readings */
    const double matrix[16] = {4, 1, 0, 1, 1, 3, 1, 0, 0, 1, 2, 1, 0, 1, 1, 5};
    const double readings[4] = {6, -3, 5, 2};
    double factors[16], loads[4], singular[16];
    size_t swaps[WEJDAROX_SWAPS], ranks[4], pairs, dead, toss_ups, count, i, answer;
    uint8_t file[WEJDAROX_FILE_LENGTH(4)], text[WEJDAROX_TEXT];

    /* the first three pads, with room for the fourth behind them */
    answer = wejdarox_factor(matrix, 12, 4, 3, factors, 12, swaps, WEJDAROX_SWAPS, &pairs, &dead, &toss_ups);
    if (answer) return stopped(answer);
    answer = wejdarox_add_column(factors, 16, matrix + 12, 4, swaps, WEJDAROX_SWAPS, 4, 3, &pairs, &dead, &toss_ups);
    if (answer) return stopped(answer);
    answer = wejdarox_solve(factors, 16, swaps, WEJDAROX_SWAPS, 4, 4, pairs, dead, readings, 4, 1, loads, 4);
    if (answer) return stopped(answer);
    answer = wejdarox_rank(loads, 4, 4, ranks, 4, &count);
    if (answer) return stopped(answer);
    for (i = 0; i < count; i++) printf("pad %d: load %g\n", (int)ranks[i], loads[ranks[i] - 1]);

    answer = wejdarox_write_panel(4, matrix, 16, readings, 4, file, sizeof file, &count);
    if (answer) return stopped(answer);
    printf("%d bytes\n", (int)count);

    /* with the third pad's column for the fourth the matrix is singular */
    memcpy(singular, matrix, sizeof matrix);
    memcpy(singular + 12, matrix + 8, 4 * sizeof(double));
    answer = wejdarox_write_panel(4, singular, 16, readings, 4, file, sizeof file, &count);
    if (answer) return stopped(answer);
    count = wejdarox_why_text(file, count, text);
    printf("%.*s", (int)count, (const char *)text);
    return 0;
}
