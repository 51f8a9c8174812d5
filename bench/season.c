// Times a season beside reading its files: wejdarox_with_file, file after file, for panel files of so many pads that this program makes.
//   season FOLDER PADS FILES PASSES   makes the files in FOLDER, then prints lines "WHAT PADS FILES NANOSECONDS" for more and more of them
// WHAT is read (opened, read, closed), season (read and handed over), handed (the bytes are in memory) or refused (the same with a NaN as the last
// number: what the library's reader takes). The files are gone through in parts. What counts of a part is its least time over the passes, so that
// other work on the machine counts little.
#include "wejdarox.h"
#include <errno.h>
#include <fcntl.h>
#include <math.h>
#include <stdio.h>
#include <stdlib.h>
#include <string.h>
#include <time.h>
#include <unistd.h>

enum { HEAD = 6, LARGEST = HEAD + 8 * (64 * 64 + 64), PARTS = 400, IN_MEMORY = 16 };

// What is timed: the folder with its files, some of them in memory, and the same with a NaN at their ends.
static const char *folder;
static size_t pads, files, bytes;
static uint8_t held[IN_MEMORY][LARGEST], spoiled[IN_MEMORY][LARGEST];

static _Noreturn void stop(const char *what, const char *why) {
    fprintf(stderr, "season: %s: %s\n", what, why);
    exit(1);
}

static double now(void) {
    struct timespec t;
    clock_gettime(CLOCK_MONOTONIC, &t);
    return (double)t.tv_sec * 1e9 + (double)t.tv_nsec;
}

// ---- the files

static void name_of(char *name, size_t room, size_t file) { snprintf(name, room, "%s/%04zu.lxp", folder, file); }

static double uniform(void) {
    static uint64_t state = 12345;
    state = state * 6364136223846793005u + 1442695040888963407u;
    return (double)(state >> 33) / 536870912.0 - 2.0;
}

static void put(uint8_t *file, size_t number, double x) { memcpy(file + HEAD + 8 * number, &x, 8); }

static void fill(uint8_t *file) {
    memcpy(file, (uint8_t[HEAD]){'L', 'X', 'P', 1, 0, (uint8_t)pads}, HEAD);
    for (size_t i = 0; i < pads * pads + pads; i++) put(file, i, uniform());
}

static void make_files(void) {
    char name[4096];
    for (size_t file = 0; file < files; file++) {
        uint8_t *made = held[file % IN_MEMORY];
        fill(made);
        name_of(name, sizeof name, file);
        FILE *out = fopen(name, "wb");
        if (!out || fwrite(made, 1, bytes, out) != bytes || fclose(out)) stop(name, strerror(errno));
    }
    for (size_t k = 0; k < IN_MEMORY; k++) {
        memcpy(spoiled[k], held[k], bytes);
        put(spoiled[k], pads * pads + pads - 1, NAN);
    }
}

static const uint8_t *read_file(size_t file) {
    static uint8_t into[LARGEST];
    char name[4096];
    name_of(name, sizeof name, file);
    int from = open(name, O_RDONLY);
    if (from < 0 || read(from, into, LARGEST) != (ssize_t)bytes || close(from)) stop(name, "cannot be read");
    return into;
}

// ---- the time

static size_t right;

static void hand(const uint8_t *file, struct wejdarox_season *season) { right &= wejdarox_with_file(file, bytes, season) == 0; }
static void only_read(size_t file, struct wejdarox_season *season) { right &= season && read_file(file)[5] == pads; }
static void read_and_hand(size_t file, struct wejdarox_season *season) { hand(read_file(file), season); }
static void hand_held(size_t file, struct wejdarox_season *season) { hand(held[file % IN_MEMORY], season); }
static void hand_spoiled(size_t file, struct wejdarox_season *season) { hand(spoiled[file % IN_MEMORY], season); }

static const struct contender { const char *name; void (*turn)(size_t, struct wejdarox_season *); } contenders[] = {
    {"read", only_read}, {"season", read_and_hand}, {"handed", hand_held}, {"refused", hand_spoiled},
};
enum { CONTENDERS = sizeof contenders / sizeof *contenders };

static size_t end_of(int part) { return files * (size_t)(part + 1) / PARTS; }

static void pass(const struct contender *c, double *least) {
    struct wejdarox_season season = {0};
    size_t file = 0;
    for (int part = 0; part < PARTS; part++) {
        double start = now();
        while (file < end_of(part)) c->turn(file++, &season);
        least[part] = fmin(least[part], now() - start);
    }
    if (c->turn != only_read && season.accepted != (c->turn == hand_spoiled ? 0 : files)) stop(c->name, "another number of accepted files");
}

static void tell(const char *what, const double *least) {
    double all = 0;
    for (int part = 0; part < PARTS; part++) {
        all += least[part];
        if ((part + 1) % (PARTS / 8) == 0) printf("%s %zu %zu %.0f\n", what, pads, end_of(part), all);
    }
}

int main(int count, char **arg) {
    static double least[CONTENDERS][PARTS];
    int passes = count == 5 ? atoi(arg[4]) : 0;
    if (passes < 1 || atoi(arg[2]) < 1 || atoi(arg[2]) > 64 || atoi(arg[3]) < PARTS || atoi(arg[3]) > WEJDAROX_FILES) {
        fprintf(stderr, "usage: season FOLDER PADS FILES PASSES; 1 to 64 pads, %d to %d files\n", PARTS, WEJDAROX_FILES);
        return 2;
    }
    folder = arg[1], pads = (size_t)atoi(arg[2]), files = (size_t)atoi(arg[3]), bytes = HEAD + 8 * (pads * pads + pads);
    make_files();
    for (int c = 0; c < CONTENDERS; c++)
        for (int part = 0; part < PARTS; part++) least[c][part] = INFINITY;
    right = 1;
    for (int p = 0; p < passes; p++)
        for (int c = 0; c < CONTENDERS; c++) pass(&contenders[c], least[c]);
    if (!right) stop("the files", "another answer than that of a good season");
    for (int c = 0; c < CONTENDERS; c++) tell(contenders[c].name, least[c]);
    return 0;
}
