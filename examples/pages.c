/* Tables on copy-on-write pages: FINISH stores only words that have the seat's bit, so a page without one is not copied. Each case
   lays both tables in a file, maps it privately, finishes a seat there and prints how many pages the kernel then counts as copies.
   Exits 0 only if all are as many as they must be and the tables hold what they must, or where it says that it is left out. */
#define _POSIX_C_SOURCE 200809L
#include "saltlicker.h"
#include <stdio.h>
#include <stdlib.h>
#include <string.h>
#include <sys/mman.h>
#include <unistd.h>

#define BIT (UINT32_C(1) << SEAT)

enum { SEAT = 5, RECORDS = SALTLICKER_RECORDS, WORDS = 2 * RECORDS, LIVE = 64 };

static char name[] = "/tmp/saltlicker-pages-XXXXXX"; /* by which the kernel's list of mappings is searched */
static int file;
static uint32_t *laid; /* the file's own words: held, then released */

/* Maps both tables. */
static uint32_t *map(int how) {
    uint32_t *tables = mmap(NULL, WORDS * sizeof *tables, PROT_READ | PROT_WRITE, how, file, 0);
    if (tables == MAP_FAILED) perror("mmap"), exit(2);
    return tables;
}

/* How many bytes of the private mapping are no longer the file's. It is found by name, since an emulator has addresses of its own. */
static size_t copied(void) {
    FILE *list = fopen("/proc/self/smaps", "r");
    char line[512], kind[5];
    size_t all = 0, kib;
    for (int ours = 0; list != NULL && fgets(line, sizeof line, list) != NULL;) {
        if (sscanf(line, "%*x-%*x %4s", kind) == 1) ours = kind[3] == 'p' && strstr(line, name) != NULL;
        if (ours && sscanf(line, "Anonymous: %zu kB", &kib) == 1) all += 1024 * kib;
    }
    if (list != NULL) fclose(list);
    return all;
}

static int finish(uint32_t *tables) {
    uint32_t desk[SALTLICKER_DESK_WORDS] = {[2 * SEAT] = 1, [LIVE] = BIT};
    static const uint32_t request[SALTLICKER_REQUEST_WORDS] = {SALTLICKER_FINISH, SEAT, 0};
    saltlicker_answer answer = 0;
    saltlicker_judge(tables, RECORDS, tables + RECORDS, RECORDS, desk, SALTLICKER_DESK_WORDS, request,
                     SALTLICKER_REQUEST_WORDS, &answer, 1);
    return saltlicker_code(answer) == SALTLICKER_FINISHED;
}

/* The control: that every page counts when every word is stored, changed or not. */
static int store_all(uint32_t *tables) {
    for (volatile uint32_t *word = tables; word < tables + WORDS; word++) *word &= ~BIT;
    return 1;
}

struct span { size_t first, words; };

struct trial {
    const char *what;
    int (*pass)(uint32_t *tables);
    size_t pages;        /* that must be copied */
    struct span bits[4]; /* words with the seat's bit, counted through both tables */
};

/* Other seats have bits all along. */
static void lay(const struct span *bits) {
    for (uint32_t at = 0; at < WORDS; at++) laid[at] = at * UINT32_C(2654435761) & ~BIT;
    for (int span = 0; span < 4; span++)
        for (size_t at = 0; at < bits[span].words; at++) laid[bits[span].first + at] |= BIT;
}

static int holds(const struct trial *trial, size_t page) {
    lay(trial->bits);
    uint32_t *tables = map(MAP_PRIVATE);
    int right = trial->pass(tables);
    size_t pages = copied() / page;
    for (size_t at = 0; at < WORDS; at++) right &= tables[at] == (laid[at] & ~BIT);
    munmap(tables, WORDS * sizeof *tables);
    printf("%s: %zu of %zu pages copied\n", trial->what, pages, WORDS * sizeof *tables / page);
    if (!right) fprintf(stderr, "%s: not the tables or the answer they must be\n", trial->what);
    if (pages != trial->pages) fprintf(stderr, "%s: not %zu pages\n", trial->what, trial->pages);
    return right && pages == trial->pages;
}

int main(void) {
    size_t bytes = (size_t)sysconf(_SC_PAGESIZE), page = bytes / sizeof *laid;
    if (RECORDS % page != 0 || RECORDS / page < 2 || access("/proc/self/smaps", R_OK) != 0)
        return puts("copied pages: left out, since a table is not several pages or /proc/self/smaps is absent"), 0;
    const struct trial trials[] = {
        {"no bits", finish, 0, {{0, 0}}},
        {"one word of held", finish, 1, {{page + 17, 1}}},
        {"two pages of held, one of released", finish, 3, {{17, 1}, {page + 17, 1}, {RECORDS + page + 17, 1}}},
        {"first and last word of a page", finish, 1, {{page, 1}, {2 * page - 1, 1}}},
        {"both ends of both tables", finish, 4, {{0, 1}, {RECORDS - 1, 2}, {WORDS - 1, 1}}},
        {"every word of a page", finish, 1, {{RECORDS + page, page}}},
        {"every word", finish, WORDS / page, {{0, WORDS}}},
        {"no bits, every word stored", store_all, WORDS / page, {{0, 0}}},
    };
    file = mkstemp(name);
    if (file < 0 || unlink(name) != 0 || ftruncate(file, WORDS * sizeof *laid) != 0) return perror(name), 2;
    laid = map(MAP_SHARED);
    int right = 1;
    for (size_t at = 0; at < sizeof trials / sizeof trials[0]; at++) right &= holds(&trials[at], bytes);
    return !right;
}
