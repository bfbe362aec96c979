/* A set that comes as a strip: it is read into a table, its groups are looked up, a rule is put before them, and it is
 * handed on as a strip. A strip that is wrong is told by number and place. */
#include <stdio.h>
#include <string.h>

#include "platewright.h"

enum { RULE = 3 };

/* What a whole set needs, once: no set within the limits is larger. */
static int16_t table[PLATEWRIGHT_MAX_TABLE];
static size_t starts[PLATEWRIGHT_MAX_GROUPS];
static size_t entries[PLATEWRIGHT_MAX_GROUPS];
static uint8_t saved[PLATEWRIGHT_MAX_SAVED];

static void print_groups(size_t used, size_t n) {
    if (platewright_index(table, used, n, starts, PLATEWRIGHT_MAX_GROUPS, entries, PLATEWRIGHT_MAX_GROUPS).number !=
        PLATEWRIGHT_INDEXED)
        return;
    size_t at = 0; /* the groups end where the next one would begin */
    for (size_t i = 0; at < used; i++) {
        printf("group %zu:", i + 1);
        for (size_t e = 0; e < entries[i]; e++) printf(" %d", table[starts[i] + e]);
        printf("\n");
        at = starts[i] + entries[i] + 1;
    }
}

static void print_strip(size_t bytes) {
    printf("strip:");
    for (size_t i = 0; i < bytes; i++) printf(" %02X", saved[i]);
    printf("\n");
}

static int show(const uint8_t *strip, size_t bytes) {
    static const int16_t rule[RULE] = {-1, 2, 0};
    platewright_answer answer = platewright_read(strip, bytes, table, PLATEWRIGHT_MAX_TABLE);
    if (answer.number != PLATEWRIGHT_STRIP_READ) {
        printf("refused: number %u, place %zu", (unsigned)answer.number, answer.place);
        if (answer.number == PLATEWRIGHT_UNKNOWN_PLACEMENT) printf(", group %u", (unsigned)answer.group);
        printf("\n");
        return 0;
    }
    size_t n = answer.n;
    size_t used = answer.used;
    printf("read: %zu placements, %zu elements\n", n, used);
    print_groups(used, n);

    /* An edit that is neither adding nor taking back is the program's own: it keeps the room, and then checks. */
    if (used + RULE > PLATEWRIGHT_MAX_TABLE) return 1;
    memmove(table + RULE, table, used * sizeof *table);
    memcpy(table, rule, sizeof rule);
    used += RULE;
    printf("with -1 2 as group 1: number %u\n", (unsigned)platewright_check(table, used, n).number);
    answer = platewright_save(table, used, n, saved, PLATEWRIGHT_MAX_SAVED);
    if (answer.number != PLATEWRIGHT_DONE) return 1;
    print_strip(answer.place);
    return 0;
}

int main(void) {
    /* P gives the placements, C is a chapter, G opens a group, T is taken, L left out, E closes the group, Z ends. */
    static const uint8_t good[] = {'P', 0, 3, 'C', 1,   'G', 'T', 0, 1,   'T', 0,
                                   2,   'E', 'G', 'L', 0, 2,   'T', 0, 3,   'E', 'Z'};
    static const uint8_t unknown[] = {'P', 0, 1, 'G', 'T', 0, 1, 'E', 'G', 'T', 0, 2, 'E', 'Z'};
    static const uint8_t cut[] = {'P', 0, 1, 'G', 'T', 0, 1, 'E'};
    return show(good, sizeof good) || show(unknown, sizeof unknown) || show(cut, sizeof cut);
}
