/* The first layout of a set, and then all of them.
 *
 * Three figures go into three cells: figure f in cell c is placement 3 * (f - 1) + c. Each figure stands in exactly one
 * cell, and each cell holds exactly one figure: six groups of three. Figure 1 must not stand in cell 3: a group of
 * one. */
#include <stdio.h>

#include "platewright.h"

enum { PLACEMENTS = 9, ROWS = 5, ALLOWANCE = 1000 };

#define LENGTH(list) (sizeof(list) / sizeof(*(list)))

static const int16_t table[] = {
    1, 2, 3, 0, 4, 5, 6, 0, 7, 8, 9, 0, /* each figure in one cell */
    1, 4, 7, 0, 2, 5, 8, 0, 3, 6, 9, 0, /* each cell with one figure */
    -3, 0,                              /* placement 3 is left out */
};

static void print_row(const uint8_t *row) {
    for (int p = 0; p < PLACEMENTS; p++) printf(" %d", row[p]);
    printf("\n");
}

static void print_trail(const int16_t *trail) {
    printf("trail");
    for (int i = 0; i < PLACEMENTS && trail[i] != 0; i++) printf(" %d", trail[i]);
    printf("\n");
}

static int search(void) {
    uint8_t plan[PLACEMENTS];
    int16_t trail[PLACEMENTS];
    platewright_answer answer =
        platewright_search(table, LENGTH(table), PLACEMENTS, ALLOWANCE, plan, LENGTH(plan), trail, LENGTH(trail));
    if (answer.number != PLATEWRIGHT_LAID_OUT) {
        printf("search: number %u\n", (unsigned)answer.number); /* 10, no layout; 11, stopped; or a refusal */
        return 1;
    }
    printf("the first layout, after %u splits\nplan", (unsigned)answer.count);
    print_row(plan);
    print_trail(trail);
    return 0;
}

/* Rows for more layouts than there are, so that the answer has all of them; with fewer rows `more` would be true. */
static int list(void) {
    uint8_t rows[ROWS * PLACEMENTS];
    platewright_answer answer =
        platewright_list(table, LENGTH(table), PLACEMENTS, ROWS, ALLOWANCE, rows, LENGTH(rows));
    if (answer.number != PLATEWRIGHT_LAID_OUT) {
        printf("list: number %u\n", (unsigned)answer.number);
        return 1;
    }
    printf("%zu layouts%s, %u splits\n", answer.rows, answer.more ? " and more" : "", (unsigned)answer.count);
    for (size_t i = 0; i < answer.rows; i++) print_row(rows + i * PLACEMENTS);
    return 0;
}

int main(void) { return search() || list(); }
