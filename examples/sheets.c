/* Eight figures on two sheets of six cells, with a rule of each kind that the manual's 'Writing your rules' explains;
 * the first layout is drawn as text, or with the argument --svg as an SVG picture.
 *
 * Cells 1 to 6 are sheet 1, two rows of three; cells 7 to 12 are sheet 2. */
#include <stdio.h>
#include <stdlib.h>
#include <string.h>

#include "platewright.h"

enum { FIGURES = 8, SHEETS = 2, COLUMNS = 3, SHEET_CELLS = 6, CELLS = SHEETS * SHEET_CELLS, ALLOWANCE = 1000000 };

/* The set, which grows group by group, and the group that is being written. */
static int16_t table[PLATEWRIGHT_MAX_TABLE];
static size_t used;
static size_t n = FIGURES * CELLS + CELLS;
static int16_t group[PLATEWRIGHT_MAX_ENTRIES];
static size_t entries;

/* The placement of a figure in a cell. Of a figure's twelve placements cell 1 is numbered last: where all else allows
 * it, the first layout takes what is numbered last. Figure 1 is numbered first, so its wish counts most. */
static int in_cell(int figure, int cell) { return (figure - 1) * CELLS + (CELLS - cell) + 1; }

/* The placement that says that a cell is blank. */
static int blank(int cell) { return FIGURES * CELLS + cell; }

/* A spare placement, numbered after all others: it follows from them, and is to decide nothing. */
static int spare(void) { return (int)++n; }

static void enter(int entry) { group[entries++] = (int16_t)entry; }

/* All places of a figure on a sheet: exactly one of these entries holds when it is there, and none when it isn't. */
static void enter_sheet(int figure, int sheet) {
    for (int i = 1; i <= SHEET_CELLS; i++) enter(in_cell(figure, (sheet - 1) * SHEET_CELLS + i));
}

static void close_group(void) {
    platewright_answer answer = platewright_add(table, PLATEWRIGHT_MAX_TABLE, used, n, group, entries);
    if (answer.number != PLATEWRIGHT_GROUP_ADDED) {
        fprintf(stderr, "number %u, place %zu\n", (unsigned)answer.number, answer.place);
        exit(1);
    }
    used = answer.used;
    entries = 0;
}

/* Every figure stands in exactly one cell; every cell holds exactly one figure or is blank. */
static void write_sheets(void) {
    for (int figure = 1; figure <= FIGURES; figure++) {
        for (int sheet = 1; sheet <= SHEETS; sheet++) enter_sheet(figure, sheet);
        close_group();
    }
    for (int cell = 1; cell <= CELLS; cell++) {
        for (int figure = 1; figure <= FIGURES; figure++) enter(in_cell(figure, cell));
        enter(blank(cell));
        close_group();
    }
}

static void write_rules(void) {
    for (int sheet = 0; sheet < SHEETS; sheet++) /* figure 6 stands in a top row */
        for (int i = 1; i <= COLUMNS; i++) enter(in_cell(6, sheet * SHEET_CELLS + i));
    close_group();

    enter_sheet(1, 1); /* figures 1 and 5 on the same sheet: exactly one of '1 on sheet 1' and '5 on sheet 2' */
    enter_sheet(5, 2);
    close_group();

    enter_sheet(2, 1); /* figures 2 and 3 apart: exactly one of them on sheet 1 */
    enter_sheet(3, 1);
    close_group();

    enter(in_cell(1, 1)); /* never both figure 1 in cell 1 and figure 2 in cell 2 */
    enter(in_cell(2, 2));
    enter(spare());
    close_group();

    enter_sheet(4, 1); /* if figure 4 is on sheet 1, so is 7: never both '4 on sheet 1' and '7 on sheet 2' */
    enter_sheet(7, 2);
    enter(spare());
    close_group();

    enter(blank(6)); /* cell 6 is kept blank, for the stamp */
    close_group();

    enter(blank(6)); /* cell 12 equals cell 6: exactly one of '6 is blank' and '12 isn't' */
    enter(-blank(12));
    close_group();

    enter(blank(3)); /* of cells 3 and 9 exactly one is blank */
    enter(blank(9));
    close_group();
}

/* The figure in a cell, 0 where it is blank. */
static int figure_in(const uint8_t *plan, int cell) {
    for (int figure = 1; figure <= FIGURES; figure++)
        if (plan[in_cell(figure, cell) - 1]) return figure;
    return 0;
}

static void draw_text(const uint8_t *plan) {
    printf("sheet 1        sheet 2\n+---+---+---+  +---+---+---+\n");
    for (int row = 0; row < SHEET_CELLS / COLUMNS; row++) {
        for (int sheet = 0; sheet < SHEETS; sheet++) {
            for (int i = 1; i <= COLUMNS; i++) {
                int figure = figure_in(plan, sheet * SHEET_CELLS + row * COLUMNS + i);
                printf("| %c ", figure ? '0' + figure : ' ');
            }
            printf(sheet + 1 < SHEETS ? "|  " : "|\n");
        }
        printf("+---+---+---+  +---+---+---+\n");
    }
}

static void draw_svg(const uint8_t *plan) {
    enum { SIDE = 60, GAP = 30, WIDTH = SHEETS * COLUMNS * SIDE + 3 * GAP, HEIGHT = 2 * SIDE + 2 * GAP };
    printf("<svg xmlns=\"http://www.w3.org/2000/svg\" width=\"%d\" height=\"%d\" font-family=\"sans-serif\" "
           "font-size=\"24\" text-anchor=\"middle\">\n<rect width=\"%d\" height=\"%d\" fill=\"#ddd\"/>\n",
           WIDTH, HEIGHT, WIDTH, HEIGHT);
    for (int cell = 1; cell <= CELLS; cell++) {
        int sheet = (cell - 1) / SHEET_CELLS;
        int within = (cell - 1) % SHEET_CELLS;
        int x = GAP + sheet * (COLUMNS * SIDE + GAP) + within % COLUMNS * SIDE;
        int y = GAP + within / COLUMNS * SIDE;
        int figure = figure_in(plan, cell);
        printf("<rect x=\"%d\" y=\"%d\" width=\"%d\" height=\"%d\" fill=\"white\" stroke=\"black\"/>\n", x, y, SIDE,
               SIDE);
        if (figure) printf("<text x=\"%d\" y=\"%d\">%d</text>\n", x + SIDE / 2, y + SIDE / 2 + 8, figure);
    }
    printf("</svg>\n");
}

int main(int count, char **words) {
    static uint8_t plan[PLATEWRIGHT_MAX_PLACEMENTS];
    static int16_t trail[PLATEWRIGHT_MAX_PLACEMENTS];
    write_sheets();
    write_rules();
    platewright_answer answer = platewright_search(table, used, n, ALLOWANCE, plan, PLATEWRIGHT_MAX_PLACEMENTS, trail,
                                                   PLATEWRIGHT_MAX_PLACEMENTS);
    if (answer.number != PLATEWRIGHT_LAID_OUT) {
        printf("number %u\n", (unsigned)answer.number);
        return 1;
    }
    if (count > 1 && strcmp(words[1], "--svg") == 0) {
        draw_svg(plan);
        return 0;
    }
    printf("%zu placements, %zu elements, %u splits\n", n, used, (unsigned)answer.count);
    draw_text(plan);
    return 0;
}
