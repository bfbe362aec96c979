/* Holds the layout of both structs of platewright.h, and calls every function once. Compiled as C11 and as C++11. */
#include <assert.h>
#include <stdio.h>
#include <string.h>

#include "platewright.h"

#define AT(struct, field, offset) static_assert(offsetof(struct, field) == (offset), #struct "." #field)
#define LENGTH(list) (sizeof(list) / sizeof(*(list)))

AT(platewright_answer, number, 0);
AT(platewright_answer, count, 4);
AT(platewright_answer, place, 8);
AT(platewright_answer, n, 16);
AT(platewright_answer, used, 24);
AT(platewright_answer, rows, 32);
AT(platewright_answer, group, 40);
AT(platewright_answer, more, 44);
static_assert(sizeof(platewright_answer) == 48, "platewright_answer");

AT(platewright_pass, placements, 0);
AT(platewright_pass, place, 8);
AT(platewright_pass, group, 16);
AT(platewright_pass, groups, 18);
AT(platewright_pass, entries, 20);
AT(platewright_pass, open, 22);
AT(platewright_pass, unknown, 23);
static_assert(sizeof(platewright_pass) == 24, "platewright_pass");

/* Room for everything here: the table 1 2 3 0 3 4 0 of n = 4, and one group more. */
enum { N = 4, USED = 7, ROOM = 16, GROUPS = 2, ROWS = 3, ALLOWANCE = 1000 };
static const int16_t set[ROOM] = {1, 2, 3, 0, 3, 4, 0};
static const uint8_t strip[] = "P\0\4GT\0\1T\0\2T\0\3EGT\0\3T\0\4EZ"; /* and the string's closing 0 */
enum { STRIP = sizeof strip - 1 };

static int failed;

static void same(const char *what, const void *got, const void *expected, size_t bytes) {
    if (memcmp(got, expected, bytes) == 0) return;
    failed++;
    printf("%s: a list differs\n", what);
}

static platewright_answer answer_of(uint32_t number) {
    platewright_answer answer;
    memset(&answer, 0, sizeof answer);
    answer.number = number;
    return answer;
}

static void is(const char *what, platewright_answer a, platewright_answer b) {
    if (a.number == b.number && a.count == b.count && a.place == b.place && a.n == b.n && a.used == b.used &&
        a.rows == b.rows && a.group == b.group && a.more == b.more)
        return;
    failed++;
    printf("%s: number %u count %u place %zu n %zu used %zu rows %zu group %u more %d\n", what, (unsigned)a.number,
           (unsigned)a.count, a.place, a.n, a.used, a.rows, (unsigned)a.group, a.more);
}

static void test_check(void) {
    platewright_answer unknown = answer_of(PLATEWRIGHT_UNKNOWN_PLACEMENT);
    unknown.place = 5;
    unknown.group = 2;
    is("check", platewright_check(set, USED, N), answer_of(PLATEWRIGHT_DONE));
    is("check, n = 3", platewright_check(set, USED, N - 1), unknown);
    for (size_t cut = 0; cut <= USED; cut++) {
        platewright_pass pass = platewright_check_part(platewright_check_begin(N - 1), set, cut);
        is("check in parts", platewright_check_end(platewright_check_part(pass, set + cut, USED - cut)), unknown);
    }
}

static void test_search_and_list(void) {
    static const uint8_t layouts[ROWS * N] = {0, 0, 1, 0, 0, 1, 0, 1, 1, 0, 0, 1};
    static const int16_t path[N] = {-1, 0, 0, 0};
    uint8_t plan[N];
    int16_t trail[N];
    uint8_t rows[ROWS * N];
    platewright_answer found = answer_of(PLATEWRIGHT_LAID_OUT);
    found.count = 1;
    is("search", platewright_search(set, USED, N, ALLOWANCE, plan, N, trail, N), found);
    same("plan", plan, layouts, sizeof plan);
    same("trail", trail, path, sizeof trail);
    found.count = 2;
    found.place = found.rows = ROWS;
    is("list", platewright_list(set, USED, N, ROWS, ALLOWANCE, rows, LENGTH(rows)), found);
    same("rows", rows, layouts, sizeof rows);
    found.place = found.rows = ROWS - 1;
    found.more = true;
    is("list, a row less", platewright_list(set, USED, N, ROWS - 1, ALLOWANCE, rows, LENGTH(rows)), found);
}

static void test_settle_and_index(void) {
    static const int16_t states[N] = {1, 2, 3, -3};
    static const uint16_t groups[N] = {0, 0, 0, 2};
    static const size_t first[GROUPS] = {0, 4};
    static const size_t lengths[GROUPS] = {3, 2};
    int16_t list[N];
    uint16_t reasons[N];
    size_t starts[GROUPS];
    size_t entries[GROUPS];
    is("settle", platewright_settle(set, USED, N, list, N, reasons, N), answer_of(PLATEWRIGHT_SETTLED));
    same("list", list, states, sizeof list);
    same("reasons", reasons, groups, sizeof reasons);
    is("index", platewright_index(set, USED, N, starts, GROUPS, entries, GROUPS), answer_of(PLATEWRIGHT_INDEXED));
    same("starts", starts, first, sizeof starts);
    same("entries", entries, lengths, sizeof entries);
}

static void test_edit(void) {
    static const int16_t group[] = {3};
    static const int16_t added[ROOM] = {1, 2, 3, 0, 3, 4, 0, 3, 0};
    static const int16_t states[N] = {-257, -257, 257, -257};
    static const uint16_t groups[N] = {1, 1, 3, 2};
    int16_t buffer[ROOM];
    int16_t list[N];
    uint16_t reasons[N];
    platewright_answer edited = answer_of(PLATEWRIGHT_GROUP_ADDED);
    memcpy(buffer, set, sizeof buffer);
    is("preview", platewright_preview(buffer, ROOM, USED, N, group, LENGTH(group), list, N, reasons, N),
       answer_of(PLATEWRIGHT_SETTLED));
    same("previewed list", list, states, sizeof list);
    same("previewed reasons", reasons, groups, sizeof reasons);
    edited.used = USED + 2;
    is("add", platewright_add(buffer, ROOM, USED, N, group, LENGTH(group)), edited);
    same("added", buffer, added, sizeof buffer);
    edited.number = PLATEWRIGHT_DONE;
    edited.used = USED;
    is("take back", platewright_take_back(buffer, ROOM, USED + 2, N), edited);
    same("taken back", buffer, set, sizeof buffer);
}

static void test_strips(void) {
    static const uint8_t layout[N] = {0, 0, 1, 0};
    static const uint8_t told[PLATEWRIGHT_RECEIPT] = {0, 0, 0, 0, 0, 0, 0, 0, 0, 0, 0, 1};
    uint8_t bytes[PLATEWRIGHT_MAX_SAVED];
    int16_t table[PLATEWRIGHT_MAX_TABLE];
    uint8_t plan[N];
    uint8_t receipt[PLATEWRIGHT_RECEIPT];
    platewright_answer handed = answer_of(PLATEWRIGHT_DONE);
    handed.place = STRIP;
    is("save", platewright_save(set, USED, N, bytes, sizeof bytes), handed);
    same("strip", bytes, strip, STRIP);
    handed = answer_of(PLATEWRIGHT_STRIP_READ);
    handed.n = N;
    handed.used = USED;
    is("read", platewright_read(strip, STRIP, table, LENGTH(table)), handed);
    same("table", table, set, USED * sizeof *set);
    if (platewright_window(strip, STRIP, ALLOWANCE, plan, N, receipt, sizeof receipt) != PLATEWRIGHT_LAID_OUT) {
        failed++;
        puts("window: another number");
    }
    same("window's plan", plan, layout, sizeof plan);
    same("receipt", receipt, told, sizeof receipt);
}

int main(void) {
    test_check();
    test_search_and_list();
    test_settle_and_index();
    test_edit();
    test_strips();
    puts(failed ? "header_test: failed" : "header_test: ok");
    return failed != 0;
}
