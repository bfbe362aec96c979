/* A group editor: while a group is typed the whole set is checked in parts, and a preview tells what the group would
 * settle and which group settles it; then the group is added, settled, and taken back. */
#include <stdio.h>

#include "platewright.h"

enum { PLACEMENTS = 4, ROOM = 32, USED = 4 };

#define LENGTH(list) (sizeof(list) / sizeof(*(list)))

/* The set so far: exactly one of 1, 2, 3. */
static int16_t buffer[ROOM] = {1, 2, 3, 0};

static void print_states(platewright_answer answer, const int16_t *list, const uint16_t *reasons) {
    if (answer.number != PLATEWRIGHT_SETTLED) {
        printf(" no layout (number %u)\n", (unsigned)answer.number);
        return;
    }
    for (int p = 1; p <= PLACEMENTS; p++) {
        int state = list[p - 1];
        printf(" %d ", p);
        if (state == PLATEWRIGHT_STATE_TAKEN) printf("taken");
        else if (state == PLATEWRIGHT_STATE_LEFT_OUT) printf("left out");
        else if (state == p) printf("open");
        else printf("%s %d", state > 0 ? "equals" : "opposes", state > 0 ? state : -state);
        if (reasons[p - 1] != 0) printf(" (group %u)", (unsigned)reasons[p - 1]);
        printf(p < PLACEMENTS ? "," : "\n");
    }
}

/* Each keystroke hands over one entry more; the pass of the set before it is kept, and never gone over again. The
 * closing 0 is handed over on trial, to hear what the check would say if the group ended here. */
static void type(const int16_t *group, size_t entries) {
    static const int16_t close[] = {0};
    int16_t list[PLACEMENTS];
    uint16_t reasons[PLACEMENTS];
    platewright_pass pass = platewright_check_part(platewright_check_begin(PLACEMENTS), buffer, USED);
    for (size_t i = 0; i < entries; i++) {
        pass = platewright_check_part(pass, group + i, 1);
        platewright_answer answer = platewright_check_end(platewright_check_part(pass, close, LENGTH(close)));
        printf("typed %d:", group[i]);
        if (answer.number != PLATEWRIGHT_DONE) {
            printf(" number %u, place %zu, group %u\n", (unsigned)answer.number, answer.place, (unsigned)answer.group);
            return;
        }
        answer = platewright_preview(buffer, ROOM, USED, PLACEMENTS, group, i + 1, list, PLACEMENTS, reasons,
                                     PLACEMENTS);
        print_states(answer, list, reasons);
    }
}

static int add_and_take_back(const int16_t *group, size_t entries) {
    int16_t list[PLACEMENTS];
    uint16_t reasons[PLACEMENTS];
    platewright_answer answer = platewright_add(buffer, ROOM, USED, PLACEMENTS, group, entries);
    if (answer.number != PLATEWRIGHT_GROUP_ADDED) return 1;
    size_t used = answer.used;
    printf("added: %zu elements\n", used);
    answer = platewright_settle(buffer, used, PLACEMENTS, list, PLACEMENTS, reasons, PLACEMENTS);
    printf("settled:");
    print_states(answer, list, reasons);
    answer = platewright_take_back(buffer, ROOM, used, PLACEMENTS);
    if (answer.number != PLATEWRIGHT_DONE) return 1;
    printf("taken back: %zu elements\n", answer.used);
    return 0;
}

int main(void) {
    static const int16_t wrong[] = {3, 5};
    static const int16_t group[] = {2, 4, -3};
    type(wrong, LENGTH(wrong));
    type(group, LENGTH(group));
    return add_and_take_back(group, LENGTH(group));
}
