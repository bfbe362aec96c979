/* A host of the drawing window: lends a strip of one group of three placements, asks for its first layout and prints
 * the plan, or what is wrong. Valid as C11 and as C++11. */
#include <stdio.h>

#include "platewright.h"

enum { PLACEMENTS = 3, ALLOWANCE = 1000000 };

/* The receipt is number, place, count and group, four bytes each, high byte first. */
static unsigned number_at(const uint8_t *bytes) {
    return (unsigned)bytes[0] << 24 | (unsigned)bytes[1] << 16 | (unsigned)bytes[2] << 8 | (unsigned)bytes[3];
}

int main(void) {
    static const uint8_t strip[] = {'P', 0, PLACEMENTS, 'G', 'T', 0, 1, 'T', 0, 2, 'T', 0, 3, 'E', 'Z'};
    uint8_t plan[PLACEMENTS];
    uint8_t receipt[PLATEWRIGHT_RECEIPT];
    uint32_t number = platewright_window(strip, sizeof strip, ALLOWANCE, plan, sizeof plan, receipt, sizeof receipt);
    if (number != PLATEWRIGHT_LAID_OUT) {
        printf("number %u place %u group %u\n", (unsigned)number, number_at(receipt + 4), number_at(receipt + 12));
        return 1;
    }
    printf("plan %u %u %u, %u splits\n", plan[0], plan[1], plan[2], number_at(receipt + 8));
    return 0;
}
