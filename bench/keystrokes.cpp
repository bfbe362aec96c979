/* What one element more costs in the group editor beside a whole check of a table at the limits, in one line. The check
 * in parts goes on from the pass after the elements before (document 02, A4). */
#include "common.hpp"

enum { GROUP_ELEMENTS = PLATEWRIGHT_MAX_TABLE / PLATEWRIGHT_MAX_GROUPS, CHECKS = 100, KEYSTROKES = 100000 };

/* Groups of four entries of both signs, with every placement. */
static std::vector<int16_t> table_at_limits() {
    std::vector<int16_t> table(PLATEWRIGHT_MAX_TABLE);
    for (int i = 0; i < PLATEWRIGHT_MAX_TABLE; i++) {
        int p = i % PLATEWRIGHT_MAX_PLACEMENTS + 1;
        table[(size_t)i] = (int16_t)(i % GROUP_ELEMENTS == GROUP_ELEMENTS - 1 ? 0 : i % 2 ? -p : p);
    }
    return table;
}

static void want_done(platewright_answer answer) {
    if (answer.number != PLATEWRIGHT_DONE) fail("keystrokes", "the table at the limits was refused");
}

int main() {
    const std::vector<int16_t> table = table_at_limits();
    const size_t n = PLATEWRIGHT_MAX_PLACEMENTS, last = table.size() - 1;
    const platewright_pass before = platewright_check_part(platewright_check_begin(n), table.data(), last);
    auto checks = [&] {
        for (int i = 0; i < CHECKS; i++) want_done(platewright_check(table.data(), table.size(), n));
    };
    auto keystrokes = [&] {
        for (int i = 0; i < KEYSTROKES; i++)
            want_done(platewright_check_end(platewright_check_part(before, &table[last], 1)));
    };
    Pair best = best_of(checks, keystrokes);
    double whole = best.first / CHECKS, more = best.second / KEYSTROKES;
    printf("A whole check at the limits %.1f microseconds, one element more and the verdict %.1f nanoseconds: "
           "1/%.0f of it.\n",
        1e6 * whole, 1e9 * more, whole / more);
    return 0;
}
