/* Settle beside rules 1 to 8 taken step by step, and beside the solver that tries all choices: no layout is excluded,
 * and a dead end has none. */
#include "trials.hpp"

namespace trials {

namespace {

/* Whether a layout is one of those that a state list leaves. */
bool agrees(const Bytes &layout, const Entries &list) {
    for (size_t i = 0; i < list.size(); i++) {
        size_t p = size_of(list[i]);
        bool root = p == (size_t)TAKEN ? true : layout[p - 1] == 1;
        if ((layout[i] == 1) != (list[i] > 0 ? root : !root)) return false;
    }
    return true;
}

void compare_choices(const Filing &f, const Settled &s) {
    if (!can_try_all(f)) return;
    std::vector<Bytes> layouts = try_all_choices(f, free_before(f));
    bool dead = s.answer.number == PLATEWRIGHT_NO_LAYOUT;
    Comparison c;
    c.holds("a dead end has no layout", !dead || layouts.empty());
    for (const Bytes &layout : layouts) c.holds("no layout is excluded", agrees(layout, first(s.list, f.n)));
    if (c.differs()) c.disagree({"the reference's settling beside all choices"});
}

void count_forms(const Settled &s, const Settler &settler, Tally &tally) {
    if (s.answer.number != PLATEWRIGHT_SETTLED) return;
    for (size_t i = 0; i < settler.n; i++) {
        int v = s.list[i];
        tally.add(v == TAKEN        ? "taken"
                  : v == LEFT_OUT   ? "left out"
                  : v == (int)i + 1 ? "open"
                  : v > 0           ? "tied as equal"
                                    : "tied as opposite");
        tally.most("largest reason", s.reasons[i]);
    }
    for (size_t rule = 2; rule <= 8; rule++) tally.add("reasons of rule " + shown(rule) + ":", settler.steps[rule]);
}

void settle_once(const Filing &f, size_t list_room, size_t reasons_room, Tally &tally) {
    Lent<int16_t> table(f.table), list(filler<int16_t>(list_room));
    Lent<uint16_t> reasons(filler<uint16_t>(reasons_room));
    Settled expected = {rooms_refusal(check(f.table, f.n), f.n, list_room, reasons_room), list.now(), reasons.now()};
    if (passes(expected.answer)) {
        Settler settler(f);
        expected = settle(settler, list.now(), reasons.now());
        compare_choices(f, expected);
        count_forms(expected, settler, tally);
    }
    Answer came =
        face::settle(table.data(), table.size(), f.n, list.data(), list.size(), reasons.data(), reasons.size());
    Comparison c;
    c.same(expected.answer, came);
    c.same("list", expected.list, list);
    c.same("reasons", expected.reasons, reasons);
    c.kept("table", table);
    if (c.differs()) c.disagree({"settle, room for", shown(list_room), "states and", shown(reasons_room), "reasons"});
    tally.number(came.number);
}

/* The 512th group ties, after groups at rest. */
Filing last_group_ties() {
    Filing f{2, {}};
    for (size_t g = 1; g < MAX_GROUPS; g++) f.table.insert(f.table.end(), {1, -1, 0});
    f.table.insert(f.table.end(), {1, 2, 0});
    return f;
}

/* Hard filings of each kind. */
enum { HARD_SETTLED = 20 };

} // namespace

void settle_trial() {
    Tally tally;
    for (const char *form : {"taken", "left out", "open", "tied as equal", "tied as opposite", "largest reason"})
        tally.add(form, 0);
    for (size_t number = 0; number < ALL_FILINGS; number++)
        try_filing(filing_of(number), [&](const Filing &f) {
            Random r(number + 5000);
            size_t n = std::min(f.n, MAX_N);
            settle_once(f, r.room(n), r.room(n), tally);
            for (size_t i = 0; has_all_lengths(number, f.n) && i < (f.n + SPARE) * (f.n + SPARE); i++)
                settle_once(f, i / (f.n + SPARE), i % (f.n + SPARE), tally);
        });
    for (size_t number = 0; number < HARD_KINDS * HARD_SETTLED; number++) {
        Random r(number + 6000);
        try_filing(hard_filing(number % HARD_KINDS, r), [&](const Filing &f) { settle_once(f, f.n, f.n, tally); });
    }
    try_filing(last_group_ties(), [&](const Filing &f) { settle_once(f, f.n, f.n, tally); });
    tally.show({{PLATEWRIGHT_SETTLED, "settled"}, {PLATEWRIGHT_NO_LAYOUT, "dead ends"}});
}

} // namespace trials
