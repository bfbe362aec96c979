/* Filings tried by hand: document 01's table and examples of document 02's requests. What is written here, and not the
 * reference, says what must come. */
#include "trials.hpp"

namespace trials {

namespace {

struct By_hand {
    Filing filing;
    uint32_t allowance;
    uint32_t number, count;
    Bytes plan;
    Entries trail;
};

const By_hand searches[] = {
    {{0, {}}, 0, 0, 0, {}, {}},
    {{2, {}}, 0, 0, 0, {0, 0}, {0, 0}},
    {{1, {0}}, 9, 10, 0, {0}, {0}},
    {{1, {1, 0}}, 9, 0, 0, {1}, {0}},
    {{1, {1, 1, 0}}, 9, 10, 0, {0}, {0}},
    {{1, {1, -1, 0}}, 9, 0, 0, {0}, {0}},
    {{2, {1, 2, 0}}, 9, 0, 0, {0, 1}, {0, 0}},
    {{3, {-1, 2, 3, 0}}, 9, 0, 1, {0, 0, 0}, {-1, 0, 0}},
    {{3, {1, 2, 3, 0, 1, 2, -3, 0}}, 9, 10, 0, {0, 0, 0}, {0, 0, 0}},
    {{4, {1, 2, 3, 0, -1, -2, 4, 0}}, 9, 0, 0, {0, 1, 0, 0}, {0, 0, 0, 0}},
    {{4, {1, 2, 3, 4, 0}}, 9, 0, 2, {0, 0, 0, 1}, {-1, -2, 0, 0}},
    {{4, {1, 2, 3, 0, 1, 2, 4, 0, 1, 3, 4, 0}}, 9, 0, 1, {1, 0, 0, 0}, {1, 0, 0, 0}},
    {{4, {1, 2, 3, 0, 1, 2, 4, 0, 1, 3, 4, 0, 2, 3, 4, 0}}, 9, 10, 1, {0, 0, 0, 0}, {0, 0, 0, 0}},
    {{4, {1, 2, 3, 0, 1, 2, 4, 0, 1, 3, 4, 0, 2, 3, 4, 0}}, 0, 11, 0, {0, 0, 0, 0}, {0, 0, 0, 0}},
    {{6, {1, 2, 3, 0, 4, 5, 6, 0}}, 9, 0, 2, {0, 0, 1, 0, 0, 1}, {-1, -4, 0, 0, 0, 0}},
};

void search_by_hand(const By_hand &h) {
    Lent<int16_t> table(h.filing.table), trail(filler<int16_t>(h.filing.n));
    Lent<uint8_t> plan(filler<uint8_t>(h.filing.n));
    Answer expected = answer(h.number);
    expected.count = h.count;
    Comparison c;
    c.same(expected, face::search(table.data(), table.size(), h.filing.n, h.allowance, plan.data(), plan.size(),
                                  trail.data(), trail.size()));
    c.same("plan", h.plan, plan);
    c.same("trail", h.trail, trail);
    if (c.differs()) c.disagree({"search, by hand, allowance", shown(h.allowance)});
}

struct Checked {
    Filing filing;
    uint32_t number;
    size_t place;
    uint32_t group;
};

const Checked checks[] = {
    {{2, {1, -3, 0}}, 5, 1, 1}, {{2, {1, 2}}, 4, 0, 0},           {{257, {1}}, 1, 0, 0},
    {{1, {9, 9}}, 4, 0, 0},     {{1, {0, 0, 9, 0}}, 5, 2, 3},     {{256, {256, -256, 0}}, 18, 0, 0},
    {{0, {1, 0}}, 5, 0, 1},     {{256, {INT16_MIN, 0}}, 5, 0, 1}, {{0, {}}, 18, 0, 0},
};

void check_by_hand(const Checked &h) {
    Lent<int16_t> table(h.filing.table);
    Comparison c;
    c.same(answer(h.number, h.place, h.group), face::check(table.data(), table.size(), h.filing.n));
    if (c.differs()) c.disagree({"check, by hand"});
}

struct Reasoned {
    Filing filing;
    uint32_t number;
    Entries list;
    Reasons reasons;
};

/* A follower keeps the group that first tied it, a root that is tied gets the new one, and a pair gives the later
 * group. */
const Reasoned settles[] = {
    {{3, {1, 2, 0, 1, -2, 3, 0}}, 13, {-257, 257, 257}, {2, 1, 2}},
    {{3, {2, 3, 0, 1, 2, 0}}, 13, {1, -1, 1}, {0, 2, 1}},
    {{4, {1, 2, 3, 0, -1, -2, 4, 0}}, 13, {1, -1, -257, -257}, {0, 2, 1, 2}},
    {{3, {1, 2, 3, 0, 1, 2, -3, 0}}, 10, {0, 0, 0}, {0, 0, 0}},
    {{2, {1, -1, 0}}, 13, {1, 2}, {0, 0}},
};

void settle_by_hand(const Reasoned &h) {
    Lent<int16_t> table(h.filing.table), list(filler<int16_t>(h.filing.n));
    Lent<uint16_t> reasons(filler<uint16_t>(h.filing.n));
    Comparison c;
    c.same(answer(h.number), face::settle(table.data(), table.size(), h.filing.n, list.data(), list.size(),
                                          reasons.data(), reasons.size()));
    c.same("list", h.list, list);
    c.same("reasons", h.reasons, reasons);
    if (c.differs()) c.disagree({"settle, by hand"});
}

struct Rows {
    Filing filing;
    size_t k;
    uint32_t allowance;
    uint32_t number, count;
    size_t place;
    bool more;
    Bytes rows;
};

const Rows lists[] = {
    {{2, {}}, 1, 1, 11, 1, 0, false, {0, 0}},
    {{2, {}}, 1, 9, 0, 2, 1, true, {0, 0}},
    {{2, {}}, 4, 9, 0, 3, 4, false, {0, 0, 0, 1, 1, 0, 1, 1}},
    {{3, {1, 2, 3, 0}}, 0, 9, 0, 2, 0, true, {}},
    {{0, {}}, 0, 0, 0, 0, 0, true, {}},
    {{0, {}}, 5, 0, 0, 0, 1, false, {}},
    {{0, {0}}, 5, 0, 10, 0, 0, false, {}},
    {{1, {}}, 1, 0, 11, 0, 0, false, {0}},
    {{1, {1, 1, 0}}, 2, 0, 10, 0, 0, false, {0, 0}},
    {{2, {1, 2, 0}}, 3, 1, 0, 1, 2, false, {0, 1, 1, 0, 0, 0}},
};

void list_by_hand(const Rows &h) {
    Lent<int16_t> table(h.filing.table);
    Lent<uint8_t> rows(filler<uint8_t>(h.rows.size()));
    Answer expected = answer(h.number, h.place);
    expected.count = h.count;
    expected.rows = h.place;
    expected.more = h.more;
    Comparison c;
    c.same(expected, face::list(table.data(), table.size(), h.filing.n, h.k, h.allowance, rows.data(), rows.size()));
    c.same("rows", h.rows, rows);
    if (c.differs()) c.disagree({"list, by hand, k", shown(h.k), "allowance", shown(h.allowance)});
}

/* The least strip, and an element too many for the table, which comes before a placement that nobody names. */
void strips_by_hand() {
    Lent<int16_t> none(Entries{});
    Lent<uint8_t> saved(filler<uint8_t>(5));
    Comparison c;
    c.same(answer(PLATEWRIGHT_DONE, 4), face::save(none.data(), 0, 0, saved.data(), saved.size()));
    c.same("strip", Bytes{0x50, 0, 0, 0x5A, 0xA4}, saved);
    Lent<uint8_t> strip(Bytes{0x50, 0, 2, 0x47, 0x54, 0, 1, 0x45, 0x5A});
    c.same(answer(PLATEWRIGHT_TABLE_SHORT, 4), face::read(strip.data(), strip.size(), none.data(), 0));
    if (c.differs()) c.disagree({"strips, by hand"});
}

template <class T, size_t SIZE> size_t try_each(const T (&list)[SIZE], void (*once)(const T &)) {
    for (const T &h : list)
        try_filing(h.filing, [&](const Filing &f) {
            T given = h;
            given.filing = f;
            if (f.n == h.filing.n && f.table == h.filing.table) once(given);
        });
    return SIZE;
}

} // namespace

void hand_trial() {
    Tally tally;
    tally.add("searches", try_each(searches, search_by_hand));
    tally.add("checks", try_each(checks, check_by_hand));
    tally.add("settles", try_each(settles, settle_by_hand));
    tally.add("lists", try_each(lists, list_by_hand));
    try_strip({}, [](const Bytes &) { strips_by_hand(); });
    tally.show({});
}

} // namespace trials
