/* List beside its own tree walked by the letter, which gives the count and the rows, and beside the solver that tries
 * all choices: with each number of rows up to one more than there are layouts, or up to what the room holds. */
#include "trials.hpp"

namespace trials {

namespace {

constexpr size_t ROOM = 520, MOST_ROWS = 40, LONG_TABLE = 300;
constexpr uint32_t MOST_SPLITS = 500;

size_t most_rows(size_t n) { return n == 0 ? MOST_ROWS : std::min(MOST_ROWS, ROOM / n); }

/* The layout at a place of the order, from all those in which the free placements before the others are left out. */
Bytes nth_layout(const std::vector<Bytes> &layouts, size_t free, size_t place) {
    Bytes row = layouts[place % layouts.size()];
    size_t choice = place / layouts.size();
    for (size_t i = 0; i < free && i < 32; i++) row[free - 1 - i] = choice >> i & 1;
    return row;
}

void compare_choices(const Filing &f, const Walk &walk) {
    if (!can_try_all(f)) return;
    size_t free = free_before(f);
    std::vector<Bytes> layouts = try_all_choices(f, free);
    Comparison c;
    for (size_t i = 0; i < walk.rows.size() && !layouts.empty(); i++)
        c.same("row", nth_layout(layouts, free, i), walk.rows[i]);
    c.holds("layouts only where there are some", walk.rows.empty() || !layouts.empty());
    if (walk.ended) c.same("layouts", free < 32 ? layouts.size() << free : 0, walk.rows.size());
    if (c.differs()) c.disagree({"the reference's walk beside all choices"});
}

void list_once(const Filing &f, const Walk *walk, size_t k, uint32_t allowance, size_t room, Tally &tally) {
    Lent<int16_t> table(f.table);
    Lent<uint8_t> rows(filler<uint8_t>(room));
    Listed expected = {list_refusal(f, k, room), rows.now()};
    if (passes(expected.answer)) expected = list(*walk, f.n, k, allowance, rows.now());
    Answer came = face::list(table.data(), table.size(), f.n, k, allowance, rows.data(), rows.size());
    Comparison c;
    c.same(expected.answer, came);
    c.same("rows", expected.rows, rows);
    c.kept("table", table);
    if (c.differs()) c.disagree({"list, k", shown(k), "allowance", shown(allowance), "room", shown(room)});
    tally.number(came.number);
    if (came.more) tally.add("with more");
    tally.add("rows", came.rows);
}

/* With the largest allowance or, where the tree may need far too much, the one that it was walked with; with the count,
 * and with less. */
void list_rows(const Filing &f, const Walk &walk, size_t k, Random &r, Tally &tally) {
    size_t room = r.once_in(2) ? k * f.n : k * f.n + r.below(9);
    uint32_t count = walk.needs(k);
    tally.add("splits", count);
    tally.most("most splits", count);
    if (!walk.reaches(k)) {
        list_once(f, &walk, k, MOST_SPLITS, room, tally);
        return;
    }
    list_once(f, &walk, k, UINT32_MAX, room, tally);
    list_once(f, &walk, k, count, room, tally);
    if (count > 0) list_once(f, &walk, k, count - 1, room, tally);
    if (count > 0) list_once(f, &walk, k, (uint32_t)r.below(count), room, tally);
}

/* So many rows that k times n is above every number of 64 bits, and its low bits are fewer than n. */
size_t too_many_rows(size_t n) { return n < 2 ? SIZE_MAX : SIZE_MAX / n + 1; }

/* One byte too few, no room at all, and too many rows; without placements there is room for any number. */
void list_short(const Filing &f, const Walk &walk, Random &r, Tally &tally) {
    if (f.n == 0) {
        list_once(f, &walk, SIZE_MAX, UINT32_MAX, r.below(3), tally);
        return;
    }
    size_t k = 1 + r.below(most_rows(f.n));
    list_once(f, &walk, k, UINT32_MAX, 0, tally);
    list_once(f, &walk, k, UINT32_MAX, k * f.n - 1, tally);
    list_once(f, &walk, too_many_rows(f.n), UINT32_MAX, ROOM, tally);
}

/* Room for every number of bytes. */
void list_lengths(const Filing &f, const Walk &walk, Tally &tally) {
    for (size_t k = 0; k <= 2; k++)
        for (size_t room = 0; room <= k * f.n + SPARE; room++) list_once(f, &walk, k, MOST_SPLITS, room, tally);
}

void list_filing(const Filing &f, size_t number, Random r, Tally &tally) {
    if (!passes(check(f.table, f.n))) {
        list_once(f, nullptr, 1, UINT32_MAX, ROOM, tally);
        list_once(f, nullptr, too_many_rows(f.n == 0 ? 2 : f.n), 0, 0, tally);
        return;
    }
    size_t most = f.table.size() > LONG_TABLE ? 2 : most_rows(f.n);
    Walk walk = Lister(f, most + 1, MOST_SPLITS).run();
    compare_choices(f, walk);
    size_t last = walk.ended ? std::min(walk.rows.size() + 1, most) : most;
    for (size_t k = 0; k <= last; k++) list_rows(f, walk, k, r, tally);
    tally.add(walk.ended ? "filings with every k up to one above their layouts" : "filings with every k in the room");
    list_short(f, walk, r, tally);
    if (has_all_lengths(number, f.n)) list_lengths(f, walk, tally);
}

/* "The first row, where there is one, equals the plan of a plain search that isn't stopped." */
void compare_first_row(const Filing &f) {
    if (!passes(check(f.table, f.n)) || f.table.size() > LONG_TABLE) return;
    Walk walk = Lister(f, 1, MOST_SPLITS).run();
    Comparison c;
    if (!walk.rows.empty()) c.same("first row", Search(f, UINT32_MAX).run().plan, walk.rows[0]);
    if (c.differs()) c.disagree({"the reference's first row"});
}

} // namespace

void list_trial() {
    Tally tally;
    for (size_t number = 0; number < ALL_FILINGS; number++)
        try_filing(filing_of(number), [&](const Filing &f) {
            list_filing(f, number, Random(number + 7000), tally);
            if (number % 8 == 0) compare_first_row(f);
        });
    tally.show(
        {{PLATEWRIGHT_LAID_OUT, "laid out"}, {PLATEWRIGHT_NO_LAYOUT, "no layout"}, {PLATEWRIGHT_STOPPED, "stopped"}});
}

} // namespace trials
