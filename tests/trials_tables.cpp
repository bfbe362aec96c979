/* Check, check in parts and index, beside slow checks of the same tables. */
#include "trials.hpp"

namespace trials {

namespace {

Answer expected_check(const Filing &f) { return check(f.table, f.n); }

void check_whole(const Filing &f, Tally &tally) {
    Lent<int16_t> table(f.table);
    Comparison c;
    Answer came = face::check(table.data(), table.size(), f.n);
    c.same(expected_check(f), came);
    c.kept("table", table);
    if (c.differs()) c.disagree({"check"});
    tally.number(came.number);
}

/* What the header says of the pass that a first part leaves. */
void compare_pass(Comparison &c, const Entries &part, size_t n, const platewright_pass &pass) {
    size_t wrong = 0;
    while (wrong < part.size() && size_of(part[wrong]) <= n) wrong++;
    bool unknown = wrong < part.size();
    c.same("placements of the pass", n, pass.placements);
    c.same("groups of the pass", std::min(groups_in(part), MAX_GROUPS + 1), (size_t)pass.groups);
    c.same("entries of the pass", std::min(entries_in(part), MAX_ENTRIES + 1), (size_t)pass.entries);
    c.same("open group of the pass", !part.empty() && part.back() != 0, pass.open);
    c.same("unknown placement of the pass", unknown, pass.unknown);
    if (!unknown || groups_in(part) > MAX_GROUPS || entries_in(part) > MAX_ENTRIES) return; /* 2 or 3 speaks */
    c.same("place of the pass", wrong, pass.place);
    c.same("group of the pass", groups_in(first(part, wrong)) + 1, (size_t)pass.group);
}

/* In parts that end at these places. The answer is right "at every point of the way". */
void check_parts(const Filing &f, std::vector<size_t> cuts, Tally &tally) {
    Comparison c;
    platewright_pass pass = face::check_begin(f.n);
    size_t from = 0;
    cuts.push_back(f.table.size());
    for (size_t to : cuts) {
        to = std::min(std::max(to, from), f.table.size());
        Lent<int16_t> part(Entries(f.table.begin() + (long)from, f.table.begin() + (long)to));
        pass = face::check_part(pass, part.data(), part.size());
        c.kept("part", part);
        compare_pass(c, first(f.table, to), f.n, pass);
        Answer came = face::check_end(pass);
        c.same(check(first(f.table, to), f.n), came);
        tally.number(came.number);
        from = to;
    }
    if (c.differs()) c.disagree({"check in parts that end at", shown(cuts)});
    tally.add("tables checked in parts");
}

enum { SHORT_TABLE = 24, PARTS = 7, LONG_TABLE = 70000 };

std::vector<size_t> any_cuts(size_t length, Random &r) {
    std::vector<size_t> cuts;
    for (size_t i = 0; i < PARTS; i++) cuts.push_back(r.once_in(3) && i > 0 ? cuts.back() : r.below(length + 1));
    std::sort(cuts.begin(), cuts.end());
    return cuts;
}

void index_once(const Filing &f, size_t starts_room, size_t entries_room, Tally &tally) {
    Lent<int16_t> table(f.table);
    Lent<size_t> starts(filler<size_t>(starts_room)), entries(filler<size_t>(entries_room));
    Indexed expected = index(f, starts.now(), entries.now());
    Answer came =
        face::index(table.data(), table.size(), f.n, starts.data(), starts.size(), entries.data(), entries.size());
    Comparison c;
    c.same(expected.answer, came);
    c.same("starts", expected.starts, starts);
    c.same("entries", expected.entries, entries);
    c.kept("table", table);
    if (c.differs()) c.disagree({"index, room for", shown(starts_room), "starts and", shown(entries_room), "entries"});
    tally.number(came.number);
    tally.most("most groups", passes(check(f.table, f.n)) ? groups_in(f.table) : 0);
}

/* Far more elements than 16 bits count, with a wrong one far behind. */
void check_long(Tally &tally) {
    for (int16_t element : {0, 1, 2}) {
        Entries table(LONG_TABLE, element);
        for (int16_t last : {0, 1, 9}) {
            table.back() = last;
            try_filing({1, table}, [&](const Filing &f) {
                check_whole(f, tally);
                for (size_t cut : {(size_t)1, MAX_GROUPS, (size_t)UINT16_MAX + 1, (size_t)LONG_TABLE - 1})
                    check_parts(f, {cut}, tally);
            });
        }
    }
}

} // namespace

/* Whole; in two parts, cut anywhere (a short table everywhere); in several parts, some of them empty. */
void check_trial() {
    Tally tally;
    for (size_t number = 0; number < ALL_FILINGS; number++)
        try_filing(filing_of(number), [&](const Filing &f) {
            Random r(number + 1000);
            check_whole(f, tally);
            bool all = f.table.size() <= SHORT_TABLE && number % 4 == 0;
            for (size_t cut = 0; cut <= f.table.size() && all; cut++) check_parts(f, {cut}, tally);
            if (!all) check_parts(f, {r.below(f.table.size() + 1)}, tally);
            check_parts(f, any_cuts(f.table.size(), r), tally);
        });
    check_long(tally);
    tally.show({{PLATEWRIGHT_DONE, "tables passed"}});
}

void index_trial() {
    Tally tally;
    for (size_t number = 0; number < ALL_FILINGS; number++)
        try_filing(filing_of(number), [&](const Filing &f) {
            Random r(number + 2000);
            size_t groups = groups_in(f.table);
            index_once(f, r.room(groups), r.room(groups), tally);
            for (size_t i = 0; has_all_lengths(number, groups) && i < (groups + SPARE) * (groups + SPARE); i++)
                index_once(f, i / (groups + SPARE), i % (groups + SPARE), tally);
        });
    tally.show({{PLATEWRIGHT_INDEXED, "tables indexed"}});
}

} // namespace trials
