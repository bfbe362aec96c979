/* Properties of the operations beside one another, on filings that rapidcheck makes up and, where one fails, shrinks to
 * the smallest. */
#include <rapidcheck/Assertions.h>
#include <rapidcheck/Check.h>
#include <rapidcheck/gen/Arbitrary.h>
#include <rapidcheck/gen/Container.h>
#include <rapidcheck/gen/Numeric.h>
#include <rapidcheck/gen/Transform.h>

#include <iostream>
#include <sstream>

#include "trials.hpp"

namespace reference {

void showValue(const Filing &f, std::ostream &out) { out << trials::shown(f); }

} // namespace reference

namespace rc {

enum { MOST_PLACEMENT = 7, MOST_ELEMENTS = 28, CLOSING = 6 };

/* An element: 0 where the number is low, then 1 to 7 and -1 to -7. */
inline int16_t element_of(int i) {
    int e = i - CLOSING + 1;
    return (int16_t)(e <= 0 ? 0 : e <= MOST_PLACEMENT ? e : MOST_PLACEMENT - e);
}

/* n is as large as the entries need, or some more. */
inline reference::Filing filing_with(reference::Entries table) {
    reference::Filing f;
    if (!table.empty()) table.push_back(0);
    for (int16_t e : table) f.n = std::max(f.n, reference::size_of(e));
    f.n += table.size() % 3;
    f.table = table;
    return f;
}

template <> struct Arbitrary<reference::Filing> {
    static Gen<reference::Filing> arbitrary() {
        auto number = gen::resize(kNominalSize, gen::inRange(0, CLOSING + 2 * MOST_PLACEMENT));
        auto table = gen::container<reference::Entries>(gen::map(number, element_of));
        return gen::map(gen::resize(MOST_ELEMENTS, table), filing_with);
    }
};

} // namespace rc

namespace trials {

namespace {

enum : size_t { FILINGS_OF_EACH = 3000 };

uint32_t number_of(const std::vector<Bytes> &layouts) {
    return layouts.empty() ? PLATEWRIGHT_NO_LAYOUT : PLATEWRIGHT_LAID_OUT;
}

Answer search_into(const Filing &f, Bytes &plan_after, Entries &trail_after) {
    Lent<int16_t> table(f.table), trail(filler<int16_t>(f.n));
    Lent<uint8_t> plan(filler<uint8_t>(f.n));
    Answer a = face::search(table.data(), table.size(), f.n, UINT32_MAX, plan.data(), f.n, trail.data(), f.n);
    plan_after = plan.now();
    trail_after = trail.now();
    return a;
}

void search_finds_the_first_layout(const Filing &f, Comparison &c) {
    std::vector<Bytes> layouts = try_all_choices(f, 0);
    Bytes plan;
    Entries trail;
    Answer a = search_into(f, plan, trail);
    c.same("number", number_of(layouts), a.number);
    c.same("plan", layouts.empty() ? Bytes(f.n) : layouts[0], plan);
    c.holds("count at most N(n)", a.count <= bound(f.n));
}

/* Each entry of the trail is what the plan says. */
void trail_agrees_with_plan(const Filing &f, Comparison &c) {
    Bytes plan;
    Entries trail;
    Answer a = search_into(f, plan, trail);
    for (int16_t e : trail)
        if (e != 0) c.same("side", e > 0, a.number == PLATEWRIGHT_LAID_OUT && plan[size_of(e) - 1] == 1);
}

void list_has_all_layouts(const Filing &f, Comparison &c) {
    std::vector<Bytes> layouts = try_all_choices(f, 0);
    size_t k = layouts.size();
    Bytes expected;
    for (const Bytes &layout : layouts) expected.insert(expected.end(), layout.begin(), layout.end());
    Lent<int16_t> table(f.table);
    Lent<uint8_t> rows(filler<uint8_t>(k * f.n));
    Answer a = face::list(table.data(), table.size(), f.n, k, UINT32_MAX, rows.data(), rows.size());
    c.same("number", number_of(layouts), a.number);
    c.same("rows", expected, rows);
    c.same("number of rows", k, a.rows);
    c.holds("no more", !a.more);
}

void save_then_read(const Filing &f, Comparison &c) {
    Lent<uint8_t> strip(filler<uint8_t>(PLATEWRIGHT_MAX_SAVED));
    Lent<int16_t> table(f.table), again(filler<int16_t>(f.table.size()));
    Answer saved = face::save(table.data(), table.size(), f.n, strip.data(), strip.size());
    bool named = names_all(f.table, f.n);
    c.same("number of save", named ? PLATEWRIGHT_DONE : PLATEWRIGHT_UNNAMED_PLACEMENT, saved.number);
    if (saved.number != PLATEWRIGHT_DONE) return;
    Answer read = face::read(strip.data(), saved.place, again.data(), again.size());
    c.same("number of read", PLATEWRIGHT_STRIP_READ, read.number);
    c.same("n", f.n, read.n);
    c.same("used length", f.table.size(), read.used);
    c.same("table", f.table, again);
}

/* The filing's last group apart, where there is one. */
struct Cut {
    Entries table, group;
};

Cut cut_last(const Filing &f) {
    size_t used = take_back(f.table, f.table.size(), f.n).answer.used, end = f.table.empty() ? 0 : f.table.size() - 1;
    return {first(f.table, used), Entries(f.table.begin() + (long)used, f.table.begin() + (long)end)};
}

void add_then_take_back(const Filing &f, Comparison &c) {
    Cut cut = cut_last(f);
    size_t used = cut.table.size(), length = used + cut.group.size() + 1;
    Entries before = cut.table, after = cut.table;
    before.resize(length + 2, 99);
    after.resize(length, 0);
    after.resize(length + 2, 99);
    Lent<int16_t> buffer(before), group(cut.group);
    Answer added = face::add(buffer.data(), buffer.size(), used, f.n, group.data(), group.size());
    c.same("used length after add", length, added.used);
    Answer taken = face::take_back(buffer.data(), buffer.size(), added.used, f.n);
    c.same("number of take back", PLATEWRIGHT_DONE, taken.number);
    c.same("used length after take back", used, taken.used);
    c.same("buffer", after, buffer);
}

void preview_is_settle_after_add(const Filing &f, Comparison &c) {
    Cut cut = cut_last(f);
    Lent<int16_t> buffer(cut.table), group(cut.group), list(filler<int16_t>(f.n)), settled(filler<int16_t>(f.n));
    Lent<int16_t> whole(with_group(cut.table, cut.table.size(), f.n, cut.group).table);
    Lent<uint16_t> reasons(filler<uint16_t>(f.n)), why(filler<uint16_t>(f.n));
    Answer a = face::preview(buffer.data(), buffer.size(), buffer.size(), f.n, group.data(), group.size(), list.data(),
                             f.n, reasons.data(), f.n);
    Answer b = face::settle(whole.data(), whole.size(), f.n, settled.data(), f.n, why.data(), f.n);
    c.same(b, a);
    c.same("list", settled.now(), list);
    c.same("reasons", why.now(), reasons);
}

/* Cut everywhere, with every n: for the lower ones there are unknown placements. */
void parts_are_checked_as_the_whole(const Filing &f, Comparison &c) {
    Lent<int16_t> table(f.table);
    for (size_t n = 0; n <= f.n; n++) {
        Answer whole = face::check(table.data(), table.size(), n);
        for (size_t cut = 0; cut <= table.size(); cut++) {
            platewright_pass pass = face::check_part(face::check_begin(n), table.data(), cut);
            c.same(whole, face::check_end(face::check_part(pass, table.data() + cut, table.size() - cut)));
        }
    }
}

/* The words of rapidcheck are shown only where a property fails. */
void hold(const char *name, void (*property)(const Filing &, Comparison &), Tally &tally) {
    std::ostringstream words;
    std::streambuf *before = std::cerr.rdbuf(words.rdbuf());
    bool holds = rc::check(name, [property](const Filing &f) {
        Comparison c;
        property(f, c);
        if (c.differs()) RC_FAIL(c.text());
    });
    std::cerr.rdbuf(before);
    if (!holds) report(name, Disagreement{words.str()});
    tally.add(name, FILINGS_OF_EACH);
}

} // namespace

void properties_trial() {
    std::string same_in_every_run = "seed=20000 max_success=" + shown(FILINGS_OF_EACH);
    setenv("RC_PARAMS", same_in_every_run.c_str(), 1);
    Tally tally;
    hold("search finds the first layout", search_finds_the_first_layout, tally);
    hold("the trail agrees with the plan", trail_agrees_with_plan, tally);
    hold("list has all layouts", list_has_all_layouts, tally);
    hold("save, then read", save_then_read, tally);
    hold("add, then take back", add_then_take_back, tally);
    hold("preview is settle after add", preview_is_settle_after_add, tally);
    hold("parts are checked as the whole", parts_are_checked_as_the_whole, tally);
    tally.show({});
}

} // namespace trials
