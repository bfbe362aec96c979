/* Search beside the tree walked by the letter and the solver that tries all choices, with every allowance that may make
 * a difference. */
#include "trials_search.hpp"

namespace trials {

void compare_trees(const char *which, const Tree &expected, const Tree &came) {
    Comparison c;
    c.same("number", expected.number, came.number);
    c.same("count", expected.count, came.count);
    c.same("plan", expected.plan, came.plan);
    c.same("trail", expected.trail, came.trail);
    if (c.differs()) c.disagree({which});
}

namespace {

/* The reference's own tree: it finds the first of all layouts, and needs at most N(n) splits. */
void compare_choices(const Filing &f, const Tree &tree) {
    Comparison c;
    c.holds("count at most N(n)", tree.count <= bound(f.n));
    if (can_try_all(f)) {
        std::vector<Bytes> layouts = try_all_choices(f, free_before(f));
        c.same("outcome", layouts.empty() ? PLATEWRIGHT_NO_LAYOUT : PLATEWRIGHT_LAID_OUT, (int)tree.number);
        c.same("plan", layouts.empty() ? Bytes(f.n) : layouts[0], tree.plan);
    }
    if (c.differs()) c.disagree({"the reference's tree beside all choices"});
}

} // namespace

void search_once(const Filing &f, const Tree *tree, uint32_t allowance, Rooms rooms, Tally &tally) {
    Lent<int16_t> table(f.table);
    Lent<uint8_t> plan(filler<uint8_t>(rooms.plan));
    Lent<int16_t> trail(filler<int16_t>(rooms.trail));
    Answer refused = search_refusal(f, rooms.plan, rooms.trail);
    Searched expected = {refused, plan.now(), trail.now()};
    if (passes(refused)) expected = search(*tree, allowance, plan.now(), trail.now());
    Answer came =
        face::search(table.data(), table.size(), f.n, allowance, plan.data(), plan.size(), trail.data(), trail.size());
    Comparison c;
    c.same(expected.answer, came);
    c.same("plan", expected.plan, plan);
    c.same("trail", expected.trail, trail);
    c.kept("table", table);
    if (c.differs())
        c.disagree(
            {"search, allowance", shown(allowance), "plan room", shown(rooms.plan), "trail room", shown(rooms.trail)});
    tally.number(came.number);
}

/* Every allowance that may make a difference. */
void search_all(const Filing &f, const Tree &tree, Rooms rooms, Random &r, Tally &tally) {
    uint32_t count = tree.count;
    std::vector<uint32_t> allowances = {UINT32_MAX, 0, count, count + 1};
    if (count > 0) allowances.insert(allowances.end(), {count - 1, count / 2, (uint32_t)r.below(count)});
    for (uint32_t allowance : allowances) search_once(f, &tree, allowance, rooms, tally);
    tally.add("splits", count);
    tally.most("most splits", count);
}

namespace {

/* A walk that is stopped by the letter is the one that is cut from the whole tree. */
void compare_stop(const Filing &f, const Tree &whole, uint32_t allowance) {
    Searched cut = search(whole, allowance, Bytes(f.n), Entries(f.n));
    compare_trees("the reference's stop", {cut.answer.number, cut.answer.count, cut.plan, cut.trail},
                  Search(f, allowance).run());
}

/* Plans and trails of every length, with an allowance that stops and one that doesn't. */
void search_lengths(const Filing &f, const Tree &tree, Tally &tally) {
    for (size_t plan = 0; plan <= f.n + SPARE; plan++)
        for (size_t trail = 0; trail <= f.n + SPARE; trail++)
            search_once(f, &tree, tree.count - (plan % 2), {plan, trail}, tally);
}

void search_filing(const Filing &f, size_t number, Random r, Tally &tally) {
    size_t n = std::min(f.n, MAX_N);
    Rooms rooms = {r.room(n), r.room(n)};
    if (!passes(search_refusal(f, rooms.plan, rooms.trail))) {
        search_once(f, nullptr, (uint32_t)r.next(), rooms, tally);
        return;
    }
    Tree tree = Search(f, UINT32_MAX).run();
    compare_choices(f, tree);
    if (tree.count > 0) compare_stop(f, tree, (uint32_t)r.below(tree.count));
    search_all(f, tree, rooms, r, tally);
    if (has_all_lengths(number, f.n)) search_lengths(f, tree, tally);
}

} // namespace

void search_trial() {
    Tally tally;
    for (size_t number = 0; number < ALL_FILINGS; number++)
        try_filing(filing_of(number), [&](const Filing &f) { search_filing(f, number, Random(number + 3000), tally); });
    tally.show(
        {{PLATEWRIGHT_LAID_OUT, "laid out"}, {PLATEWRIGHT_NO_LAYOUT, "no layout"}, {PLATEWRIGHT_STOPPED, "stopped"}});
}

} // namespace trials
