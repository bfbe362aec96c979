/* Search's memory of subtrees without a layout: filings in which such subtrees come again and again, or nearly the same
 * ones do, beside the quick walk, which remembers nothing. Each is searched as the product does and with a memory of
 * few slots, also with a hash that is a plain sum; outcome, count, plan and trail must be the same. */
#include "quick.hpp"
#include "trials_search.hpp"

namespace trials {

namespace {

/* Filings that are put together */

/* The part's placements come after those that are there. */
void append(Filing &f, const Filing &part) {
    for (int16_t e : part.table) f.table.push_back((int16_t)(e > 0 ? e + (int)f.n : e < 0 ? e - (int)f.n : 0));
    f.n += part.n;
}

Filing renumbered(Filing f, Random &r) {
    Entries number(f.n + 1);
    for (size_t p = 1; p <= f.n; p++) number[p] = (int16_t)p;
    for (size_t p = f.n; p > 1; p--) std::swap(number[p], number[r.from_to(1, p)]);
    for (int16_t &e : f.table) e = (int16_t)(e > 0 ? number[size_of(e)] : -number[size_of(e)]);
    return f;
}

/* Groups of three that share no placement: each doubles the tree, the first left out tying the others. */
Filing switches(size_t count) {
    Filing f{3 * count, {}};
    for (size_t i = 0; i < count; i++)
        close(f.table, {(int16_t)(3 * i + 1), (int16_t)(3 * i + 2), (int16_t)(3 * i + 3)});
    return f;
}

/* The same as boxes_filing with placements in order, by figure and then by box. */
Filing ordered_boxes(size_t figures, size_t boxes) {
    Filing f{figures * boxes + boxes, {}};
    for (size_t i = 0; i < figures; i++) {
        Entries one;
        for (size_t j = 1; j <= boxes; j++) one.push_back((int16_t)(i * boxes + j));
        close(f.table, one);
    }
    for (size_t j = 1; j <= boxes; j++) {
        Entries box;
        for (size_t i = 0; i <= figures; i++) box.push_back((int16_t)(i * boxes + j));
        close(f.table, box);
    }
    return f;
}

/* Mostly without a layout, and not seen by settling alone: some splits to some dozens. */
Filing core(Random &r) {
    switch (r.below(6)) {
    case 0: return ordered_boxes(5, 4);
    case 1: return boxes_filing(5, 4, r);
    case 2: return turned(boxes_filing(6, 5, r), 8, r);
    case 3: return board_filing(6, r.from_to(5, 7), r);
    case 4: return random_groups(40, r.from_to(24, 27), 3, r.once_in(2), r);
    default: return random_groups(30, r.from_to(12, 15), 4, false, r);
    }
}

/* Some of the groups that end with a placement above base get an entry of one up to it. */
void couple(Filing &f, size_t base, size_t one_in, Random &r) {
    Entries table;
    for (int16_t e : f.table) {
        bool closes = e == 0 && !table.empty() && size_of(table.back()) > base;
        if (closes && r.once_in(one_in)) table.push_back((int16_t)((r.once_in(2) ? 1 : -1) * (int)r.from_to(1, base)));
        table.push_back(e);
    }
    f.table = table;
}

/* Groups of three of which the first, a switch, ties two placements of the part when it is left out; all switches come
 * before the part, or after it. */
Filing tying(const Filing &part, size_t count, bool before, Random &r) {
    Filing f{before ? count : 0, {}};
    append(f, part);
    f.n += before ? 0 : count;
    size_t low = before ? count : 0;
    for (size_t i = 1; i <= count; i++) {
        int16_t s = (int16_t)(before ? i : part.n + i);
        int16_t q = (int16_t)(low + r.from_to(1, part.n)), t = (int16_t)(low + r.from_to(1, part.n));
        if (q != t) close(f.table, {s, (int16_t)(r.once_in(2) ? q : -q), (int16_t)(r.once_in(2) ? t : -t)});
    }
    return f;
}

/* Several of a thing with layouts, and then one without. */
Filing copies(Random &r) {
    Filing f, part = r.once_in(2) ? boxes_filing(3, 3, r) : board_filing(4, 4, r);
    if (r.once_in(3)) part = random_groups(9, 4, 3, true, r);
    for (size_t i = r.from_to(1, 2); i > 0; i--) append(f, r.once_in(2) ? part : renumbered(part, r));
    append(f, core(r));
    return f;
}

Filing below_switches(size_t count, const Filing &part) {
    Filing f = switches(count);
    append(f, part);
    return f;
}

Filing coupled(size_t count, const Filing &part, Random &r) {
    Filing f = below_switches(count, part);
    couple(f, 3 * count, r.from_to(2, 12), r);
    return f;
}

/* The same with placements that stand in no group, so that it ends at the highest that there is. */
Filing at_the_top(const Filing &part) {
    Filing f{MAX_N - std::min(MAX_N, part.n), {}};
    append(f, part);
    return f;
}

enum { MEMORY_KINDS = 10 };

Filing memory_filing(size_t kind, Random &r) {
    switch (kind) {
    case 0: return below_switches(r.from_to(1, 3), core(r));
    case 1: return coupled(r.from_to(2, 4), core(r), r);
    case 2: return tying(below_switches(r.from_to(1, 2), core(r)), r.from_to(1, 2), true, r);
    case 3: return copies(r);
    case 4: return renumbered(below_switches(r.from_to(1, 2), core(r)), r);
    case 5: return board_filing(8, 5, r);
    case 6: return r.once_in(6) ? ordered_boxes(7, 6) : ordered_boxes(r.from_to(5, 6), 5);
    case 7: return random_groups(44, r.from_to(13, 17), r.from_to(4, 6), r.once_in(2), r);
    case 8: return tying(below_switches(2, core(r)), r.from_to(1, 3), r.once_in(2), r);
    default: return at_the_top(coupled(r.from_to(2, 3), core(r), r));
    }
}

/* Searches */

struct Memory {
    size_t slots;
    uint32_t spread;
};

const Memory PRODUCT = {PRODUCT_SLOTS, PRODUCT_SPREAD};

/* Few slots, every other time with weights that are all 1. */
Memory small_memory(Random &r) {
    const size_t slots[] = {1, 2, 3, 7};
    return {slots[r.below(4)], r.once_in(2) ? 0 : PRODUCT_SPREAD};
}

/* One call; says how many splits were walked. */
uint32_t remember_once(const Filing &f, const Tree &tree, uint32_t allowance, Memory memory) {
    Lent<int16_t> table(f.table);
    Lent<uint8_t> plan(filler<uint8_t>(f.n));
    Lent<int16_t> trail(filler<int16_t>(f.n));
    Searched expected = search(tree, allowance, plan.now(), trail.now());
    memo_trial m = face::memo_search(table.data(), table.size(), f.n, allowance, plan.data(), plan.size(), trail.data(),
                                     trail.size(), memory.slots, memory.spread);
    Answer came = answer(m.number, m.place, m.group);
    came.count = m.count;
    Comparison c;
    c.same(expected.answer, came);
    c.same("plan", expected.plan, plan);
    c.same("trail", expected.trail, trail);
    c.kept("table", table);
    c.holds("no more splits walked than counted", m.walked <= m.count);
    if (c.differs())
        c.disagree({"search with a memory of", shown(memory.slots), "slots, spread", shown(memory.spread),
                    "allowance", shown(allowance)});
    return m.walked;
}

enum { MEMORY_FILINGS = 100000, BY_LETTER_TOO = 40 };

/* What hangs on how the memory spends, and so is not stored. */
struct Walked {
    uint64_t filings = 0, small = 0, splits = 0, walked = 0;
};

void remember(const Filing &f, size_t number, Random r, Tally &tally, Walked &sum) {
    if (!passes(check(f.table, f.n))) return;
    Tree tree = quick::tree_of(f);
    uint32_t count = tree.count;
    if (number % BY_LETTER_TOO == 0 && count < 200) {
        compare_trees("the quick tree", Search(f, UINT32_MAX).run(), tree);
        tally.add("trees walked by the letter too");
    }
    std::vector<uint32_t> allowances = {UINT32_MAX, count};
    if (count > 0) allowances.insert(allowances.end(), {count - 1, (uint32_t)r.below(count)});
    for (uint32_t allowance : allowances) search_once(f, &tree, allowance, {f.n, f.n}, tally);
    Memory small = small_memory(r);
    remember_once(f, tree, allowances[r.from_to(1, allowances.size() - 1)], small);
    sum.small += remember_once(f, tree, UINT32_MAX, small) < count;
    uint32_t walked = remember_once(f, tree, UINT32_MAX, PRODUCT);
    sum.filings += walked < count;
    sum.splits += count;
    sum.walked += walked;
    tally.add("splits", count);
    tally.most("most splits", count);
}

/* Where the memory were never used, nothing would have been tried. */
void see_that_some_remember(const Walked &sum) {
    fprintf(stderr, "memory: of %d filings %lu remember something, %lu with few slots; %lu of %lu splits walked\n",
            MEMORY_FILINGS, (unsigned long)sum.filings, (unsigned long)sum.small, (unsigned long)sum.walked,
            (unsigned long)sum.splits);
    Comparison c;
    c.holds("one filing in 10 remembers something", sum.filings * 10 >= MEMORY_FILINGS);
    c.holds("one in 50 with few slots", sum.small * 50 >= MEMORY_FILINGS);
    c.holds("a fifth of the splits is remembered", sum.walked * 5 <= sum.splits * 4);
    if (c.differs()) report("all filings", {"all searches\n" + c.text()});
}

} // namespace

void memory_trial() {
    Tally tally;
    Walked sum;
    for (size_t number = 0; number < MEMORY_FILINGS; number++) {
        Random r(number + 90000);
        Filing made = memory_filing(number % MEMORY_KINDS, r);
        tally.add("filings");
        try_filing(made, [&](const Filing &f) { remember(f, number, Random(number), tally, sum); });
    }
    see_that_some_remember(sum);
    tally.show(
        {{PLATEWRIGHT_LAID_OUT, "laid out"}, {PLATEWRIGHT_NO_LAYOUT, "no layout"}, {PLATEWRIGHT_STOPPED, "stopped"}});
}

} // namespace trials
