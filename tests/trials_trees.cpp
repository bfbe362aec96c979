/* Large trees of search and list, beside the quick walks of bench/search.hpp and bench/list.hpp, which are themselves
 * compared with the walks by the letter on thousands of small filings and on the smaller ones of the hard filings. */
#include "quick.hpp"
#include "trials_search.hpp"

namespace trials {

namespace {

/* What List must answer with this allowance, from the walk with a larger one. */
Listed cut_list(const quick::Listing &whole, uint32_t allowance, Bytes rows) {
    bool stopped = whole.number == PLATEWRIGHT_STOPPED || allowance < whole.count;
    Answer a = answer(stopped ? PLATEWRIGHT_STOPPED : whole.number, stopped ? 0 : whole.rows);
    a.count = stopped ? allowance : whole.count;
    a.rows = a.place;
    a.more = !stopped && whole.more;
    put_first(rows, stopped ? Bytes(whole.bytes.size()) : whole.bytes);
    return {a, rows};
}

void list_once(const Filing &f, const quick::Listing &whole, size_t k, uint32_t allowance, Tally &tally) {
    Lent<int16_t> table(f.table);
    Lent<uint8_t> rows(filler<uint8_t>(k * f.n + 3));
    Listed expected = cut_list(whole, allowance, rows.now());
    Answer came = face::list(table.data(), table.size(), f.n, k, allowance, rows.data(), rows.size());
    Comparison c;
    c.same(expected.answer, came);
    c.same("rows", expected.rows, rows);
    c.kept("table", table);
    if (c.differs()) c.disagree({"list, k", shown(k), "allowance", shown(allowance)});
    tally.add(came.number == PLATEWRIGHT_STOPPED ? "lists stopped"
              : came.more                        ? "lists with more"
                                                 : "lists with all layouts");
}

enum { MOST_LIST_SPLITS = 5000 };

void list_filing(const Filing &f, size_t k, Random &r, Tally &tally) {
    quick::Listing whole = quick::list_of(f, k, MOST_LIST_SPLITS);
    uint32_t count = whole.count;
    bool stopped = whole.number == PLATEWRIGHT_STOPPED;
    list_once(f, whole, k, stopped ? (uint32_t)MOST_LIST_SPLITS : UINT32_MAX, tally);
    std::vector<uint32_t> allowances = {count, 0};
    if (count > 0) allowances.insert(allowances.end(), {count - 1, count / 2, (uint32_t)r.below(count)});
    for (uint32_t allowance : allowances) list_once(f, whole, k, allowance, tally);
    if (count > 100) tally.add("list trees over 100 splits");
    if (count > 1000) tally.add("list trees over 1000 splits");
    tally.most("most splits of a list", count);
}

/* How many hard filings of each kind, and up to how many splits their tree is walked by the letter too. */
enum { HARD_FILINGS = 160, BY_LETTER = 150 };

void count_tree(const Filing &f, const Tree &tree, Tally &tally) {
    if (tree.count > 100) tally.add("trees over 100 splits");
    if (tree.count > 1000) tally.add("trees over 1000 splits");
    if (tree.count > 100 && tree.number == PLATEWRIGHT_LAID_OUT) tally.add("trees over 100 splits, laid out");
    size_t path = 0;
    while (path < f.n && tree.trail[path] != 0) path++;
    tally.most("longest path", path);
}

void tree_filing(const Filing &f, Random r, Tally &tally) {
    if (!passes(check(f.table, f.n))) return;
    Tree tree = quick::tree_of(f);
    if (tree.count <= BY_LETTER) {
        compare_trees("the quick tree", Search(f, UINT32_MAX).run(), tree);
        tally.add("hard trees walked by the letter too");
    }
    Comparison c;
    c.holds("the plan is a layout", tree.number != PLATEWRIGHT_LAID_OUT || meets(tree.plan.data(), groups_of(f.table)));
    if (c.differs()) c.disagree({"the quick tree"});
    search_all(f, tree, {f.n + r.below(3), f.n + r.below(3)}, r, tally);
    count_tree(f, tree, tally);
    for (size_t k : {0, 1, 30}) list_filing(f, k, r, tally);
}

/* The quick walks beside those by the letter. */
void compare_quick(const Filing &f, Random r, Tally &tally) {
    if (!passes(check(f.table, f.n)) || f.table.size() > 400) return;
    compare_trees("the quick tree", Search(f, UINT32_MAX).run(), quick::tree_of(f));
    size_t k = r.below(4);
    Walk walk = Lister(f, k + 1, MOST_LIST_SPLITS).run();
    quick::Listing whole = quick::list_of(f, k, MOST_LIST_SPLITS);
    Listed expected = list(walk, f.n, k, MOST_LIST_SPLITS, Bytes(k * f.n)),
           came = cut_list(whole, MOST_LIST_SPLITS, whole.bytes);
    Comparison c;
    c.same(expected.answer, came.answer);
    c.same("rows", expected.rows, came.rows);
    if (c.differs()) c.disagree({"the quick list"});
    tally.add("quick walks compared with those by the letter");
}

/* The deepest trees: of one group with every placement, and of the most groups of three that share none. */
std::vector<Filing> deep_filings() {
    Filing one{MAX_N, {}}, threes{MAX_N, {}};
    for (int16_t p = 1; p <= (int16_t)MAX_N; p++) {
        one.table.push_back(p);
        if (p < (int16_t)MAX_N) threes.table.push_back(p);
        if (p % 3 == 0) threes.table.push_back(0);
    }
    one.table.push_back(0);
    return {one, threes};
}

} // namespace

void trees_trial() {
    Tally tally;
    for (const char *thing :
         {"trees over 100 splits", "trees over 1000 splits", "trees over 100 splits, laid out", "longest path",
          "hard trees walked by the letter too", "list trees over 100 splits", "list trees over 1000 splits"})
        tally.add(thing, 0);
    for (size_t number = 0; number < FILINGS; number += 2)
        try_filing(filing_of(number), [&](const Filing &f) { compare_quick(f, Random(number + 12000), tally); });
    for (size_t number = 0; number < HARD_FILINGS * HARD_KINDS; number++) {
        Random r(number + 4000);
        Filing hard = hard_filing(number % HARD_KINDS, r);
        try_filing(hard, [&](const Filing &f) { tree_filing(f, Random(number), tally); });
    }
    for (const Filing &deep : deep_filings())
        try_filing(deep, [&](const Filing &f) { tree_filing(f, Random(1), tally); });
    tally.show(
        {{PLATEWRIGHT_LAID_OUT, "laid out"}, {PLATEWRIGHT_NO_LAYOUT, "no layout"}, {PLATEWRIGHT_STOPPED, "stopped"}});
}

} // namespace trials
