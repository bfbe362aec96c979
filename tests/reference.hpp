/* Documents 01 and 02 (requests A1 to A7) once more, sentence by sentence: a second opinion for the trials, written for
 * being read and not for speed. Every operation is given the lent lists as they were before the call, and gives the
 * answer and the lists as they must be after it. */
#ifndef REFERENCE_HPP
#define REFERENCE_HPP

#include <array>
#include <cstdlib>
#include <vector>

#include "platewright.h"

namespace reference {

using Entries = std::vector<int16_t>; /* a table, or the list for one group */
using Bytes = std::vector<uint8_t>;
using Reasons = std::vector<uint16_t>;
using Answer = platewright_answer;

constexpr size_t MAX_N = 256, MAX_GROUPS = 512, MAX_ENTRIES = 2048, MAX_STRIP = 16384, RECEIPT = 16;
static_assert(PLATEWRIGHT_MAX_PLACEMENTS == MAX_N && PLATEWRIGHT_MAX_GROUPS == MAX_GROUPS, "document 01's limits");
static_assert(PLATEWRIGHT_MAX_ENTRIES == MAX_ENTRIES && PLATEWRIGHT_MAX_STRIP == MAX_STRIP, "document 01's limits");
static_assert(PLATEWRIGHT_RECEIPT == RECEIPT, "A2's receipt");

/* n placements, and groups closed by 0. */
struct Filing {
    size_t n = 0;
    Entries table;
};

inline Answer answer(uint32_t number, size_t place = 0, uint32_t group = 0) {
    Answer a{};
    a.number = number;
    a.place = place;
    a.group = group;
    return a;
}

/* Tables: "1, 2, 3, 4, 5", and A2's group. */

inline size_t size_of(int entry) { return (size_t)std::abs(entry); }

inline size_t groups_in(const Entries &table) {
    size_t zeros = 0;
    for (int16_t e : table) zeros += e == 0;
    return zeros;
}

inline size_t entries_in(const Entries &table) { return table.size() - groups_in(table); }

inline Entries first(const Entries &list, size_t count) { return {list.begin(), list.begin() + (long)count}; }

/* The first refusal of a table, or 18. */
inline Answer check(const Entries &table, size_t n) {
    if (n > MAX_N) return answer(PLATEWRIGHT_TOO_MANY_PLACEMENTS);
    if (groups_in(table) > MAX_GROUPS) return answer(PLATEWRIGHT_TOO_MANY_GROUPS);
    if (entries_in(table) > MAX_ENTRIES) return answer(PLATEWRIGHT_TOO_MANY_ENTRIES);
    if (!table.empty() && table.back() != 0) return answer(PLATEWRIGHT_OPEN_GROUP);
    for (size_t i = 0; i < table.size(); i++)
        if (size_of(table[i]) > n)
            return answer(PLATEWRIGHT_UNKNOWN_PLACEMENT, i, (uint32_t)groups_in(first(table, i)) + 1);
    return answer(PLATEWRIGHT_DONE);
}

inline bool passes(const Answer &a) { return a.number == PLATEWRIGHT_DONE; }

/* Another refusal, where there was none before it. */
inline Answer then(const Answer &before, bool refused, uint32_t number, size_t place = 0, uint32_t group = 0) {
    return passes(before) && refused ? answer(number, place, group) : before;
}

/* "A strip must name every declared placement in at least one entry." (A3) */
inline bool names_all(const Entries &table, size_t n) {
    std::vector<bool> named(n + 1);
    for (int16_t e : table) named[size_of(e)] = true;
    for (size_t p = 1; p <= n; p++)
        if (!named[p]) return false;
    return true;
}

/* The groups of a table that passes. */
using Groups = std::vector<std::vector<int>>;

inline Groups groups_of(const Entries &table) {
    Groups groups;
    std::vector<int> group;
    for (int16_t e : table) {
        if (e != 0) {
            group.push_back(e);
        } else {
            groups.push_back(group);
            group.clear();
        }
    }
    return groups;
}

/* Trying all choices */

/* "A group is met when exactly one occurrence in it is true." */
inline bool meets(const uint8_t *choice, const Groups &groups) {
    for (const std::vector<int> &group : groups) {
        int trues = 0;
        for (int e : group) trues += e > 0 ? choice[e - 1] : !choice[-e - 1];
        if (trues != 1) return false;
    }
    return true;
}

/* The number of placements before the first that stands in a group. */
inline size_t free_before(const Filing &f) {
    size_t lowest = f.n + 1;
    for (int16_t e : f.table)
        if (e != 0 && size_of(e) < lowest) lowest = size_of(e);
    return lowest - 1;
}

/* All layouts in which the free placements before the others are left out, in order: "from placement 1 on, 0 before 1".
 */
inline std::vector<Bytes> try_all_choices(const Filing &f, size_t free) {
    std::vector<Bytes> layouts;
    Groups groups = groups_of(f.table);
    Bytes choice(f.n);
    size_t tried = f.n - free;
    for (uint32_t c = 0; c < 1u << tried; c++) {
        for (size_t i = 0; i < tried; i++) choice[f.n - 1 - i] = c >> i & 1;
        if (meets(choice.data(), groups)) layouts.push_back(choice);
    }
    return layouts;
}

/* Settling */

constexpr int TAKEN = 257, LEFT_OUT = -257;

/* Of each placement: 257, -257, +p open, or +r or -r tied; and the group that settled or tied it (A5), 0 where none
 * did. */
struct State {
    std::array<int, MAX_N + 1> value, reason;
};

inline State all_open() {
    State s;
    for (size_t p = 0; p <= MAX_N; p++) s.value[p] = (int)p;
    s.reason.fill(0);
    return s;
}

inline bool is_open(int entry) { return std::abs(entry) != TAKEN; }

/* "A group as it stands has tied entries replaced and false entries dropped." */
struct Standing {
    std::vector<int> entry;
    int trues = 0;
    bool live = false;
    uint64_t taken = 0, left_out = 0; /* placements by sign, counted round 64: most pairs have none in common */

    bool has(int e) const { return how_often(e) > 0; }

    int how_often(int e) const {
        int k = 0;
        for (int f : entry) k += f == e;
        return k;
    }

    void fill(const std::vector<int> &group, const State &s) {
        entry.clear();
        for (int e : group) {
            int v = e < 0 ? -s.value[(size_t)-e] : s.value[(size_t)e];
            if (v != LEFT_OUT) entry.push_back(v);
        }
        trues = how_often(TAKEN);
        taken = left_out = 0;
        for (int e : entry) (e > 0 ? taken : left_out) |= 1ull << (std::abs(e) & 63);
        live = trues == 0 && !at_rest();
    }

    /* The first entry whose opposite stands too, 0 if there is none. */
    int first_opposed() const {
        if ((taken & left_out) == 0) return 0;
        for (int e : entry)
            if (has(-e)) return e;
        return 0;
    }

    int first_of_another(int than) const {
        for (int e : entry)
            if (std::abs(e) != std::abs(than)) return e;
        return 0;
    }

    bool at_rest() const {
        int e = first_opposed();
        return e != 0 && first_of_another(e) == 0;
    }
};

/* What a rule does: the entry becomes false or true, or another entry that it is tied to. */
struct Step {
    int rule = 0; /* 0: none fits */
    int entry = 0, becomes = 0, group = 0;
};

/* "Exactly one is true, so tie the higher placement to the lower." */
inline Step tie(int rule, int a, int b, int group) {
    return std::abs(a) < std::abs(b) ? Step{rule, b, -a, group} : Step{rule, a, -b, group};
}

inline Step first_open_false(const Standing &g, int number) {
    for (int e : g.entry)
        if (is_open(e)) return {2, e, LEFT_OUT, number};
    return {};
}

inline Step repeated_false(const Standing &g, int number) {
    for (int e : g.entry)
        if (g.how_often(e) >= 2) return {4, e, LEFT_OUT, number};
    return {};
}

/* Rules 1 to 6 at one group. */
inline Step one_rule(int rule, const Standing &g, int number) {
    size_t size = g.entry.size();
    if (rule == 1) return g.trues >= 2 || size == 0 ? Step{1, 0, 0, number} : Step{};
    if (rule == 2) return g.trues == 1 ? first_open_false(g, number) : Step{};
    if (g.trues > 0) return {};
    if (rule == 3) return size == 1 ? Step{3, g.entry[0], TAKEN, number} : Step{};
    if (rule == 4) return repeated_false(g, number);
    if (rule == 5) {
        int opposed = g.first_opposed(), other = opposed == 0 ? 0 : g.first_of_another(opposed);
        return other == 0 ? Step{} : Step{5, other, LEFT_OUT, number};
    }
    bool two = size == 2 && std::abs(g.entry[0]) != std::abs(g.entry[1]);
    return two ? tie(6, g.entry[0], g.entry[1], number) : Step{};
}

/* Rules 7 and 8 at the earlier group G and the later one H, which is the reason. */
inline Step pair_rule(int rule, const Standing &g, const Standing &h, int later) {
    for (size_t i = 0; i < g.entry.size(); i++)
        for (size_t j = rule == 7 ? 0 : i + 1; j < g.entry.size(); j++) {
            int a = g.entry[i], b = g.entry[j];
            if (std::abs(a) == std::abs(b) || !h.has(-b)) continue;
            if (rule == 7 && h.has(a)) return {7, a, LEFT_OUT, later};
            if (rule == 8 && h.has(-a)) return tie(8, a, b, later);
        }
    return {};
}

/* Settles states of one filing. */
class Settler {
    Groups groups;
    std::vector<Standing> standing;

    void stand(const State &s) {
        for (size_t g = 0; g < groups.size(); g++) standing[g].fill(groups[g], s);
    }

    Step step_of_pairs(int rule) const {
        for (size_t i = 0; i < standing.size(); i++) {
            const Standing &g = standing[i];
            if (!g.live) continue;
            for (size_t j = i + 1; j < standing.size(); j++) {
                const Standing &h = standing[j];
                if (!h.live || ((g.taken & h.left_out) | (g.left_out & h.taken)) == 0) continue;
                Step found = pair_rule(rule, g, h, (int)j + 1);
                if (found.rule != 0) return found;
            }
        }
        return {};
    }

    /* "Apply the lowest rule that fits, to the first group (or first pair, by its earlier group, then its later one)."
     */
    Step next_step() const {
        for (int rule = 1; rule <= 6; rule++)
            for (size_t i = 0; i < standing.size(); i++) {
                Step found = one_rule(rule, standing[i], (int)i + 1);
                if (found.rule != 0) return found;
            }
        Step found = step_of_pairs(7);
        return found.rule != 0 ? found : step_of_pairs(8);
    }

  public:
    const size_t n;
    std::array<uint64_t, 9> steps{}; /* how often each rule was applied */

    explicit Settler(const Filing &f) : groups(groups_of(f.table)), standing(groups.size()), n(f.n) {}

    /* An open entry becomes another one, true or false: "followers move with it". */
    void put(State &s, int entry, int becomes) const {
        for (size_t p = 1; p <= n; p++) {
            if (s.value[p] == entry)
                s.value[p] = becomes;
            else if (s.value[p] == -entry)
                s.value[p] = -becomes;
        }
    }

    /* False: a dead end. */
    bool settle(State &s) {
        for (;;) {
            stand(s);
            Step t = next_step();
            steps[(size_t)t.rule]++;
            if (t.rule <= 1) return t.rule == 0;
            put(s, t.entry, t.becomes);
            s.reason[size_of(t.entry)] = t.group;
        }
    }

    /* Of a settled state: "the lowest open placement standing in a live group", 0 if there is none. */
    int lowest_in_live_group(const State &s) {
        int lowest = 0;
        stand(s);
        for (const Standing &g : standing)
            if (g.live)
                for (int e : g.entry)
                    if (lowest == 0 || std::abs(e) < lowest) lowest = std::abs(e);
        return lowest;
    }

    /* "live group or none" (A6) */
    int lowest_open(const State &s) const {
        for (size_t p = 1; p <= n; p++)
            if (s.value[p] == (int)p) return (int)p;
        return 0;
    }

    /* "Open placements are left out, tied ones follow." */
    Bytes choice_of(const State &s) const {
        Bytes choice(n);
        for (size_t p = 1; p <= n; p++) choice[p - 1] = s.value[p] == TAKEN || (is_open(s.value[p]) && s.value[p] < 0);
        return choice;
    }
};

/* The split tree */

struct Tree {
    uint32_t number = PLATEWRIGHT_NO_LAYOUT, count = 0;
    Bytes plan;    /* n bytes */
    Entries trail; /* n, the path and then zeros */
};

class Search {
    Settler settler;
    uint32_t allowance;
    Entries path;
    Tree tree;

    uint32_t side(State s, int p, int becomes) {
        settler.put(s, p, becomes);
        path.push_back((int16_t)(becomes == TAKEN ? p : -p));
        uint32_t number = walk(s);
        if (number == PLATEWRIGHT_NO_LAYOUT) path.pop_back();
        return number;
    }

    uint32_t walk(State s) {
        if (!settler.settle(s)) return PLATEWRIGHT_NO_LAYOUT;
        int p = settler.lowest_in_live_group(s);
        if (p == 0) {
            tree.plan = settler.choice_of(s);
            return PLATEWRIGHT_LAID_OUT;
        }
        if (tree.count == allowance) return PLATEWRIGHT_STOPPED;
        tree.count++;
        uint32_t number = side(s, p, LEFT_OUT);
        return number == PLATEWRIGHT_NO_LAYOUT ? side(s, p, TAKEN) : number;
    }

  public:
    Search(const Filing &f, uint32_t splits) : settler(f), allowance(splits) {}

    Tree run() {
        tree.number = walk(all_open());
        if (tree.number != PLATEWRIGHT_LAID_OUT) {
            tree.plan.assign(settler.n, 0);
            path.clear();
        }
        tree.trail = path;
        tree.trail.resize(settler.n);
        return tree;
    }
};

/* N(n), or the largest number of 32 bits where it is above that. */
inline uint32_t bound(size_t n) {
    std::vector<uint64_t> N(3, 0);
    for (size_t i = 3; i <= n; i++) {
        uint64_t next = 1 + N[i - 1] + N[i - 3];
        N.push_back(next > UINT32_MAX ? UINT32_MAX : next);
    }
    return (uint32_t)N[n];
}

template <class T> void put_first(std::vector<T> &list, const std::vector<T> &elements) {
    for (size_t i = 0; i < elements.size(); i++) list[i] = elements[i];
}

struct Searched {
    Answer answer;
    Bytes plan;
    Entries trail;
};

inline Answer search_refusal(const Filing &f, size_t plan, size_t trail) {
    Answer a = then(check(f.table, f.n), plan < f.n, PLATEWRIGHT_PLAN_SHORT);
    return then(a, trail < f.n, PLATEWRIGHT_TRAIL_SHORT);
}

/* From the tree that is walked without an allowance: "A stop's count is the allowance." */
inline Searched search(const Tree &whole, uint32_t allowance, Bytes plan, Entries trail) {
    size_t n = whole.plan.size();
    bool stopped = allowance < whole.count;
    Answer a = answer(stopped ? PLATEWRIGHT_STOPPED : whole.number);
    a.count = stopped ? allowance : whole.count;
    put_first(plan, stopped ? Bytes(n) : whole.plan);
    put_first(trail, stopped ? Entries(n) : whole.trail);
    return {a, plan, trail};
}

/* All layouts (A6) */

/* The walk of List's tree: the layouts met, and after how many splits. */
struct Walk {
    std::vector<Bytes> rows;
    std::vector<uint32_t> splits;
    uint32_t count = 0;
    bool ended = false; /* no side is left; else `wanted` layouts were met, or `most` splits were made */

    /* What is needed up to k + 1 layouts or the end. */
    bool reaches(size_t k) const { return k < rows.size() || ended; }
    uint32_t needs(size_t k) const { return k < rows.size() ? splits[k] : count; }
};

class Lister {
    Settler settler;
    size_t wanted;
    uint32_t most;
    Walk found;

    /* Whether the walk goes on. */
    bool walk(State s) {
        if (!settler.settle(s)) return true;
        int p = settler.lowest_open(s);
        if (p == 0) {
            found.rows.push_back(settler.choice_of(s));
            found.splits.push_back(found.count);
            return found.rows.size() < wanted;
        }
        if (found.count == most) return false;
        found.count++;
        State second = s;
        settler.put(s, p, LEFT_OUT);
        settler.put(second, p, TAKEN);
        return walk(s) && walk(second);
    }

  public:
    Lister(const Filing &f, size_t layouts, uint32_t splits) : settler(f), wanted(layouts), most(splits) {}

    Walk run() {
        found.ended = walk(all_open());
        return found;
    }
};

struct Listed {
    Answer answer;
    Bytes rows;
};

inline Answer list_refusal(const Filing &f, size_t k, size_t room) {
    Answer a = check(f.table, f.n);
    return then(a, f.n > 0 && room / (f.n == 0 ? 1 : f.n) < k, PLATEWRIGHT_ROWS_SHORT);
}

/* From a walk that reaches k, or has made more splits than the allowance. */
inline Listed list(const Walk &walk, size_t n, size_t k, uint32_t allowance, Bytes rows) {
    bool stopped = !walk.reaches(k) || allowance < walk.needs(k);
    bool some = !walk.rows.empty();
    size_t written = stopped ? 0 : walk.rows.size() < k ? walk.rows.size() : k;
    Answer a = answer(stopped ? PLATEWRIGHT_STOPPED : some ? PLATEWRIGHT_LAID_OUT : PLATEWRIGHT_NO_LAYOUT, written);
    a.count = stopped ? allowance : walk.needs(k);
    a.rows = written;
    a.more = !stopped && walk.rows.size() > k;
    if (n == 0) return {a, rows};
    for (size_t i = 0; i < k * n; i++) rows[i] = i / n < written ? walk.rows[i / n][i % n] : 0;
    return {a, rows};
}

/* Settle (A5) */

struct Settled {
    Answer answer;
    Entries list;
    Reasons reasons;
};

inline Answer rooms_refusal(const Answer &before, size_t n, size_t list, size_t reasons) {
    return then(then(before, list < n, PLATEWRIGHT_STATE_SHORT), reasons < n, PLATEWRIGHT_REASONS_SHORT);
}

/* "On a dead end they become 0." */
inline Settled settle(Settler &settler, Entries list, Reasons reasons) {
    State s = all_open();
    bool settled = settler.settle(s);
    for (size_t p = 1; p <= settler.n; p++) {
        list[p - 1] = (int16_t)(settled ? s.value[p] : 0);
        reasons[p - 1] = (uint16_t)(settled ? s.reason[p] : 0);
    }
    return {answer(settled ? PLATEWRIGHT_SETTLED : PLATEWRIGHT_NO_LAYOUT), list, reasons};
}

inline Settled settle(const Filing &f, Entries list, Reasons reasons) {
    Answer refused = rooms_refusal(check(f.table, f.n), f.n, list.size(), reasons.size());
    if (!passes(refused)) return {refused, list, reasons};
    Settler settler(f);
    return settle(settler, list, reasons);
}

/* Index */

struct Indexed {
    Answer answer;
    std::vector<size_t> starts, entries;
};

inline Indexed index(const Filing &f, std::vector<size_t> starts, std::vector<size_t> entries) {
    size_t room = starts.size() < entries.size() ? starts.size() : entries.size();
    Answer a = then(check(f.table, f.n), room < groups_in(f.table), PLATEWRIGHT_HEADS_SHORT);
    if (!passes(a)) return {a, starts, entries};
    size_t start = 0, group = 0;
    for (size_t i = 0; i < f.table.size(); i++) {
        if (f.table[i] != 0) continue;
        starts[group] = start;
        entries[group++] = i - start;
        start = i + 1;
    }
    return {answer(PLATEWRIGHT_INDEXED), starts, entries};
}

/* Add, take back and preview (A7) */

struct Edited {
    Answer answer;
    Entries buffer;
};

/* "12, then 1 to 5 on the used part" */
inline Answer used_refusal(const Entries &buffer, size_t used, size_t n) {
    if (used > buffer.size()) return answer(PLATEWRIGHT_USED_LENGTH_WRONG);
    return check(first(buffer, used), n);
}

/* "2 and 3 with the group added, 5 on the list (place u plus its index there)" */
inline Answer group_refusal(const Entries &buffer, size_t used, size_t n, const Entries &group) {
    Answer a = used_refusal(buffer, used, n);
    if (!passes(a)) return a;
    Entries table = first(buffer, used);
    size_t number = groups_in(table) + 1;
    a = then(a, number > MAX_GROUPS, PLATEWRIGHT_TOO_MANY_GROUPS);
    a = then(a, entries_in(table) + group.size() > MAX_ENTRIES, PLATEWRIGHT_TOO_MANY_ENTRIES);
    for (size_t i = 0; i < group.size(); i++) {
        bool wrong = group[i] == 0 || size_of(group[i]) > n;
        a = then(a, wrong, PLATEWRIGHT_UNKNOWN_PLACEMENT, used + i, (uint32_t)number);
    }
    return a;
}

inline Edited add(Entries buffer, size_t used, size_t n, const Entries &group) {
    Answer a = group_refusal(buffer, used, n, group);
    if (passes(a)) a = then(a, buffer.size() - used < group.size() + 1, PLATEWRIGHT_TABLE_SHORT);
    if (!passes(a)) return {a, buffer};
    for (size_t i = 0; i < group.size(); i++) buffer[used + i] = group[i];
    buffer[used + group.size()] = 0;
    a = answer(PLATEWRIGHT_GROUP_ADDED);
    a.used = used + group.size() + 1;
    return {a, buffer};
}

/* "its elements and its closing zero become 0" */
inline Edited take_back(Entries buffer, size_t used, size_t n) {
    Answer a = then(used_refusal(buffer, used, n), used == 0, PLATEWRIGHT_NOTHING_TO_TAKE_BACK);
    if (!passes(a)) return {a, buffer};
    a.used = used - 1;
    while (a.used > 0 && buffer[a.used - 1] != 0) buffer[--a.used] = 0;
    return {a, buffer};
}

/* The table with the group, in "a copy with room enough". */
inline Filing with_group(const Entries &buffer, size_t used, size_t n, const Entries &group) {
    Filing f{n, first(buffer, used)};
    f.table.insert(f.table.end(), group.begin(), group.end());
    f.table.push_back(0);
    return f;
}

inline Settled preview(const Entries &buffer, size_t used, size_t n, const Entries &group, Entries list, Reasons why) {
    Answer a = rooms_refusal(group_refusal(buffer, used, n, group), n, list.size(), why.size());
    if (!passes(a)) return {a, list, why};
    return settle(with_group(buffer, used, n, group), list, why);
}

} // namespace reference

#endif
