/* Wrong programs, put between the trials and the library with -DWRONG: each does what a plausible fault would do, and
 * must be found. The environment variable WRONG says which one. tests/wrong.sh tries them all. */
#ifndef WRONG_HPP
#define WRONG_HPP

#include <algorithm>
#include <cstdlib>

#include "reference_strips.hpp"
#include "trials_face.hpp"

/* name, the case that must find it, and what is wrong */
#define WRONG_PROGRAMS(X)                                                                                              \
    X(PLACE_OFF_BY_ONE, "check", "place of 5 counted from 1")                                                          \
    X(GROUP_LOST, "check", "group of 5 lost")                                                                          \
    X(READS_PAST, "check", "an element past the table read")                                                           \
    X(UNKNOWN_BEFORE_OPEN, "check", "5 before 4")                                                                      \
    X(ONE_GROUP_MORE, "check", "513 groups pass")                                                                      \
    X(PASS_FORGETS, "check", "a pass forgets its unknown placement")                                                   \
    X(EMPTY_PART_CLOSES, "check", "an empty part hides an open group")                                                 \
    X(PART_COUNTS_ANEW, "check", "place of 5 counted from its part's start")                                           \
    X(EMPTY_GROUP_START, "index", "start of an empty group one too far")                                               \
    X(LONGER_LIST_COUNTS, "index", "8 looks at one list alone")                                                        \
    X(COUNT_ONE_TOO_MANY, "search", "count one too many")                                                              \
    X(STOP_IS_NO_LAYOUT, "search", "a stop reported as no layout")                                                     \
    X(STOP_AT_COUNT, "search", "stopped where the allowance is just the count")                                        \
    X(SECOND_SIDE_KEEPS, "search", "second side keeps the first side's settlements")                                   \
    X(TRAIL_BY_PLACEMENT, "search", "trail by placement and not by path")                                              \
    X(TRAIL_NOT_CLEARED, "search", "trail's rest not cleared")                                                         \
    X(PLAN_NOT_CLEARED, "search", "plan not cleared on a stop")                                                        \
    X(PLAN_PAST_N, "search", "plan written past n")                                                                    \
    X(PLAN_PAST_END, "search", "a byte past the plan written")                                                         \
    X(TRAIL_BEFORE_PLAN, "search", "refusal 7 before 6")                                                               \
    X(REPEATED_ONCE, "search", "a repeated entry counted once")                                                        \
    X(TIED_AS_EQUAL, "search", "rule 6 ties entries of one sign as equal")                                             \
    X(NO_RULE_8, "search", "rule 8 left out")                                                                          \
    X(NO_RULE_7, "search", "rule 7 left out")                                                                          \
    X(COUNT_OF_10_BITS, "trees", "count kept in 10 bits")                                                              \
    X(TRAIL_OF_32, "trees", "trail keeps 32 splits")                                                                   \
    X(LIST_COUNT_OF_10_BITS, "trees", "list's count kept in 10 bits")                                                  \
    X(FIRST_SIDE_LOST, "memory", "a remembered count without the first side")                                          \
    X(ONE_MORE_REMEMBERED, "memory", "a remembered count one too many")                                                \
    X(STOP_FORGOTTEN, "memory", "a remembered subtree beyond the allowance as no layout")                              \
    X(STOP_AT_REMEMBERED, "memory", "stopped where what is left is just the remembered count")                         \
    X(TIES_NOT_IN_KEY, "memory", "a key without ties")                                                                 \
    X(SPLIT_CLASS_NOT_IN_KEY, "memory", "a key without what is tied to the split's placement")                         \
    X(KEY_OF_FIRST_SIDE, "memory", "the key of the first side's state")                                                \
    X(PENDING_OVERWRITTEN, "memory", "a slot that is held is given to another subtree")                                \
    X(HASH_FOR_KEY, "memory", "equal hashes for equal keys")                                                           \
    X(MORE_AT_K, "list", "more at exactly k")                                                                          \
    X(ROWS_LEFT, "list", "unused rows left as they were")                                                              \
    X(ROWS_KEPT_ON_STOP, "list", "rows kept on a stop")                                                                \
    X(BEFORE_ROWS, "list", "a byte before the rows written")                                                           \
    X(EXACT_ROOM_REFUSED, "list", "27 at exactly k times n")                                                           \
    X(ROOM_OVERFLOWS, "list", "k times n reckoned in 64 bits")                                                         \
    X(LIVE_GROUPS_ONLY, "list", "list splits in live groups only")                                                     \
    X(EARLIER_REASON, "settle", "the earlier group of a pair as reason")                                               \
    X(ROOT_REASON, "settle", "a follower takes its root's reason")                                                     \
    X(REASONS_ON_DEAD_END, "settle", "reasons kept on a dead end")                                                     \
    X(STATE_ON_DEAD_END, "settle", "state list kept on a dead end")                                                    \
    X(SIGN_LOST, "settle", "sign of a tie lost")                                                                       \
    X(REASONS_BEFORE_STATE, "settle", "19 before 14")                                                                  \
    X(REFUSED_USED, "edits", "used length of a refused add")                                                           \
    X(ROOM_BEFORE_UNKNOWN, "edits", "23 before 5")                                                                     \
    X(PLACE_IN_LIST, "edits", "place of 5 in the list and not in the table")                                           \
    X(NO_CLOSING_ZERO, "edits", "closing 0 of an added group not written")                                             \
    X(PAST_CLEARED, "edits", "element past the taken-back group cleared")                                              \
    X(ONLY_LENGTH, "edits", "taken-back entries left in the buffer")                                                   \
    X(NOTHING_IS_DONE, "edits", "taking back from no group is done")                                                   \
    X(PREVIEW_WITHOUT, "edits", "preview without the group")                                                           \
    X(PREVIEW_ROOM, "edits", "preview refuses with 23")                                                                \
    X(PREVIEW_WRITES, "edits", "preview adds the group to the buffer")                                                 \
    X(UNNAMED_AT_END, "read", "26 not at the end mark")                                                                \
    X(TURN_BEFORE_MARK, "read", "22 before 20")                                                                        \
    X(LIMITS_PER_CHAPTER, "read", "limits counted anew at each chapter")                                               \
    X(PARTLY_READ, "read", "a refused read leaves elements")                                                           \
    X(CUT_AT_LAST, "read", "a missing end mark at the last byte")                                                      \
    X(LONGEST_REFUSED, "read", "24 at 16,384 bytes")                                                                   \
    X(CLOSED_GROUPS, "read", "group of 5 counts closed groups")                                                        \
    X(ROOM_NEEDED, "save", "25 says the room needed")                                                                  \
    X(ROOM_BEFORE_NAMES, "save", "25 before 26")                                                                       \
    X(UNNAMED_SAVED, "save", "an unnamed placement saved")                                                             \
    X(LOW_BYTE_FIRST, "window", "receipt with low byte first")                                                         \
    X(RECEIPT_OF_12, "window", "12 bytes enough for a receipt")                                                        \
    X(PLAN_BEFORE_NAMES, "window", "6 before 26")                                                                      \
    X(OLD_PLAN, "window", "plan left on no layout")                                                                    \
    X(OTHER_SIDE, "properties", "plan says the other side of the first split")

namespace wrong {

using namespace reference;

#define WRONG_NAME(name, where, what) name,
enum Fault { NONE, WRONG_PROGRAMS(WRONG_NAME) FAULTS };
#undef WRONG_NAME

struct Program {
    const char *where, *what;
};

#define WRONG_PROGRAM(name, where, what) {where, what},
constexpr Program programs[] = {{"", ""}, WRONG_PROGRAMS(WRONG_PROGRAM)};
#undef WRONG_PROGRAM

inline int chosen() {
    static const int number = getenv("WRONG") == nullptr ? 0 : atoi(getenv("WRONG"));
    return number;
}

inline bool is(Fault fault) { return chosen() == fault; }

template <class T> std::vector<T> copy_of(const T *list, size_t size) { return {list, list + size}; }

template <class T> void put_back(T *list, const std::vector<T> &was, size_t from, size_t to) {
    for (size_t i = from; i < to && i < was.size(); i++) list[i] = was[i];
}

inline bool is_outcome(const Answer &a) {
    return a.number == PLATEWRIGHT_LAID_OUT || a.number == PLATEWRIGHT_NO_LAYOUT;
}

/* Check */

inline Answer check(const int16_t *table, size_t length, size_t n) {
    Answer a = library::check(table, length, n);
    bool unknown = a.number == PLATEWRIGHT_UNKNOWN_PLACEMENT;
    if (is(READS_PAST) && static_cast<const volatile int16_t *>(table)[length] == 0) return a;
    if (is(PLACE_OFF_BY_ONE) && unknown) a.place++;
    if (is(GROUP_LOST) && unknown) a.group = 0;
    if (is(UNKNOWN_BEFORE_OPEN) && a.number == PLATEWRIGHT_OPEN_GROUP) {
        Entries closed = copy_of(table, length);
        closed.push_back(0);
        Answer b = library::check(closed.data(), closed.size(), n);
        if (b.number == PLATEWRIGHT_UNKNOWN_PLACEMENT) return b;
    }
    if (is(ONE_GROUP_MORE) && a.number == PLATEWRIGHT_TOO_MANY_GROUPS &&
        groups_in(copy_of(table, length)) == MAX_GROUPS + 1)
        return library::check(table, 0, n);
    return a;
}

constexpr auto check_begin = library::check_begin;
constexpr auto check_end = library::check_end;

inline platewright_pass check_part(platewright_pass pass, const int16_t *part, size_t length) {
    platewright_pass next = library::check_part(pass, part, length);
    if (is(PASS_FORGETS) && pass.unknown && length > 0) next.unknown = false;
    if (is(EMPTY_PART_CLOSES) && length == 0) next.open = false;
    if (is(PART_COUNTS_ANEW) && !pass.unknown && next.unknown)
        next.place = library::check_part(library::check_begin(pass.placements), part, length).place;
    return next;
}

/* Index */

inline Answer index(const int16_t *table, size_t length, size_t n, size_t *starts, size_t starts_len, size_t *entries,
                    size_t entries_len) {
    Answer a = library::index(table, length, n, starts, starts_len, entries, entries_len);
    if (is(EMPTY_GROUP_START) && a.number == PLATEWRIGHT_INDEXED)
        for (size_t g = 0; g < groups_in(copy_of(table, length)); g++) starts[g] += entries[g] == 0;
    if (is(LONGER_LIST_COUNTS) && a.number == PLATEWRIGHT_HEADS_SHORT &&
        starts_len >= groups_in(copy_of(table, length)))
        return answer(PLATEWRIGHT_INDEXED);
    return a;
}

/* A settler with one rule turned wrong, and the trees over it */

class Crooked {
    Groups groups;
    std::vector<Standing> standing;

    Step step_of_pairs(int rule) const {
        for (size_t i = 0; i < standing.size(); i++)
            for (size_t j = i + 1; j < standing.size(); j++) {
                if (!standing[i].live || !standing[j].live) continue;
                Step found = pair_rule(rule, standing[i], standing[j], (int)(is(EARLIER_REASON) ? i : j) + 1);
                if (found.rule != 0) return found;
            }
        return {};
    }

    Step next_step() const {
        for (int rule = 1; rule <= 6; rule++)
            for (size_t i = 0; i < standing.size(); i++) {
                Step found = one_rule(rule, standing[i], (int)i + 1);
                if (is(TIED_AS_EQUAL) && found.rule == 6) found.becomes = -found.becomes;
                if (found.rule != 0) return found;
            }
        Step found = is(NO_RULE_7) ? Step{} : step_of_pairs(7);
        return found.rule != 0 || is(NO_RULE_8) ? found : step_of_pairs(8);
    }

    void stand(const State &s) {
        for (size_t g = 0; g < groups.size(); g++) standing[g].fill(groups[g], s);
    }

  public:
    Settler right;

    explicit Crooked(const Filing &f) : groups(groups_of(f.table)), standing(groups.size()), right(f) {}

    bool settle(State &s) {
        for (;;) {
            stand(s);
            Step t = next_step();
            if (t.rule <= 1) return t.rule == 0;
            right.put(s, t.entry, t.becomes);
            s.reason[size_of(t.entry)] = t.group;
        }
    }
};

struct Crooked_tree {
    Crooked settler;
    uint32_t allowance, count = 0;
    Bytes plan;
    Entries path;

    uint32_t walk(State &s) {
        if (!settler.settle(s)) return PLATEWRIGHT_NO_LAYOUT;
        int p = settler.right.lowest_in_live_group(s);
        if (p == 0) {
            plan = settler.right.choice_of(s);
            return PLATEWRIGHT_LAID_OUT;
        }
        if (count == allowance) return PLATEWRIGHT_STOPPED;
        count++;
        State side = s;
        for (int becomes : {LEFT_OUT, TAKEN}) {
            if (!is(SECOND_SIDE_KEEPS)) side = s;
            side.value[(size_t)p] = p;
            settler.right.put(side, p, becomes);
            path.push_back((int16_t)(becomes == TAKEN ? p : -p));
            uint32_t number = walk(side);
            if (number != PLATEWRIGHT_NO_LAYOUT) return number;
            path.pop_back();
        }
        return PLATEWRIGHT_NO_LAYOUT;
    }
};

/* Search */

inline Answer crooked_search(const Filing &f, uint32_t allowance, uint8_t *plan, int16_t *trail) {
    Crooked_tree tree{Crooked(f), allowance, 0, Bytes(f.n), {}};
    State s = all_open();
    Answer a = answer(tree.walk(s));
    a.count = tree.count;
    if (a.number != PLATEWRIGHT_LAID_OUT) tree.path.clear(), tree.plan.assign(f.n, 0);
    tree.path.resize(f.n);
    put_back(plan, tree.plan, 0, f.n);
    put_back(trail, tree.path, 0, f.n);
    return a;
}

/* The table with each entry once in a group. */
inline Entries without_repeats(const Entries &table) {
    Entries once;
    for (int16_t e : table) {
        auto start = std::find(once.rbegin(), once.rend(), 0).base();
        if (e == 0 || std::find(start, once.end(), e) == once.end()) once.push_back(e);
    }
    return once;
}

inline void wrong_trail(int16_t *trail, const Entries &was, size_t n) {
    Entries path = copy_of(trail, n);
    size_t length = (size_t)(std::find(path.begin(), path.end(), 0) - path.begin());
    if (is(TRAIL_NOT_CLEARED)) put_back(trail, was, length, n);
    if (is(TRAIL_OF_32) && length > 32) std::fill(trail + 32, trail + n, (int16_t)0);
    if (!is(TRAIL_BY_PLACEMENT)) return;
    std::fill(trail, trail + n, (int16_t)0);
    for (size_t i = 0; i < length; i++) trail[size_of(path[i]) - 1] = path[i];
}

inline Answer wrong_stop(Answer a, const Bytes &was, uint8_t *plan, size_t n) {
    if (is(STOP_IS_NO_LAYOUT)) a.number = PLATEWRIGHT_NO_LAYOUT;
    if (is(PLAN_NOT_CLEARED)) put_back(plan, was, 0, n);
    return a;
}

inline Answer search(const int16_t *table, size_t length, size_t n, uint32_t allowance, uint8_t *plan, size_t plan_len,
                     int16_t *trail, size_t trail_len) {
    Bytes was = copy_of(plan, plan_len);
    Entries trail_was = copy_of(trail, trail_len);
    Answer a = library::search(table, length, n, allowance, plan, plan_len, trail, trail_len);
    if (is(TRAIL_BEFORE_PLAN) && a.number == PLATEWRIGHT_PLAN_SHORT && trail_len < n)
        a.number = PLATEWRIGHT_TRAIL_SHORT;
    if (!is_outcome(a) && a.number != PLATEWRIGHT_STOPPED) return a;
    Filing f{n, copy_of(table, length)};
    if (is(SECOND_SIDE_KEEPS) || is(TIED_AS_EQUAL) || is(NO_RULE_7) || is(NO_RULE_8))
        return crooked_search(f, allowance, plan, trail);
    if (is(REPEATED_ONCE)) {
        f.table = without_repeats(f.table);
        return library::search(f.table.data(), f.table.size(), n, allowance, plan, plan_len, trail, trail_len);
    }
    if (is(STOP_AT_COUNT) && a.count == allowance && a.count > 0 && is_outcome(a)) a.number = PLATEWRIGHT_STOPPED;
    if (is(COUNT_ONE_TOO_MANY) && a.count > 0) a.count++;
    if (is(COUNT_OF_10_BITS)) a.count &= 1023;
    if (is(PLAN_PAST_N) && plan_len > n) plan[n] = 0;
    if (is(PLAN_PAST_END)) plan[plan_len] = 0;
    if (is(OTHER_SIDE) && a.number == PLATEWRIGHT_LAID_OUT && a.count > 0) plan[size_of(trail[0]) - 1] ^= 1;
    wrong_trail(trail, trail_was, n);
    return a.number == PLATEWRIGHT_STOPPED ? wrong_stop(a, was, plan, n) : a;
}

/* The search with a memory that has a fault of its own (wrong_memory.cpp). */
memo_trial remembering(const int16_t *table, size_t length, size_t n, uint32_t allowance, uint8_t *plan, int16_t *trail,
                       size_t slots, uint32_t spread);

/* With -1 for a fault it has none. */
inline bool in_memory() {
    return chosen() < 0 || (chosen() >= FIRST_SIDE_LOST && chosen() <= HASH_FOR_KEY);
}

inline memo_trial memo_search(const int16_t *table, size_t length, size_t n, uint32_t allowance, uint8_t *plan,
                              size_t plan_len, int16_t *trail, size_t trail_len, size_t slots, uint32_t spread) {
    if (in_memory()) return remembering(table, length, n, allowance, plan, trail, slots, spread);
    return library::memo_search(table, length, n, allowance, plan, plan_len, trail, trail_len, slots, spread);
}

/* List */

inline Answer list(const int16_t *table, size_t length, size_t n, size_t k, uint32_t allowance, uint8_t *rows,
                   size_t rows_len) {
    Bytes was = copy_of(rows, rows_len);
    if (is(ROOM_OVERFLOWS) && n > 0 && k > rows_len / n && k * n <= rows_len && n <= MAX_N)
        return library::list(table, length, n, 0, allowance, rows, rows_len);
    Answer a = library::list(table, length, n, k, allowance, rows, rows_len);
    if (is(EXACT_ROOM_REFUSED) && is_outcome(a) && n > 0 && k > 0 && k * n == rows_len) {
        put_back(rows, was, 0, rows_len);
        return answer(PLATEWRIGHT_ROWS_SHORT);
    }
    if (is(BEFORE_ROWS)) *(rows - 1) = 0;
    if (is(MORE_AT_K) && a.number == PLATEWRIGHT_LAID_OUT && a.rows == k) a.more = true;
    if (is(ROWS_LEFT) && is_outcome(a)) put_back(rows, was, a.rows * n, rows_len);
    if (is(ROWS_KEPT_ON_STOP) && a.number == PLATEWRIGHT_STOPPED) put_back(rows, was, 0, rows_len);
    if (is(LIST_COUNT_OF_10_BITS)) a.count &= 1023;
    if (is(LIVE_GROUPS_ONLY) && is_outcome(a) && k == 0)
        a.count = Search(Filing{n, copy_of(table, length)}, UINT32_MAX).run().count;
    return a;
}

/* Settle */

inline void crooked_settle(const Filing &f, int16_t *list, uint16_t *reasons) {
    Crooked settler(f);
    State s = all_open();
    settler.settle(s);
    for (size_t i = 0; i < f.n; i++) {
        list[i] = (int16_t)s.value[i + 1];
        reasons[i] = (uint16_t)s.reason[i + 1];
    }
}

inline Answer settle(const int16_t *table, size_t length, size_t n, int16_t *list, size_t list_len, uint16_t *reasons,
                     size_t reasons_len) {
    Entries list_was = copy_of(list, list_len);
    Reasons reasons_were = copy_of(reasons, reasons_len);
    Answer a = library::settle(table, length, n, list, list_len, reasons, reasons_len);
    if (is(REASONS_BEFORE_STATE) && a.number == PLATEWRIGHT_STATE_SHORT && reasons_len < n)
        a.number = PLATEWRIGHT_REASONS_SHORT;
    if (is(REASONS_ON_DEAD_END) && a.number == PLATEWRIGHT_NO_LAYOUT) put_back(reasons, reasons_were, 0, n);
    if (is(STATE_ON_DEAD_END) && a.number == PLATEWRIGHT_NO_LAYOUT) put_back(list, list_was, 0, n);
    if (a.number != PLATEWRIGHT_SETTLED) return a;
    if (is(EARLIER_REASON)) crooked_settle({n, copy_of(table, length)}, list, reasons);
    for (size_t i = 0; i < n; i++) {
        bool tied = size_of(list[i]) <= n && size_of(list[i]) != i + 1;
        if (is(SIGN_LOST) && tied) list[i] = (int16_t)size_of(list[i]);
        if (is(ROOT_REASON) && tied) reasons[i] = reasons[size_of(list[i]) - 1];
    }
    return a;
}

/* Add, take back, preview */

inline Answer add(int16_t *buffer, size_t length, size_t used, size_t n, const int16_t *group, size_t group_len) {
    Entries was = copy_of(buffer, length);
    Answer a = library::add(buffer, length, used, n, group, group_len);
    bool added = a.number == PLATEWRIGHT_GROUP_ADDED, unknown = a.number == PLATEWRIGHT_UNKNOWN_PLACEMENT;
    if (is(REFUSED_USED) && !added) a.used = used;
    if (is(ROOM_BEFORE_UNKNOWN) && unknown && a.place >= used && length - used <= group_len)
        return answer(PLATEWRIGHT_TABLE_SHORT);
    if (is(PLACE_IN_LIST) && unknown && a.place >= used) a.place -= used;
    if (is(NO_CLOSING_ZERO) && added) buffer[a.used - 1] = was[a.used - 1];
    return a;
}

inline Answer take_back(int16_t *buffer, size_t length, size_t used, size_t n) {
    Entries was = copy_of(buffer, length);
    Answer a = library::take_back(buffer, length, used, n);
    if (is(NOTHING_IS_DONE) && a.number == PLATEWRIGHT_NOTHING_TO_TAKE_BACK) a.number = PLATEWRIGHT_DONE;
    if (a.number != PLATEWRIGHT_DONE) return a;
    if (is(PAST_CLEARED) && used < length) buffer[used] = 0;
    if (is(ONLY_LENGTH)) put_back(buffer, was, 0, length);
    return a;
}

inline Answer preview(const int16_t *buffer, size_t length, size_t used, size_t n, const int16_t *group,
                      size_t group_len, int16_t *list, size_t list_len, uint16_t *reasons, size_t reasons_len) {
    Entries list_was = copy_of(list, list_len);
    Reasons reasons_were = copy_of(reasons, reasons_len);
    Answer a = library::preview(buffer, length, used, n, group, group_len, list, list_len, reasons, reasons_len);
    if (a.number != PLATEWRIGHT_SETTLED && a.number != PLATEWRIGHT_NO_LAYOUT) return a;
    if (is(PREVIEW_WITHOUT)) return library::settle(buffer, used, n, list, list_len, reasons, reasons_len);
    if (is(PREVIEW_WRITES)) library::add(const_cast<int16_t *>(buffer), length, used, n, group, group_len);
    if (is(PREVIEW_ROOM) && length - used <= group_len) {
        put_back(list, list_was, 0, list_len);
        put_back(reasons, reasons_were, 0, reasons_len);
        return answer(PLATEWRIGHT_TABLE_SHORT);
    }
    return a;
}

/* Strips */

inline Answer refused_otherwise(Answer a, const Bytes &strip, size_t used) {
    if (is(UNNAMED_AT_END) && a.number == PLATEWRIGHT_UNNAMED_PLACEMENT) a.place = strip.size();
    if (is(TURN_BEFORE_MARK) && a.number == PLATEWRIGHT_UNKNOWN_MARK && strip[a.place - (a.place > 0)] == 0x5A)
        a.number = 22;
    if (is(CUT_AT_LAST) && a.number == PLATEWRIGHT_CUT_STRIP && a.place == strip.size() && a.place > 0) a.place--;
    if (is(CLOSED_GROUPS) && a.number == PLATEWRIGHT_UNKNOWN_PLACEMENT) a.group--;
    bool chapters = std::count(strip.begin(), strip.begin() + (long)a.place, 0x43) > 0;
    if (is(LIMITS_PER_CHAPTER) && chapters && a.number == PLATEWRIGHT_TOO_MANY_GROUPS) {
        a = answer(PLATEWRIGHT_STRIP_READ);
        a.used = used;
    }
    return a;
}

inline Answer read(const uint8_t *strip, size_t length, int16_t *table, size_t table_len) {
    Answer a = library::read(strip, length, table, table_len);
    Bytes bytes = copy_of(strip, length);
    if (is(LONGEST_REFUSED) && length == MAX_STRIP) return answer(PLATEWRIGHT_STRIP_TOO_LONG);
    if (a.number == PLATEWRIGHT_STRIP_READ) return a;
    Reader reader(bytes, table_len);
    reader.read();
    if (is(PARTLY_READ)) put_back(table, reader.table, 0, table_len);
    return refused_otherwise(a, bytes, reader.table.size());
}

inline Answer save(const int16_t *table, size_t length, size_t n, uint8_t *strip, size_t strip_len) {
    Answer a = library::save(table, length, n, strip, strip_len);
    if (n > MAX_N) return a;
    Bytes whole = strip_of(Filing{n, copy_of(table, length)});
    bool unnamed = a.number == PLATEWRIGHT_UNNAMED_PLACEMENT;
    if (is(ROOM_NEEDED) && a.number == PLATEWRIGHT_STRIP_SHORT) a.place = whole.size();
    if (is(ROOM_BEFORE_NAMES) && unnamed && strip_len < whole.size()) a.number = PLATEWRIGHT_STRIP_SHORT;
    if (is(UNNAMED_SAVED) && unnamed && strip_len >= whole.size()) {
        put_back(strip, whole, 0, whole.size());
        return answer(PLATEWRIGHT_DONE, whole.size());
    }
    return a;
}

/* Window */

inline uint32_t window(const uint8_t *strip, size_t length, uint32_t allowance, uint8_t *plan, size_t plan_len,
                       uint8_t *receipt, size_t receipt_len) {
    Bytes was = copy_of(plan, plan_len);
    uint32_t number = library::window(strip, length, allowance, plan, plan_len, receipt, receipt_len);
    if (is(RECEIPT_OF_12) && receipt_len >= 12 && receipt_len < RECEIPT) {
        Bytes longer(RECEIPT);
        number = library::window(strip, length, allowance, plan, plan_len, longer.data(), RECEIPT);
        put_back(receipt, longer, 0, receipt_len);
    }
    if (is(LOW_BYTE_FIRST) && receipt_len >= RECEIPT)
        for (size_t at = 0; at < RECEIPT; at += 4) std::reverse(receipt + at, receipt + at + 4);
    if (is(PLAN_BEFORE_NAMES) && number == PLATEWRIGHT_UNNAMED_PLACEMENT && plan_len < strip[1] * 256u + strip[2]) {
        Bytes other(RECEIPT);
        put_number(other, 0, PLATEWRIGHT_PLAN_SHORT);
        put_back(receipt, other, 0, RECEIPT);
        return PLATEWRIGHT_PLAN_SHORT;
    }
    if (is(OLD_PLAN) && number == PLATEWRIGHT_NO_LAYOUT) put_back(plan, was, 0, plan_len);
    return number;
}

} // namespace wrong

#endif
