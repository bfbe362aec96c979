/* What all trials share: numbers that look random, lists that are lent inside fences, the comparing of a call with what
 * was expected, shrinking, and tallies of how many cases of each kind there were. */
#ifndef TRIALS_HPP
#define TRIALS_HPP

#include <algorithm>
#include <cstdint>
#include <cstdio>
#include <ctime>
#include <functional>
#include <initializer_list>
#include <map>
#include <string>
#include <vector>

#include "reference_strips.hpp"

#ifdef WRONG
#include "wrong.hpp" /* a wrong program between the trials and the library */
namespace face = wrong;
#else
#include "trials_face.hpp"
namespace face = library;
#endif

namespace trials {

using namespace reference;

/* Splitmix: the same numbers in every run and everywhere. */
class Random {
    uint64_t state;

  public:
    explicit Random(uint64_t seed) : state(seed * 0x9E3779B97F4A7C15u + 1) {}

    uint64_t next() {
        uint64_t z = state += 0x9E3779B97F4A7C15u;
        z = (z ^ z >> 30) * 0xBF58476D1CE4E5B9u;
        z = (z ^ z >> 27) * 0x94D049BB133111EBu;
        return z ^ z >> 31;
    }

    /* 0 where the limit is 0. */
    size_t below(size_t limit) { return limit == 0 ? 0 : (size_t)(next() >> 8) % limit; }
    bool once_in(size_t times) { return below(times) == 0; }
    size_t from_to(size_t from, size_t to) { return from + below(to - from + 1); }

    /* The room to lend where so much is needed: one too few, none, just enough, or more. */
    size_t room(size_t need) {
        switch (below(16)) {
        case 0: return need > 0 ? need - 1 : 0;
        case 1: return below(4) == 0 ? 0 : need;
        case 2:
        case 3:
        case 4:
        case 5: return need;
        default: return need + 1 + below(9);
        }
    }
};

/* Bytes between pages that may not be touched: the library is not built with a sanitizer, so these see what it does. */
class Fence {
    static std::vector<uint8_t *> &idle();

  public:
    enum { BYTES = 1 << 18, GUARD = 32 };
    uint8_t *const from;

    Fence();
    ~Fence();
    Fence(const Fence &) = delete;
    Fence &operator=(const Fence &) = delete;
};

/* What stands in a list before a call that may write it: nothing that a call writes. */
template <class T> std::vector<T> filler(size_t size) {
    std::vector<T> list(size);
    for (size_t i = 0; i < size; i++) list[i] = (T)(0x5AA0 + i % 64);
    return list;
}

/* A list as it is lent: it ends at the fence, and a guard stands before it. */
template <class T> class Lent {
    Fence fence;
    T *const at;
    const std::vector<T> was;

  public:
    explicit Lent(const std::vector<T> &list) : at((T *)(fence.from + Fence::BYTES) - list.size()), was(list) {
        std::fill((uint8_t *)at - Fence::GUARD, (uint8_t *)at, (uint8_t)0xC5);
        std::copy(was.begin(), was.end(), at);
    }

    T *data() { return at; }
    size_t size() const { return was.size(); }
    std::vector<T> now() const { return {at, at + was.size()}; }
    bool holds(const std::vector<T> &list) const { return std::equal(list.begin(), list.end(), at, at + was.size()); }
    bool kept() const { return holds(was); }
    bool guarded() const {
        const uint8_t *end = (const uint8_t *)at;
        return std::all_of(end - Fence::GUARD, end, [](uint8_t b) { return b == 0xC5; });
    }
};

extern template class Lent<uint8_t>;
extern template class Lent<int16_t>;
extern template class Lent<uint16_t>;
extern template class Lent<size_t>;

/* Text for a disagreement. */
std::string shown(size_t number);
std::string shown(const Entries &list);
std::string shown(const Bytes &list);
std::string shown(const Reasons &list);
std::string shown(const std::vector<size_t> &list);
std::string shown(const Answer &a);
std::string shown(const Filing &f);
std::string shown_strip(const Bytes &strip);

/* Where the library or the reference is not as expected. */
struct Disagreement {
    std::string what;
};

/* One call beside what was expected of it. */
class Comparison {
    std::string differences;

    void differ(const char *what, const std::string &expected, const std::string &came);

  public:
    void same(const Answer &expected, const Answer &came);
    void same(const char *what, size_t expected, size_t came);
    void holds(const char *what, bool truth);

    template <class T> void same(const char *what, const std::vector<T> &expected, const std::vector<T> &came) {
        if (expected != came) differ(what, shown(expected), shown(came));
    }
    template <class T> void same(const char *what, const std::vector<T> &expected, const Lent<T> &list) {
        if (!list.holds(expected)) differ(what, shown(expected), shown(list.now()));
        if (!list.guarded()) differ(what, "nothing written before it", "something written before it");
    }
    template <class T> void kept(const char *what, const Lent<T> &list) {
        if (!list.kept() || !list.guarded()) differ(what, "as it was", shown(list.now()));
    }

    bool differs() const { return !differences.empty(); }
    const std::string &text() const { return differences; }

    /* Throws; the words say which call it was. */
    [[noreturn]] void disagree(std::initializer_list<std::string> words) const;
};

[[noreturn]] void report(const std::string &given, const Disagreement &d);

enum { SHRINKING_SECONDS = 2 };

/* The list without as many of its elements as can go, in this time, while it still disagrees. */
template <class T>
std::vector<T> shrunk(std::vector<T> list, const std::function<bool(const std::vector<T> &)> &disagrees) {
    const clock_t end = clock() + SHRINKING_SECONDS * CLOCKS_PER_SEC;
    for (size_t chunk = list.size(); chunk > 0; chunk /= 2)
        for (size_t at = 0; at < list.size() && clock() < end;) {
            std::vector<T> less(list.begin(), list.begin() + (long)at);
            less.insert(less.end(), list.begin() + (long)std::min(at + chunk, list.size()), list.end());
            if (disagrees(less))
                list = less;
            else
                at += chunk;
        }
    return list;
}

template <class Trial, class Given> bool disagrees(const Trial &trial, const Given &given) {
    try {
        trial(given);
        return false;
    } catch (const Disagreement &) {
        return true;
    }
}

/* Tries a filing or a strip; where the trial throws, reports the smallest for which it does. */
void try_filing(const Filing &filing, const std::function<void(const Filing &)> &trial);
void try_strip(const Bytes &strip, const std::function<void(const Bytes &)> &trial);

/* How many answers of each number there were, and how many of other things. */
class Tally {
    std::map<uint32_t, uint64_t> numbers;
    std::vector<std::pair<std::string, uint64_t>> things;

    uint64_t &thing(const std::string &name);

  public:
    void number(uint32_t number) { numbers[number]++; }
    void add(const std::string &name, uint64_t more = 1) { thing(name) += more; }
    void most(const std::string &name, uint64_t value) { thing(name) = std::max(thing(name), value); }
    void show(const std::vector<std::pair<uint32_t, const char *>> &outcomes) const;
};

/* Filings (trials_filings.cpp) */

enum { FILINGS = 10500, LIMIT_KINDS = 14, LIMIT_ROUNDS = 4, ALL_FILINGS = FILINGS + LIMIT_KINDS * LIMIT_ROUNDS };

/* One filing in so many is lent lists of every length up to some more than enough, where it is a small one. */
enum { ALL_LENGTHS = 64, SMALL = 12, SPARE = 3 };
inline bool has_all_lengths(size_t number, size_t size) { return number % ALL_LENGTHS == 0 && size <= SMALL; }

/* The filing of a number: random small ones first, then those at the limits. */
Filing filing_of(size_t number);

/* The same with every placement named, or at times every one but one. */
Filing completed(const Filing &f, Random &random);

/* One group that is random, of placements from base + 1 to n. */
Entries any_group(size_t base, size_t n, const Entries &before, Random &random);

/* A filing whose tree may have some thousand splits. */
enum { HARD_KINDS = 6 };
Filing hard_filing(size_t kind, Random &random);

/* The parts of such filings. Groups of so many entries, some of them left out where that is said. */
Filing random_groups(size_t n, size_t groups, size_t size, bool signs, Random &random);
/* Each of so many figures in one of so many boxes, at most one in a box: the last placements, before all are shuffled,
 * say that a box is empty. */
Filing boxes_filing(size_t figures, size_t boxes, Random &random);
/* Pairs of neighbours on a board that lacks two cells of one colour, so that it can't be covered. */
Filing board_filing(size_t width, size_t height, Random &random);
/* Placements, one in so many, stand with the other sign: the tree is another one. */
Filing turned(Filing f, size_t one_in, Random &random);

void close(Entries &table, const Entries &group);

/* Whether all choices of the placements that stand in groups can be tried. */
enum { MOST_TRIED = 12 };
inline bool can_try_all(const Filing &f) { return f.n - free_before(f) <= MOST_TRIED; }

/* The cases, by operation. */
void hand_trial();
void check_trial();
void index_trial();
void search_trial();
void trees_trial();
void memory_trial();
void settle_trial();
void list_trial();
void edits_trial();
void read_trial();
void save_trial();
void window_trial();
void properties_trial();

} // namespace trials

#endif
