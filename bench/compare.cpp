/* Compares the library with the independent search and enumerator on random filings, always the same ones:
 *
 *     compare [--filings N] [--most-splits N] [--seed N]
 *
 * Search: number, place, count, plan and trail. The window's call: number, place, count and plan. List: number, rows,
 * count, "more", and every byte of the room. Allowances go up to --most-splits. A strip must name every placement, so
 * of most filings those that stand in no group are left out; one in UNNAMED stays as it was made, and the window may
 * refuse it. The status is 1 if anything differs. */
#include <map>
#include <random>

#include "common.hpp"

enum { UNNAMED = 3, LIST_ROOM = 16384 };

struct Options {
    unsigned long filings = 20000, most_splits = 2000, seed = 1;
};

static std::mt19937_64 source;

static int below(int bound) { return (int)(source() % (uint64_t)bound); }
static int between(int low, int high) { return low + below(high - low + 1); }
static bool one_in(int k) { return below(k) == 0; }

struct Kind {
    int least_n, most_n, most_groups, least_size, most_size;
    int repeats; /* one group in so many may repeat placements */
    int empty;   /* one group in so many has nothing in it */
    bool deep;   /* groups for 30 to 70 of 100 placements, few entries left out: trees of many splits */
};

static own::Filing random_filing(const Kind &k) {
    own::Filing f;
    f.n = between(k.least_n, k.most_n);
    int groups = k.deep ? std::min(k.most_groups, f.n * between(30, 70) / 100) : below(k.most_groups + 1);
    int entries = 0, negative = k.deep ? 1 + 15 * below(2) : 1 << below(5), most = between(k.least_size, k.most_size);
    std::vector<int> place((size_t)f.n);
    for (int p = 0; p < f.n; p++) place[p] = p + 1;
    for (int g = 0; g < groups; g++) {
        bool repeats = k.repeats && one_in(k.repeats);
        int size = between(k.least_size, most);
        if (f.n == 0 || (k.empty && one_in(k.empty))) size = 0;
        if (!repeats) size = std::min(size, f.n);
        if (entries + size > PLATEWRIGHT_MAX_ENTRIES) break;
        entries += size;
        for (int i = 0; i < size; i++) {
            if (!repeats) std::swap(place[i], place[between(i, f.n - 1)]);
            int p = repeats ? between(1, f.n) : place[i];
            f.table.push_back((int16_t)(negative > 1 && one_in(negative) ? -p : p));
        }
        f.table.push_back(0);
    }
    return f;
}

/* Placements counted anew, without those that stand in no group. */
static void name_all(own::Filing &f) {
    std::vector<int> number((size_t)f.n + 1, 0);
    for (int e : f.table) number[abs(e)] = 1;
    number[0] = 0;
    int used = 0;
    for (int &x : number)
        if (x) x = ++used;
    for (int16_t &e : f.table) e = (int16_t)(e < 0 ? -number[-e] : number[e]);
    f.n = used;
}

static own::Filing any_filing() {
    static const Kind kinds[] = {
        {0, 6, 6, 0, 5, 2, 12, false},      /* small: repeats, opposites, groups of nothing */
        {3, 12, 12, 1, 4, 4, 0, false},     /* small, with ties */
        {8, 30, PLATEWRIGHT_MAX_GROUPS, 3, 6, 0, 0, true},
        {30, 80, PLATEWRIGHT_MAX_GROUPS, 3, 6, 40, 0, true},
        {10, 40, 40, 2, 5, 8, 0, false},    /* medium */
        {80, 256, PLATEWRIGHT_MAX_GROUPS, 3, 6, 0, 0, true},
        {60, 140, 110, 3, 7, 60, 0, false}, /* around the words of a set */
        {200, 256, PLATEWRIGHT_MAX_GROUPS, 3, 4, 0, 0, false},
        {5, 256, 40, 2, 60, 2, 0, false},   /* long groups */
        {1, 256, 6, 200, 700, 1, 0, false}, /* as long as groups get */
    };
    static const int often[] = {20, 20, 25, 15, 8, 5, 2, 2, 2, 1};
    int x = below(100), k = 0;
    while (x >= often[k]) x -= often[k++];
    return random_filing(kinds[k]);
}

static uint32_t any_allowance(unsigned long most) {
    const uint32_t allowances[] = {0, 1, (uint32_t)below(8), (uint32_t)most};
    return allowances[std::min(3, below(8))];
}

/* Few rows, or as many as the room holds. */
static size_t any_rows(int n) {
    const size_t rows[] = {0, 1, 2, (size_t)below(50), (size_t)(LIST_ROOM / std::max(1, n))};
    return std::min(rows[below(5)], rows[4]);
}

struct Tally {
    unsigned long splits = 0, refused = 0, rows = 0, more = 0, list_splits = 0, differ = 0;
    std::map<int, unsigned long> numbers;
};

static void show(const own::Filing &f, uint32_t allowance, const char *what) {
    printf("%s differs at allowance %u: n %d, [", what, allowance, f.n);
    for (int e : f.table) printf(" %d", e);
    printf(" ]\n");
}

static void compare_search(const own::Filing &f, uint32_t allowance, Tally &t) {
    own::Answer independent = own::search(f, allowance), library = by_search(f, allowance);
    t.numbers[independent.number]++;
    t.splits += independent.count;
    if (alike(independent, library) && independent.trail == library.trail) return;
    show(f, allowance, "search");
    t.differ++;
}

static void compare_window(const own::Filing &f, uint32_t allowance, Tally &t) {
    std::vector<uint8_t> strip = strip_of(f);
    own::Answer independent = by_own(strip, allowance);
    t.refused += independent.number == PLATEWRIGHT_UNNAMED_PLACEMENT;
    if (alike(independent, by_window(strip, f.n, allowance))) return;
    show(f, allowance, "the window's call");
    t.differ++;
}

static void compare_list(const own::Filing &f, size_t k, uint32_t allowance, Tally &t) {
    std::vector<uint8_t> independent_rows(LIST_ROOM, UNTOUCHED), rows(LIST_ROOM, UNTOUCHED);
    own::Listing independent = own::list(f, k, allowance, independent_rows.data());
    t.rows += independent.rows;
    t.more += independent.more;
    t.list_splits += independent.count;
    if (alike(independent, by_list(f, k, allowance, rows)) && rows == independent_rows) return;
    show(f, allowance, ("list of " + std::to_string(k) + " rows").c_str());
    t.differ++;
}

static bool options(int argc, char **argv, Options &o) {
    const std::map<std::string, unsigned long *> number = {
        {"--filings", &o.filings}, {"--most-splits", &o.most_splits}, {"--seed", &o.seed}};
    for (int i = 1; i < argc; i += 2) {
        auto named = number.find(argv[i]);
        if (named == number.end() || i + 1 == argc) return false;
        *named->second = strtoul(argv[i + 1], nullptr, 10);
    }
    return true;
}

int main(int argc, char **argv) {
    Options o;
    if (!options(argc, argv, o)) {
        fprintf(stderr, "compare [--filings N] [--most-splits N] [--seed N]\n");
        return 2;
    }
    source.seed(o.seed);
    Tally t;
    for (unsigned long i = 0; i < o.filings; i++) {
        own::Filing f = any_filing();
        if (i % UNNAMED != 0) name_all(f);
        uint32_t allowance = any_allowance(o.most_splits);
        compare_search(f, allowance, t);
        compare_window(f, allowance, t);
        compare_list(f, any_rows(f.n), allowance, t);
    }
    printf("%lu filings compared, %lu answers differ\n", o.filings, t.differ);
    printf("search: %lu laid out, %lu without layout, %lu stopped; %lu splits; %lu refused by the window\n",
        t.numbers[own::LAID_OUT], t.numbers[own::NO_LAYOUT], t.numbers[own::STOPPED], t.splits, t.refused);
    printf("list: %lu rows, %lu times more; %lu splits\n", t.rows, t.more, t.list_splits);
    return t.differ ? 1 : 0;
}
