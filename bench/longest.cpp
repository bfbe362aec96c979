/* What a search costs up to its first split, and its longest split, beside the independent search:
 *
 *     longest STRIP...
 *
 * A call whose allowance is 0 ends where the first split would be: that is the start. What a further split costs is the
 * difference of the calls with it and without it; so each of the first splits is measured, and of them the longest
 * one told, with the same split of the independent search. Each line: strip, n, groups, entries, number, splits, and
 * seconds: of the start, the longest split and the whole call, each by the library and by the independent search; then
 * "same" or "DIFFERS". */
#include "common.hpp"

/* Another search of this form may be measured in its place. */
#ifndef INDEPENDENT
#define INDEPENDENT own::search
#endif

enum { FIRST_SPLITS = 12, MOST_SPLITS = 1000 };

static const double ROUND_SECONDS = 0.005;

static Pair seconds_at(const own::Filing &f, uint32_t allowance) {
    return best_of([&] { by_search(f, allowance); }, [&] { INDEPENDENT(f, allowance); }, ROUND_SECONDS);
}

/* Of the first splits the one that took the library longest. */
static Pair longest_split(const own::Filing &f, Pair start, uint32_t count) {
    Pair longest = {0, 0}, before = start;
    for (uint32_t k = 1; k <= count; k++) {
        Pair with = seconds_at(f, k);
        Pair split = {with.first - before.first, with.second - before.second};
        if (split.first > longest.first) longest = split;
        before = with;
    }
    return longest;
}

static bool measure(const char *path) {
    own::Filing f = parse(read_strip(path));
    own::Answer expected = INDEPENDENT(f, MOST_SPLITS), came = by_search(f, MOST_SPLITS);
    bool same = alike(expected, came) && expected.trail == came.trail;
    Pair start = seconds_at(f, 0), call = seconds_at(f, MOST_SPLITS);
    Pair longest = longest_split(f, start, std::min<uint32_t>(came.count, FIRST_SPLITS));
    size_t groups = groups_of(f);
    printf("%s %d %zu %zu %d %u", path, f.n, groups, f.table.size() - groups, came.number, came.count);
    for (Pair p : {start, longest, call}) printf(" %.9f %.9f", p.first, p.second);
    printf(" %s\n", same ? "same" : "DIFFERS");
    fflush(stdout);
    return same;
}

int main(int argc, char **argv) {
    bool same = true;
    for (int i = 1; i < argc; i++) same = measure(argv[i]) && same;
    return same ? 0 : 1;
}
