/* Times the window's call beside the independent search, from strip to answer: measure ALLOWANCE SECONDS STRIP...
 *
 * Where the library would take longer than SECONDS for a filing it is measured at a smaller allowance, and the
 * independent search at the same one, so that both do the same work. Each line: strip, n, groups, entries, number and
 * count at ALLOWANCE, the splits walked there, the allowance measured at, the splits counted there, seconds of the
 * library, seconds of the independent search, and "same" or "DIFFERS". Splits are those of the tree: those of a subtree
 * that is remembered are counted and not walked. Built without -DMEMO_TRIAL, nothing can tell them apart, and 0 stands
 * for the splits walked. */
#include "common.hpp"
#include "memo_trial.hpp"

enum { FIRST_ALLOWANCE = 16, TIMES_MORE = 4 };

/* The allowance that the library can be measured at: ever more splits, as long as that is sure to end in time. */
static uint32_t allowance_in(double most, const std::vector<uint8_t> &strip, int n, uint32_t allowance) {
    for (uint32_t at = FIRST_ALLOWANCE; at < allowance; at *= TIMES_MORE) {
        double start = seconds();
        if (by_window(strip, n, at).number != PLATEWRIGHT_STOPPED) return at;
        if ((seconds() - start) * (TIMES_MORE + 1) > most) return at;
        if (at > allowance / TIMES_MORE) break;
    }
    return allowance;
}

#ifdef MEMO_TRIAL
/* The splits walked by the same search with its counts of the memory open; it must answer as the independent one. */
static uint32_t walked_of(const char *path, const own::Filing &f, const own::Answer &whole, uint32_t allowance) {
    std::vector<uint8_t> plan((size_t)f.n + 1);
    std::vector<int16_t> trail((size_t)f.n + 1);
    memo_trial m = memo_trial_search(lent(f.table), f.table.size(), (size_t)f.n, allowance, plan.data(), plan.size(),
        trail.data(), trail.size(), PRODUCT_SLOTS, PRODUCT_SPREAD);
    if ((int)m.number != whole.number || m.count != whole.count) fail(path, "what tells the splits walked differs");
    return m.walked;
}
#else
static uint32_t walked_of(const char *, const own::Filing &, const own::Answer &, uint32_t) { return 0; }
#endif

static bool measure(const char *path, uint32_t allowance, double most) {
    std::vector<uint8_t> strip = read_strip(path);
    own::Filing f = parse(strip);
    own::Answer whole = by_own(strip, allowance);
    uint32_t at = allowance_in(most, strip, f.n, allowance);
    own::Answer independent = by_own(strip, at);
    bool same = alike(independent, by_window(strip, f.n, at));
    Pair best = best_of([&] { by_window(strip, f.n, at); }, [&] { by_own(strip, at); });
    size_t groups = groups_of(f);
    printf("%s %d %zu %zu %d %u %u %u %u %.9f %.9f %s\n", path, f.n, groups, f.table.size() - groups, whole.number,
        whole.count, walked_of(path, f, whole, allowance), at, independent.count, best.first, best.second,
        same ? "same" : "DIFFERS");
    fflush(stdout);
    return same;
}

int main(int argc, char **argv) {
    if (argc < 4) {
        fprintf(stderr, "measure ALLOWANCE SECONDS STRIP...\n");
        return 2;
    }
    uint32_t allowance = (uint32_t)strtoul(argv[1], nullptr, 10);
    double most = atof(argv[2]);
    bool same = true;
    for (int i = 3; i < argc; i++) same = measure(argv[i], allowance, most) && same;
    return same ? 0 : 1;
}
