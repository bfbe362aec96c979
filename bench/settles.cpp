/* What one settle costs on each strip, and one preview of its last group on a buffer from which that was taken back:
 *
 *     settles STRIP...
 *
 * The two must answer alike, in number, list and reasons. A step is a placement that isn't open. */
#include "common.hpp"

struct Settling {
    uint32_t number = 0;
    std::vector<int16_t> list = std::vector<int16_t>(PLATEWRIGHT_MAX_PLACEMENTS);
    std::vector<uint16_t> reasons = std::vector<uint16_t>(PLATEWRIGHT_MAX_PLACEMENTS);

    bool operator==(const Settling &s) const { return number == s.number && list == s.list && reasons == s.reasons; }
};

/* A filing, and the same with its last group apart. */
struct Edited {
    own::Filing filing;
    std::vector<int16_t> buffer, group;
    size_t used;
};

static Edited read_filing(const char *path) {
    own::Filing f = parse(read_strip(path));
    if (f.table.empty()) fail(path, "there is no group to take back");
    Edited e = {f, f.table, {}, 0};
    platewright_answer taken = platewright_take_back(e.buffer.data(), e.buffer.size(), e.buffer.size(), (size_t)f.n);
    if (taken.number != PLATEWRIGHT_DONE) fail(path, "the last group can't be taken back");
    e.used = taken.used;
    e.group.assign(f.table.begin() + (long)e.used, f.table.end() - 1);
    return e;
}

static void settle(const Edited &e, Settling &s) {
    const std::vector<int16_t> &table = e.filing.table;
    s.number = platewright_settle(table.data(), table.size(), (size_t)e.filing.n, s.list.data(), s.list.size(),
        s.reasons.data(), s.reasons.size()).number;
}

static void preview(const Edited &e, Settling &s) {
    s.number = platewright_preview(e.buffer.data(), e.buffer.size(), e.used, (size_t)e.filing.n, lent(e.group),
        e.group.size(), s.list.data(), s.list.size(), s.reasons.data(), s.reasons.size()).number;
}

static int steps(const Settling &s, int n) {
    int found = 0;
    for (int p = 1; p <= n; p++) found += s.list[(size_t)p - 1] != 0 && s.list[(size_t)p - 1] != p;
    return found;
}

/* Milliseconds of one settle. */
static double measure(const char *path) {
    Edited e = read_filing(path);
    Settling settled, previewed;
    settle(e, settled);
    preview(e, previewed);
    if (!(settled == previewed)) fail(path, "settle and preview differ");
    Pair best = best_of([&] { settle(e, settled); }, [&] { preview(e, previewed); });
    std::vector<std::string> cells = filing_cells(name_of(path), e.filing);
    add_cells(cells, {std::to_string(settled.number), std::to_string(steps(settled, e.filing.n))});
    add_cells(cells, {rounded("%.4f", 1e3 * best.first), rounded("%.4f", 1e3 * best.second)});
    add_cells(cells, {rounded("%.2f", best.second / best.first)});
    print_row(cells);
    return 1e3 * best.first;
}

int main(int argc, char **argv) {
    print_head({"filing", "n", "groups", "entries", "number", "steps", "milliseconds", "Preview, milliseconds",
        "ratio"});
    Largest longest = largest_of(argc - 1, argv + 1, measure);
    printf("\nThe longest Settle: %s, %.0f milliseconds.\n", longest.name.c_str(), longest.figure);
    return 0;
}
