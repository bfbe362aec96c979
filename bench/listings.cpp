/* What one list costs on each strip beside the independent enumerator, with as many rows as ROOM bytes hold:
 *
 *     listings STRIP...
 *
 * Strips may leave placements unnamed, since list takes the table. The two must answer alike, row for row. */
#include "common.hpp"

enum { ROOM = 262144 };

static const uint32_t NO_STOP = UINT32_MAX;

/* Nanoseconds of one of so many. */
static std::string each(double seconds, double count) { return count > 0 ? grouped(1e9 * seconds / count) : "-"; }

/* Milliseconds of a split, 0 where none was made. */
static double measure(const char *path) {
    own::Filing f = parse(read_strip(path, true));
    size_t k = f.n ? (size_t)(ROOM / f.n) : 1;
    std::vector<uint8_t> rows(ROOM, UNTOUCHED), independent_rows(ROOM, UNTOUCHED);
    own::Listing a, b;
    auto library = [&] { a = by_list(f, k, NO_STOP, rows); };
    auto independent = [&] { b = own::list(f, k, NO_STOP, independent_rows.data()); };
    library();
    independent();
    if (!alike(a, b) || rows != independent_rows) fail(path, "library and independent enumerator differ");
    Pair best = best_of(library, independent);
    std::vector<std::string> cells = filing_cells(name_of(path), f);
    add_cells(cells, {std::to_string(a.number), grouped(a.rows), a.more ? "yes" : "no", grouped(a.count)});
    add_cells(cells, {grouped(1e6 * best.first, 1), each(best.first, a.count), each(best.first, a.rows)});
    add_cells(cells, {grouped(1e6 * best.second, 1), each(best.second, a.count)});
    add_cells(cells, {rounded("%.2g", best.second / best.first)});
    print_row(cells);
    return a.count ? 1e3 * best.first / a.count : 0;
}

int main(int argc, char **argv) {
    print_head({"filing", "n", "groups", "entries", "number", "rows", "more", "splits", "us",
        "split ns", "row ns", "own us", "split ns", "ratio"});
    Largest longest = largest_of(argc - 1, argv + 1, measure);
    printf("\nThe longest split: %s, %.1f milliseconds.\n", longest.name.c_str(), longest.figure);
    return 0;
}
