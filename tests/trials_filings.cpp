/* Filings for the trials: random small ones whose choices can all be tried, filings at the limits and one past them,
 * and filings whose trees have some thousand splits. */
#include "trials.hpp"

namespace trials {

void close(Entries &table, const Entries &group) {
    table.insert(table.end(), group.begin(), group.end());
    table.push_back(0);
}

namespace {

/* What a group is made for. */
enum Kind {
    EMPTY,
    ANY,       /* both signs, repeated entries, an entry and its opposite */
    TAKEN_ALL, /* placements at equal distances, taken */
    TIE,       /* two neighbours: many of these make chains of ties */
    TWICE,     /* the first entry twice */
    SHARED,    /* an entry of the group before, and the opposite of another: rule 7 */
    OPPOSED,   /* the opposites of two entries of the group before: rule 8 */
    SAME,      /* the group before once more */
};

struct Shape {
    size_t base, placements, groups; /* only placements above base stand in groups */
    Kind favourite;
    size_t mixed;   /* one group in so many is of any kind; 0: none is */
    size_t entries; /* of each group; 0: as its kind asks */
};

int16_t signed_entry(size_t p, bool taken) { return (int16_t)(taken ? (int)p : -(int)p); }

int16_t any_entry(const Shape &s, Random &r) { return signed_entry(s.base + 1 + r.below(s.placements), r.once_in(2)); }

Kind any_kind(Random &r) {
    size_t pick = r.below(40);
    return pick == 0   ? EMPTY
           : pick < 9  ? ANY
           : pick < 21 ? TAKEN_ALL
           : pick < 25 ? TIE
           : pick < 27 ? TWICE
           : pick < 33 ? SHARED
           : pick < 39 ? OPPOSED
                       : SAME;
}

size_t entries_of(Kind kind, const Entries &before, Random &r) {
    switch (kind) {
    case EMPTY: return 0;
    case ANY: return r.from_to(1, 5);
    case TIE: return 2;
    case SAME: return before.size();
    default: return r.from_to(3, 5);
    }
}

Entries group_of(Kind kind, size_t size, const Shape &s, const Entries &before, Random &r) {
    Entries group;
    size_t first = r.below(1024), steps = r.from_to(1, 2);
    for (size_t i = 0; i < size; i++) {
        size_t nth = s.base + 1 + (first + i * steps) % s.placements, start = s.base + 1 + first % s.placements;
        bool copied = i < before.size() && (kind == SAME || i < 2);
        switch (kind) {
        case TAKEN_ALL: group.push_back(signed_entry(nth, true)); break;
        case TIE: group.push_back(signed_entry(nth, r.once_in(2))); break;
        case TWICE: group.push_back(signed_entry(i == 1 ? start : nth, true)); break;
        case SHARED: group.push_back(!copied ? any_entry(s, r) : i == 0 ? before[i] : (int16_t)-before[i]); break;
        case OPPOSED: group.push_back(copied ? (int16_t)-before[i] : any_entry(s, r)); break;
        case SAME: group.push_back(copied ? before[i] : any_entry(s, r)); break;
        default: group.push_back(any_entry(s, r));
        }
    }
    return group;
}

Filing filing_of_shape(const Shape &s, Random &r) {
    Filing f{s.base + s.placements, {}};
    Entries group;
    for (size_t g = 0; g < s.groups; g++) {
        Kind kind = s.mixed > 0 && r.once_in(s.mixed) ? any_kind(r) : s.favourite;
        size_t size = s.entries > 0 ? s.entries : entries_of(kind, group, r);
        group = group_of(kind, s.placements == 0 ? 0 : size, s, group, r);
        close(f.table, group);
    }
    return f;
}

Filing random_filing(Random &r) {
    Shape s{};
    s.placements = r.once_in(2) ? (size_t)MOST_TRIED : r.below(MOST_TRIED);
    size_t pick = r.below(16);
    s.base = pick == 0 ? r.below(20) : pick == 1 ? MAX_N - s.placements : 0;
    s.groups = r.below(s.placements + 2);
    s.favourite = r.once_in(2) ? TAKEN_ALL : any_kind(r);
    s.mixed = r.from_to(1, 8);
    return filing_of_shape(s, r);
}

/* Most often refused: too many placements, an open group, or an unknown placement. */
void spoil(Filing &f, Random &r) {
    size_t at = r.below(f.table.size());
    size_t pick = r.below(5);
    if (pick == 0) f.n = r.once_in(4) ? SIZE_MAX : MAX_N + 1;
    if (pick == 1) f.table.resize(at);
    if (f.table.empty() || at >= f.table.size()) return;
    if (pick == 2) f.table[at] = INT16_MIN;
    if (pick > 2 && f.n <= MAX_N) f.table[at] = signed_entry(f.n + 1 + r.below(2), r.once_in(2));
}

/* At the limits, and with one more of each thing. */
Filing limit_filing(size_t kind, Random &r) {
    const size_t top = MAX_N - 8, four = MAX_ENTRIES / MAX_GROUPS;
    const Shape shapes[LIMIT_KINDS] = {
        {top, 8, 3, TAKEN_ALL, 0, 3},
        {top + 1, 8, 3, TAKEN_ALL, 0, 3},
        {0, 6, MAX_GROUPS, SAME, 0, four},
        {top, 8, MAX_GROUPS, TAKEN_ALL, 0, four},
        {0, 6, MAX_GROUPS + 1, SAME, 0, four - 1},
        {0, 6, MAX_GROUPS + 1, TAKEN_ALL, 0, four},
        {0, 6, 1, ANY, 0, MAX_ENTRIES},
        {0, 6, 1, ANY, 0, MAX_ENTRIES + 1},
        {0, 10, MAX_GROUPS / 2, SAME, 0, 2 * four},
        {0, 6, 3, TAKEN_ALL, 0, MAX_ENTRIES / 3 + 1},
        {0, 6, MAX_GROUPS, EMPTY, 0, 0},
        {0, 6, MAX_GROUPS + 1, EMPTY, 0, 0},
        {MAX_N, 0, 0, ANY, 0, 0},
        {0, 0, 0, ANY, 0, 0},
    };
    Filing f = filing_of_shape(shapes[kind], r);
    if (kind == 9) f.table[f.table.size() - 2] = INT16_MIN; /* an entry too many, and an unknown one */
    return f;
}

} // namespace

/* Hard ones */

Filing random_groups(size_t n, size_t groups, size_t size, bool signs, Random &r) {
    Filing f{n, {}};
    for (size_t g = 0; g < groups; g++) {
        Entries group;
        while (group.size() < size) {
            int16_t p = (int16_t)r.from_to(1, n);
            bool stands = std::any_of(group.begin(), group.end(), [&](int16_t e) { return std::abs(e) == p; });
            if (!stands) group.push_back(signs && r.once_in(4) ? (int16_t)-p : p);
        }
        close(f.table, group);
    }
    return f;
}

/* Each placement is a piece that covers some of the cells, each group a cell that is to be covered once. */
static Filing exact_cover(size_t pieces, size_t cells, size_t size, Random &r) {
    std::vector<Entries> covers(cells);
    for (size_t p = 1; p <= pieces; p++)
        for (size_t i = 0; i < size; i++) {
            Entries &cell = covers[r.below(cells)];
            if (cell.empty() || cell.back() != (int16_t)p) cell.push_back((int16_t)p);
        }
    Filing f{pieces, {}};
    for (const Entries &cell : covers) close(f.table, cell);
    return f;
}

Filing boxes_filing(size_t figures, size_t boxes, Random &r) {
    Filing f{figures * boxes + boxes, {}};
    Entries number;
    for (size_t p = 1; p <= f.n; p++) number.push_back((int16_t)p);
    for (size_t i = f.n; i > 1; i--) std::swap(number[i - 1], number[r.below(i)]);
    for (size_t i = 0; i < figures; i++) {
        Entries one;
        for (size_t j = 0; j < boxes; j++) one.push_back(number[i * boxes + j]);
        close(f.table, one);
    }
    for (size_t j = 0; j < boxes; j++) {
        Entries box;
        for (size_t i = 0; i < figures; i++) box.push_back(number[i * boxes + j]);
        box.push_back(number[figures * boxes + j]);
        close(f.table, box);
    }
    return f;
}

Filing board_filing(size_t width, size_t height, Random &r) {
    size_t first = 2 * r.below(width / 2), second = width * 2 + 2 * r.below(width / 2);
    std::vector<Entries> cells(width * height);
    int16_t p = 0;
    auto pair = [&](size_t a, size_t b) {
        if (a == first || a == second || b == first || b == second) return;
        p++;
        cells[a].push_back(p);
        cells[b].push_back(p);
    };
    for (size_t c = 0; c < width * height; c++) {
        if (c % width + 1 < width) pair(c, c + 1);
        if (c + width < width * height) pair(c, c + width);
    }
    Filing f{(size_t)p, {}};
    for (size_t c = 0; c < width * height; c++)
        if (c != first && c != second) close(f.table, cells[c]);
    return f;
}

Filing filing_of(size_t number) {
    Random r(number);
    if (number >= FILINGS) return limit_filing((number - FILINGS) % LIMIT_KINDS, r);
    Filing f = random_filing(r);
    size_t pick = r.below(30);
    if (pick < 2) spoil(f, r);
    if (pick == 0) spoil(f, r);
    return f;
}

Entries any_group(size_t base, size_t n, const Entries &before, Random &random) {
    Shape s{base, n - base, 1, ANY, 0, 0};
    Kind kind = any_kind(random);
    return group_of(kind, s.placements == 0 ? 0 : entries_of(kind, before, random), s, before, random);
}

Filing completed(const Filing &f, Random &random) {
    Filing full = f;
    if (f.n == 0 || !passes(check(f.table, f.n))) return full;
    bool room = groups_in(f.table) + f.n <= MAX_GROUPS && entries_in(f.table) + 2 * f.n <= MAX_ENTRIES;
    for (size_t i = 0; i < f.table.size() && !room; i++)
        if (f.table[i] != 0) full.table[i] = signed_entry(i % f.n + 1, f.table[i] > 0);
    std::vector<bool> named(f.n + 1);
    for (int16_t e : full.table) named[size_of(e)] = true;
    for (size_t p = 1; p <= f.n && room; p++) {
        if (named[p]) continue;
        int16_t e = signed_entry(p, random.once_in(2));
        if (random.once_in(3))
            close(full.table, {e});
        else
            close(full.table, {e, (int16_t)-e});
    }
    int16_t spared = random.once_in(4) ? (int16_t)random.from_to(1, f.n) : (int16_t)0;
    for (int16_t &e : full.table)
        if (e != 0 && std::abs(e) == spared) e = signed_entry((size_t)spared % f.n + 1, e > 0);
    return full;
}

Filing turned(Filing f, size_t one_in, Random &r) {
    std::vector<int> sign(f.n + 1, 1);
    for (int &s : sign) s = r.once_in(one_in) ? -1 : 1;
    for (int16_t &e : f.table) e = (int16_t)(e * sign[size_of(e)]);
    return f;
}

Filing hard_filing(size_t kind, Random &r) {
    size_t n = r.from_to(20, 60);
    switch (kind) {
    case 0: return random_groups(n, n * 11 / 20 + r.below(4), 3, r.once_in(2), r);
    case 1: return random_groups(n, n * 9 / 20 + r.below(4), 4, r.once_in(2), r);
    case 2: return random_groups(100, r.from_to(36, 44), 8, false, r);
    case 3: return turned(exact_cover(r.from_to(90, 130), r.from_to(24, 36), 4, r), 8, r);
    case 4: return turned(boxes_filing(7 + r.below(2), r.from_to(6, 7), r), 6, r);
    default: return turned(board_filing(8, r.from_to(6, 8), r), 8, r);
    }
}

} // namespace trials
