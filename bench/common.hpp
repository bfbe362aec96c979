/* What the programs of this folder share: filings and strips, the library's answers and those of the independent search
 * side by side, processor time, and rows of a table. */
#ifndef COMMON_HPP
#define COMMON_HPP

#include <algorithm>
#include <cstdio>
#include <ctime>
#include <functional>
#include <string>

#include "list.hpp"
#include "platewright.h"

/* What stands in a lent list before a call, so that elements which become 0 can be told from those that stay. */
enum { UNTOUCHED = 0xAA };

[[noreturn]] inline void fail(const char *where, const std::string &why) {
    fprintf(stderr, "%s: %s\n", where, why.c_str());
    exit(1);
}

/* A vector's elements as the library wants them: never a null pointer. */
template <class T> const T *lent(const std::vector<T> &v) {
    static const T nothing = T();
    return v.empty() ? &nothing : v.data();
}

/* Strips */

/* As many bytes as a strip may have, and one more, so that a longer one can be told. */
inline std::vector<uint8_t> read_bytes(FILE *in) {
    std::vector<uint8_t> bytes(PLATEWRIGHT_MAX_STRIP + 1);
    bytes.resize(fread(bytes.data(), 1, bytes.size(), in));
    return bytes;
}

/* A strip that the library reads; one that only leaves a placement unnamed passes where that is said. */
inline std::vector<uint8_t> read_strip(const char *path, bool unnamed_passes = false) {
    FILE *in = fopen(path, "rb");
    if (!in) fail(path, "can't be read");
    std::vector<uint8_t> strip = read_bytes(in);
    fclose(in);
    int16_t table[PLATEWRIGHT_MAX_TABLE];
    platewright_answer r = platewright_read(lent(strip), strip.size(), table, PLATEWRIGHT_MAX_TABLE);
    bool passes = r.number == PLATEWRIGHT_STRIP_READ || (unnamed_passes && r.number == PLATEWRIGHT_UNNAMED_PLACEMENT);
    if (!passes) fail(path, "refused " + std::to_string(r.number) + " " + std::to_string(r.place));
    return strip;
}

/* A strip's name without its folder and its ending. */
inline std::string name_of(const std::string &path) {
    std::string name = path.substr(path.rfind('/') + 1);
    return name.substr(0, name.rfind(".strip"));
}

/* A good strip without its checks; a placement may be unnamed. */
inline own::Filing parse(const std::vector<uint8_t> &s) {
    own::Filing f;
    f.table.reserve(s.size());
    for (size_t i = 0; i < s.size();) {
        int mark = s[i];
        bool taken = mark == PLATEWRIGHT_MARK_TAKEN, left_out = mark == PLATEWRIGHT_MARK_LEFT_OUT;
        bool two = taken || left_out || mark == PLATEWRIGHT_MARK_PLACEMENTS;
        int operand = two && i + 2 < s.size() ? s[i + 1] << 8 | s[i + 2] : 0;
        if (mark == PLATEWRIGHT_MARK_PLACEMENTS) f.n = operand;
        if (taken || left_out) f.table.push_back((int16_t)(taken ? operand : -operand));
        if (mark == PLATEWRIGHT_MARK_CLOSE) f.table.push_back(0);
        i += two ? 3 : mark == PLATEWRIGHT_MARK_CHAPTER ? 2 : 1;
    }
    return f;
}

inline std::vector<uint8_t> strip_of(const own::Filing &f) {
    std::vector<uint8_t> s;
    auto put = [&](int mark, int operand) {
        for (int byte : {mark, operand >> 8, operand & 255}) s.push_back((uint8_t)byte);
    };
    put(PLATEWRIGHT_MARK_PLACEMENTS, f.n);
    bool inside = false;
    for (int e : f.table) {
        if (!inside) s.push_back(PLATEWRIGHT_MARK_GROUP);
        inside = e != 0;
        if (inside) put(e > 0 ? PLATEWRIGHT_MARK_TAKEN : PLATEWRIGHT_MARK_LEFT_OUT, abs(e));
        else s.push_back(PLATEWRIGHT_MARK_CLOSE);
    }
    s.push_back(PLATEWRIGHT_MARK_END);
    return s;
}

/* What a strip asks of its filing: every placement stands in an entry. */
inline bool names_all(const own::Filing &f) {
    std::vector<bool> named((size_t)f.n + 1);
    for (int e : f.table) named[(size_t)abs(e)] = true;
    return std::count(named.begin() + 1, named.end(), true) == f.n;
}

inline size_t groups_of(const own::Filing &f) { return (size_t)std::count(f.table.begin(), f.table.end(), 0); }

/* Answers */

/* All of an answer but its group, by the library's search. */
inline own::Answer by_search(const own::Filing &f, uint32_t allowance) {
    own::Answer a;
    a.plan.assign(PLATEWRIGHT_MAX_PLACEMENTS, UNTOUCHED);
    a.trail.assign(PLATEWRIGHT_MAX_PLACEMENTS, UNTOUCHED);
    platewright_answer r = platewright_search(lent(f.table), f.table.size(), (size_t)f.n, allowance, a.plan.data(),
        a.plan.size(), a.trail.data(), a.trail.size());
    a.number = (int)r.number;
    a.place = (uint32_t)r.place;
    a.count = r.count;
    a.plan.resize((size_t)f.n);
    a.trail.resize((size_t)f.n);
    return a;
}

/* All but the trail, by the window's call on a strip of n placements. */
inline own::Answer by_window(const std::vector<uint8_t> &strip, int n, uint32_t allowance) {
    own::Answer a;
    uint8_t receipt[PLATEWRIGHT_RECEIPT];
    a.plan.assign(PLATEWRIGHT_MAX_PLACEMENTS, UNTOUCHED);
    a.number = (int)platewright_window(strip.data(), strip.size(), allowance, a.plan.data(), a.plan.size(), receipt,
        sizeof receipt);
    for (int i = 4; i < 8; i++) a.place = a.place << 8 | receipt[i];
    for (int i = 8; i < 12; i++) a.count = a.count << 8 | receipt[i];
    a.plan.resize((size_t)n);
    return a;
}

/* The same and the trail by the independent search, of a strip that is good or leaves a placement unnamed, which is
 * found at its end mark. */
inline own::Answer by_own(const std::vector<uint8_t> &strip, uint32_t allowance) {
    own::Filing f = parse(strip);
    if (names_all(f)) return own::search(f, allowance);
    own::Answer a;
    a.number = PLATEWRIGHT_UNNAMED_PLACEMENT;
    a.place = (uint32_t)strip.size() - 1;
    a.plan.assign((size_t)f.n, UNTOUCHED);
    return a;
}

/* But for the trail, which the window's call doesn't give. */
inline bool alike(const own::Answer &a, const own::Answer &b) {
    return a.number == b.number && a.place == b.place && a.count == b.count && a.plan == b.plan;
}

/* List by the library, into k rows of those lent. */
inline own::Listing by_list(const own::Filing &f, size_t k, uint32_t allowance, std::vector<uint8_t> &rows) {
    platewright_answer r = platewright_list(lent(f.table), f.table.size(), (size_t)f.n, k, allowance, rows.data(),
        rows.size());
    return {(int)r.number, (uint32_t)r.rows, r.count, r.more};
}

inline bool alike(const own::Listing &a, const own::Listing &b) {
    return a.number == b.number && a.rows == b.rows && a.count == b.count && a.more == b.more;
}

/* Time */

/* Of the processor, so that what else runs on the machine takes little part. */
inline double seconds() {
    timespec t;
    clock_gettime(CLOCK_PROCESS_CPUTIME_ID, &t);
    return (double)t.tv_sec + 1e-9 * (double)t.tv_nsec;
}

inline double seconds_of(const std::function<void()> &call, int times) {
    double start = seconds();
    for (int i = 0; i < times; i++) call();
    return (seconds() - start) / times;
}

/* Seconds of one call of each of two, the best of several rounds, each of repeated calls so that the clock means
 * something. The two take turns, so that what disturbs one disturbs the other. */
struct Pair {
    double first, second;
};

inline Pair best_of(const std::function<void()> &first, const std::function<void()> &second,
    double round_seconds = 0.1) {
    const int rounds = 5;
    const double no_more = 1;
    Pair best = {seconds_of(first, 1), seconds_of(second, 1)};
    int times = std::max(1, (int)(round_seconds / (best.first + 1e-7)));
    int second_times = std::max(1, (int)(round_seconds / (best.second + 1e-7)));
    for (int i = 0; i < rounds && best.first < no_more; i++) {
        best.first = std::min(best.first, seconds_of(first, times));
        best.second = std::min(best.second, seconds_of(second, second_times));
    }
    return best;
}

/* Rows */

/* A number with a comma before every three digits. */
inline std::string grouped(double number, int digits = 0) {
    char text[64];
    snprintf(text, sizeof text, "%.*f", digits, number);
    std::string s = text;
    for (size_t i = std::min(s.find('.'), s.size()); i > 3; i -= 3) s.insert(i - 3, ",");
    return s;
}

inline std::string rounded(const char *form, double number) {
    char text[64];
    snprintf(text, sizeof text, form, number);
    return text;
}

inline void add_cells(std::vector<std::string> &cells, const std::vector<std::string> &more) {
    cells.insert(cells.end(), more.begin(), more.end());
}

inline void print_row(const std::vector<std::string> &cells) {
    for (const std::string &cell : cells) printf("| %s ", cell.c_str());
    printf("|\n");
    fflush(stdout);
}

inline void print_head(const std::vector<std::string> &cells) {
    print_row(cells);
    for (size_t i = 0; i < cells.size(); i++) printf("|---");
    printf("|\n");
}

/* The cells that every table begins with: name, n, groups, entries. */
inline std::vector<std::string> filing_cells(const std::string &name, const own::Filing &f) {
    size_t groups = groups_of(f);
    return {name, std::to_string(f.n), std::to_string(groups), grouped((double)(f.table.size() - groups))};
}

/* Of several strips the one with the largest figure. */
struct Largest {
    double figure = 0;
    std::string name = "-";
};

template <class F> Largest largest_of(int paths, char **path, F measure) {
    Largest largest;
    for (int i = 0; i < paths; i++) {
        double figure = measure(path[i]);
        if (figure > largest.figure) largest = {figure, name_of(path[i])};
    }
    return largest;
}

#endif
