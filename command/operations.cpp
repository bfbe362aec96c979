/* Calls of the library. */
#include "operations.hpp"

#include <algorithm>
#include <chrono>

#include "refusal.hpp"

namespace command {

namespace {

/* The library wants a pointer that isn't null, for a list of no elements too. */
template <typename T> T *lent(std::vector<T> &list) {
    static T none;
    return list.empty() ? &none : list.data();
}

template <typename T> const T *lent(const std::vector<T> &list) {
    static const T none{};
    return list.empty() ? &none : list.data();
}

void expect(const Set &set, const platewright_answer &answer, std::initializer_list<uint32_t> outcomes) {
    if (std::find(outcomes.begin(), outcomes.end(), answer.number) == outcomes.end()) throw refusal_of_set(set, answer);
}

/* Lists up to k rows, for which room is made. */
platewright_answer list_into(std::vector<uint8_t> &rows, const Set &set, size_t k, uint32_t allowance) {
    rows.resize(k * set.n);
    platewright_answer answer =
        platewright_list(lent(set.table), set.table.size(), set.n, k, allowance, lent(rows), rows.size());
    expect(set, answer, {PLATEWRIGHT_LAID_OUT, PLATEWRIGHT_NO_LAYOUT, PLATEWRIGHT_STOPPED});
    return answer;
}

}

void check(const Set &set) {
    expect(set, platewright_check(lent(set.table), set.table.size(), set.n), {PLATEWRIGHT_DONE});
}

Searched search(const Set &set, uint32_t allowance) {
    auto begin = std::chrono::steady_clock::now();
    Searched s;
    s.allowance = allowance;
    s.plan.resize(set.n);
    s.trail.resize(set.n);
    s.answer = platewright_search(lent(set.table), set.table.size(), set.n, allowance, lent(s.plan), s.plan.size(),
                                  lent(s.trail), s.trail.size());
    expect(set, s.answer, {PLATEWRIGHT_LAID_OUT, PLATEWRIGHT_NO_LAYOUT, PLATEWRIGHT_STOPPED});
    s.trail.erase(std::find(s.trail.begin(), s.trail.end(), 0), s.trail.end());
    s.seconds = std::chrono::duration<double>(std::chrono::steady_clock::now() - begin).count();
    return s;
}

Searched search_for(const Set &set, double seconds, const std::function<void(const Searched &)> &each) {
    double used = 0;
    uint32_t allowance = FIRST_ALLOWANCE;
    while (true) {
        Searched s = search(set, allowance);
        each(s);
        used += s.seconds;
        bool fits = used + 2 * s.seconds <= seconds;
        if (s.answer.number != PLATEWRIGHT_STOPPED || !fits || allowance == UINT32_MAX) return s;
        allowance = allowance > UINT32_MAX / 2 ? UINT32_MAX : 2 * allowance;
    }
}

size_t most_rows(size_t n) { return MAX_ROW_BYTES / std::max<size_t>(n, 1); }

Listed list(const Set &set, size_t k, uint32_t allowance) {
    std::vector<uint8_t> rows;
    Listed listed{list_into(rows, set, k, allowance), {}};
    for (size_t i = 0; i < listed.answer.rows; i++) {
        auto row = rows.begin() + static_cast<std::ptrdiff_t>(i * set.n);
        listed.rows.emplace_back(row, row + static_cast<std::ptrdiff_t>(set.n));
    }
    return listed;
}

Counted count(const Set &set, uint32_t allowance) {
    Counted counted;
    std::vector<uint8_t> rows;
    size_t most = most_rows(set.n);
    for (size_t k = 0;; k = std::min(std::max<size_t>(2 * k, 1), most)) {
        counted.answer = list_into(rows, set, k, allowance);
        if (counted.answer.number == PLATEWRIGHT_STOPPED) return counted;
        counted.all = !counted.answer.more;
        counted.layouts = counted.answer.rows + (counted.all ? 0 : 1);
        if (counted.all || k == most) return counted;
    }
}

Settled settle(const Set &set) {
    Settled s{{}, std::vector<int16_t>(set.n), std::vector<uint16_t>(set.n)};
    s.answer = platewright_settle(lent(set.table), set.table.size(), set.n, lent(s.list), s.list.size(),
                                  lent(s.reasons), s.reasons.size());
    expect(set, s.answer, {PLATEWRIGHT_SETTLED, PLATEWRIGHT_NO_LAYOUT});
    return s;
}

Settled preview(const Set &set, const FurtherGroup &group) {
    Settled s{{}, std::vector<int16_t>(set.n), std::vector<uint16_t>(set.n)};
    s.answer = platewright_preview(lent(set.table), set.table.size(), set.table.size(), set.n, lent(group.entries),
                                   group.entries.size(), lent(s.list), s.list.size(), lent(s.reasons),
                                   s.reasons.size());
    bool answered = s.answer.number == PLATEWRIGHT_SETTLED || s.answer.number == PLATEWRIGHT_NO_LAYOUT;
    if (!answered) throw refusal_of_group(set, group, s.answer);
    return s;
}

std::string save(const Set &set) {
    std::vector<uint8_t> strip(PLATEWRIGHT_MAX_SAVED);
    platewright_answer answer =
        platewright_save(lent(set.table), set.table.size(), set.n, strip.data(), strip.size());
    expect(set, answer, {PLATEWRIGHT_DONE});
    return std::string(strip.begin(), strip.begin() + static_cast<std::ptrdiff_t>(answer.place));
}

std::vector<std::vector<int16_t>> groups_of(const Set &set) {
    std::vector<size_t> starts(PLATEWRIGHT_MAX_GROUPS), entries(PLATEWRIGHT_MAX_GROUPS);
    platewright_answer answer = platewright_index(lent(set.table), set.table.size(), set.n, starts.data(),
                                                  starts.size(), entries.data(), entries.size());
    expect(set, answer, {PLATEWRIGHT_INDEXED});
    std::vector<std::vector<int16_t>> groups;
    auto amount = static_cast<size_t>(std::count(set.table.begin(), set.table.end(), 0));
    for (size_t i = 0; i < amount; i++) {
        auto first = set.table.begin() + static_cast<std::ptrdiff_t>(starts[i]);
        groups.emplace_back(first, first + static_cast<std::ptrdiff_t>(entries[i]));
    }
    return groups;
}

}
