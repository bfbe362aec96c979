/* The library's operations on a set that was read. Nothing is decided here: each calls the library and gives what it
 * answers and writes; a refusal is thrown as a fault. */
#ifndef COMMAND_OPERATIONS_HPP
#define COMMAND_OPERATIONS_HPP

#include <functional>

#include "platewright.h"
#include "set.hpp"

namespace command {

/* The splits that are allowed where nothing else is said, as the layout program has it. */
constexpr uint32_t ALLOWANCE = 1000000;

/* The first allowance of a search that is given a time. */
constexpr uint32_t FIRST_ALLOWANCE = 1024;

/* The bytes of rows that a listing or a counting takes at most. */
constexpr size_t MAX_ROW_BYTES = 64 * 1024 * 1024;

struct Searched {
    platewright_answer answer;
    uint32_t allowance = 0;
    double seconds = 0; /* the search took */
    std::vector<uint8_t> plan;
    std::vector<int16_t> trail; /* the splits on the path, without the zeros after them */
};

struct Listed {
    platewright_answer answer;
    std::vector<std::vector<uint8_t>> rows;
};

/* The layouts were counted to their end, or there are at least so many. */
struct Counted {
    platewright_answer answer;
    size_t layouts = 0;
    bool all = false;
};

struct Settled {
    platewright_answer answer;
    std::vector<int16_t> list;
    std::vector<uint16_t> reasons;
};

/* Throws what is wrong with the set, if anything is. */
void check(const Set &set);

Searched search(const Set &set, uint32_t allowance);

/* Searches with allowances that double from a small one, which is sound, since a finished search answers alike at every
 * larger allowance. The next one begins only where twice the time of the last still fits into what is left. Each search
 * is told to `each`. */
Searched search_for(const Set &set, double seconds, const std::function<void(const Searched &)> &each);

/* The most rows of n placements that a listing takes. */
size_t most_rows(size_t n);

Listed list(const Set &set, size_t k, uint32_t allowance);

/* Lists more and more rows, each time with the whole allowance, until the layouts, the allowance or the memory end. */
Counted count(const Set &set, uint32_t allowance);

Settled settle(const Set &set);
Settled preview(const Set &set, const FurtherGroup &group);
std::string save(const Set &set);

/* The entries of each group. */
std::vector<std::vector<int16_t>> groups_of(const Set &set);

}

#endif
