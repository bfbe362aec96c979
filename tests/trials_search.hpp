/* What the trials of search and of large trees share. */
#ifndef TRIALS_SEARCH_HPP
#define TRIALS_SEARCH_HPP

#include "trials.hpp"

namespace trials {

/* The elements of plan and trail that are lent. */
struct Rooms {
    size_t plan, trail;
};

void compare_trees(const char *which, const Tree &expected, const Tree &came);

/* One call; the tree is asked for where the call isn't refused. */
void search_once(const Filing &f, const Tree *tree, uint32_t allowance, Rooms rooms, Tally &tally);

/* With allowances of the count, one less and one more, half of it, any less, 0 and the largest. */
void search_all(const Filing &f, const Tree &tree, Rooms rooms, Random &r, Tally &tally);

} // namespace trials

#endif
