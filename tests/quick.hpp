/* The quick walks of bench/search.hpp and bench/list.hpp as the trials ask for them. They stand in a file of their own,
 * which is compiled for speed. */
#ifndef QUICK_HPP
#define QUICK_HPP

#include "reference.hpp"

namespace quick {

using namespace reference;

/* Search's whole tree. */
Tree tree_of(const Filing &f);

struct Listing {
    uint32_t number, rows, count;
    bool more;
    Bytes bytes; /* k times n */
};

Listing list_of(const Filing &f, size_t k, uint32_t allowance);

} // namespace quick

#endif
