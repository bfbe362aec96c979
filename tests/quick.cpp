#include "quick.hpp"

#pragma GCC diagnostic ignored "-Wpsabi"
#include "../bench/list.hpp"

namespace quick {

static own::Filing own_filing(const Filing &f) {
    own::Filing filing;
    filing.n = (int)f.n;
    filing.table.assign(f.table.begin(), f.table.end());
    return filing;
}

static bool is_narrow(const Filing &f) { return f.n <= 128 && groups_in(f.table) <= 64; }

Tree tree_of(const Filing &f) {
    own::Filing filing = own_filing(f);
    own::Answer a = is_narrow(f) ? own::walk<2, 1>(filing, UINT32_MAX) : own::walk<4, 8>(filing, UINT32_MAX);
    return {(uint32_t)a.number, a.count, a.plan, Entries(a.trail.begin(), a.trail.end())};
}

Listing list_of(const Filing &f, size_t k, uint32_t allowance) {
    own::Filing filing = own_filing(f);
    Bytes rows(k * f.n + 1); /* one more, so that there is something to point at */
    own::Listing l = is_narrow(f) ? own::list_walk<2, 1>(filing, k, allowance, rows.data())
                                  : own::list_walk<4, 8>(filing, k, allowance, rows.data());
    rows.pop_back();
    return {(uint32_t)l.number, l.rows, l.count, l.more, rows};
}

} // namespace quick
