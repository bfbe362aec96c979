/* The search with a memory that can be made small and its hash poor, and how many splits it walked: crate memo_trial,
 * for tests and for measuring. It is no part of what is installed. */
#ifndef MEMO_TRIAL_HPP
#define MEMO_TRIAL_HPP

#include <cstddef>
#include <cstdint>

extern "C" {

typedef struct {
    uint32_t number, count; /* these and place, group, plan and trail as platewright_search has them */
    size_t place;
    uint32_t group, walked; /* the splits that were made, without those of subtrees that were remembered */
} memo_trial;

/* At most so many slots are used; weights of the hash are odd and under twice `spread`, and 0 makes all of them 1. */
memo_trial memo_trial_search(const int16_t *table, size_t table_len, size_t n, uint32_t allowance, uint8_t *plan,
    size_t plan_len, int16_t *trail, size_t trail_len, size_t slots, uint32_t spread);

}

/* What the product has: as much as there is of both. */
static const size_t PRODUCT_SLOTS = SIZE_MAX;
static const uint32_t PRODUCT_SPREAD = UINT32_MAX;

#endif
