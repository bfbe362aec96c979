/* The quick walk with a memory into which a fault is put, for wrong.hpp. Without one it is right. */
#include "wrong.hpp"

#pragma GCC diagnostic ignored "-Wpsabi"
#include "../bench/search.hpp"

namespace wrong {

namespace {

/* For each placement from the split's on what it stands for: 0 where it is settled or tied to one below the split's. */
typedef std::vector<uint32_t> Key;

struct Slot {
    Key key;
    uint32_t splits = 0;
    bool held = false; /* its subtree is still being walked */
};

struct Walked {
    int number;
    uint32_t count;
};

template <int W, int M> class Remembering : own::Walk<W, M> {
    typedef own::Walk<W, M> Base;
    typedef own::Set<W> Places;
    typedef typename Base::State State;
    using Base::depth, Base::looks, Base::merge, Base::merges, Base::n, Base::now, Base::split;
    using Base::to_leave, Base::to_take, Base::twos;

    std::vector<Slot> slots;
    uint32_t spread = 0;

    Key key_at(int p) const {
        Key code((size_t)n, 0);
        for (int v = 0; v < n; v++)
            if (now.open.has(v)) code[(size_t)v] = 2 * (uint32_t)(v + 1);
        for (int i = merges; i-- > 0;) {
            uint32_t root = code[(size_t)merge[i].r];
            code[(size_t)merge[i].q] = is(TIES_NOT_IN_KEY) || root == 0 ? 0 : root ^ merge[i].opposite;
        }
        uint32_t split_code = 2 * (uint32_t)(p + 1);
        for (int v = 0; v < n; v++) {
            uint32_t &c = code[(size_t)v];
            bool of_split = v != p && c / 2 == split_code / 2;
            if (v < p || c < split_code || (is(SPLIT_CLASS_NOT_IN_KEY) && of_split)) c = 0;
        }
        return code;
    }

    size_t hash_of(const Key &key) const {
        uint64_t sum = 0, weight = 1;
        for (uint32_t word : key) {
            if (spread != 0) weight = (weight * 1103 + spread) % 1048576;
            sum += word * weight;
        }
        return sum % slots.size();
    }

    void forget_waiting() {
        to_take = to_leave = Places::none();
        twos = decltype(twos)::none();
        looks = 0;
    }

    static Walked known(uint32_t splits, uint32_t left) {
        if (is(STOP_AT_REMEMBERED) && left == splits) return {own::STOPPED, left};
        if (left >= splits || is(STOP_FORGOTTEN)) return {own::NO_LAYOUT, std::min(left, splits)};
        return {own::STOPPED, left};
    }

    /* One side of a split on p, from the state before it. */
    Walked side(const State &before, int kept, int p, bool second, uint32_t left) {
        this->take_back(kept);
        now = before;
        split[depth - 1].second = second;
        (second ? to_take : to_leave) = Places::only(p);
        return walk(p + 1, left);
    }

    Walked split_on(int p, uint32_t left) {
        const State before = now;
        const int kept = merges;
        Key key = key_at(p);
        Slot &slot = slots[hash_of(key)];
        if (slot.splits > 0 && (slot.key == key || is(HASH_FOR_KEY))) return known(slot.splits, left);
        if (left == 0) return {own::STOPPED, 0};
        walked++;
        split[depth++].place = p;
        Walked first = side(before, kept, p, false, left - 1);
        uint32_t count = 1 + first.count;
        if (first.number != own::NO_LAYOUT) return {first.number, count};
        if (is(KEY_OF_FIRST_SIDE)) key = key_at(p);
        bool holds = !slot.held || is(PENDING_OVERWRITTEN);
        if (holds) slot = {key, 0, true};
        Walked second = side(before, kept, p, true, left - count);
        count += second.count;
        if (second.number != own::NO_LAYOUT) return {second.number, count};
        depth--;
        if (!holds) return {own::NO_LAYOUT, count};
        slot.splits = count - (is(FIRST_SIDE_LOST) ? first.count : 0) + (is(ONE_MORE_REMEMBERED) ? 1 : 0);
        slot.held = false;
        return {own::NO_LAYOUT, count};
    }

    Walked walk(int from, uint32_t left) {
        if (!this->settle()) {
            forget_waiting();
            return {own::NO_LAYOUT, 0};
        }
        int p = this->to_split(from);
        return p < 0 ? Walked{own::LAID_OUT, 0} : split_on(p, left);
    }

  public:
    uint32_t walked = 0;

    own::Answer search(const own::Filing &f, uint32_t allowance, size_t most_slots, uint32_t weights) {
        own::Answer a;
        n = f.n;
        merges = looks = depth = 0;
        walked = 0;
        slots.assign(std::min<size_t>(most_slots, 500), Slot());
        spread = weights;
        a.plan.assign((size_t)n, 0);
        a.trail.assign((size_t)n, 0);
        if (!this->start(f)) return a;
        Walked w = walk(0, allowance);
        a.number = w.number;
        a.count = w.count;
        if (a.number == own::LAID_OUT) this->write(a);
        return a;
    }
};

} // namespace

memo_trial remembering(const int16_t *table, size_t length, size_t n, uint32_t allowance, uint8_t *plan, int16_t *trail,
                       size_t slots, uint32_t spread) {
    static Remembering<4, 8> search;
    own::Filing f;
    f.n = (int)n;
    f.table = copy_of(table, length);
    own::Answer a = search.search(f, allowance, slots, spread);
    put_back(plan, a.plan, 0, n);
    put_back(trail, a.trail, 0, n);
    return {(uint32_t)a.number, a.count, 0, 0, search.walked};
}

} // namespace wrong
