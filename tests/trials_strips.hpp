/* Strips for the trials: with chapters, of the greatest length, and damaged. */
#ifndef TRIALS_STRIPS_HPP
#define TRIALS_STRIPS_HPP

#include "trials.hpp"

namespace trials {

inline void put_chapters(Bytes &strip, size_t count, Random &r) {
    for (size_t i = 0; i < count; i++) {
        strip.push_back(0x43);
        strip.push_back(r.once_in(4) ? 0x47 : (uint8_t)r.next());
    }
}

/* With chapters before some of the groups and before the end. */
inline Bytes strip_with_chapters(const Filing &f, Random &r) {
    return strip_of(f, [&](Bytes &strip) {
        if (r.once_in(3)) put_chapters(strip, r.below(3), r);
    });
}

/* So many chapters before the end that the strip has the greatest length, or a byte less. */
inline Bytes longest_strip(const Filing &f, Random &r) {
    Bytes strip = strip_of(f);
    strip.pop_back();
    if (strip.size() < MAX_STRIP) put_chapters(strip, (MAX_STRIP - 1 - strip.size()) / 2, r);
    strip.push_back(0x5A);
    return strip;
}

inline uint8_t any_byte(Random &r) {
    static const uint8_t marks[] = {0x50, 0x43, 0x47, 0x54, 0x4C, 0x45, 0x5A};
    return r.once_in(2) ? marks[r.below(sizeof marks)] : (uint8_t)r.next();
}

/* A byte of an operand changed to one that may still be read. */
inline void change_operand(Bytes &strip, Random &r) {
    size_t at = r.below(strip.size());
    for (size_t i = 0; i < strip.size() && strip[at] > 12; i++) at = (at + 1) % strip.size();
    strip[at] = (uint8_t)r.below(13);
}

/* Cut short, with bytes removed, doubled, changed, inserted, put after the end, or a byte of an operand changed. */
inline Bytes damaged(Bytes strip, Random &r) {
    size_t at = r.below(strip.size()), count = std::min(r.from_to(1, 3), strip.size() - at);
    auto from = strip.begin() + (long)at;
    switch (r.below(8)) {
    case 0: strip.resize(at); break;
    case 1: strip.erase(from, from + (long)count); break;
    case 2: {
        Bytes again(from, from + (long)count);
        strip.insert(from, again.begin(), again.end());
        break;
    }
    case 3: strip[at] = any_byte(r); break;
    case 4: strip.insert(from, any_byte(r)); break;
    case 5: strip.push_back(any_byte(r)); break;
    default: change_operand(strip, r);
    }
    return strip;
}

} // namespace trials

#endif
