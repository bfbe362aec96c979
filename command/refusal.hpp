/* The library's numbers in words, and its refusals with the place in what was read. */
#ifndef COMMAND_REFUSAL_HPP
#define COMMAND_REFUSAL_HPP

#include "platewright.h"
#include "set.hpp"

namespace command {

/* The papers' words for a number. */
const char *words_of(uint32_t number);

/* The placements that stand in no entry, in order. */
std::vector<size_t> unnamed_placements(const Set &set);

Fault refusal_of_strip(const Input &input, const platewright_answer &answer);
Fault refusal_of_set(const Set &set, const platewright_answer &answer);
Fault refusal_of_group(const Set &set, const FurtherGroup &group, const platewright_answer &answer);

}

#endif
