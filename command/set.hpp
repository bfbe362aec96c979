/* A set as it was read: the number of placements and the table, which the library takes, and how they were written. */
#ifndef COMMAND_SET_HPP
#define COMMAND_SET_HPP

#include <cstdint>
#include <string>
#include <vector>

#include "input.hpp"
#include "names.hpp"

namespace command {

struct Set {
    Kind kind = Kind::names;
    std::string source;
    size_t n = 0;
    std::vector<int16_t> table;
    Word n_word;                     /* of numbers: as n was written */
    std::vector<Word> words;         /* of a text: as each element was written; in names a 0 has its line's spot */
    std::vector<std::string> quotes; /* of named text: each group's line */
    Names names;                     /* of named text */

    /* `A1` or `7`, and with a minus where the entry says that the placement is left out. */
    std::string text_of(int entry) const;
};

/* A further group for a set, written as the set is: in names, or else in numbers. */
struct FurtherGroup {
    std::vector<int16_t> entries;
    std::vector<Word> words;
};

/* The set that the bytes are. What the library has to say about a table is not asked here, but for a strip, which the
 * library reads. A name that isn't known becomes a number above n, so that the library refuses it in its turn. */
Set set_of(const Input &input);

FurtherGroup further_group_of(const Set &set, const std::string &text);

/* Where --group's text stands, for messages. */
constexpr char GROUP_SOURCE[] = "--group";

}

#endif
