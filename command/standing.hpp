/* What settling says of a placement, in words that the text and the JSON share. */
#ifndef COMMAND_STANDING_HPP
#define COMMAND_STANDING_HPP

#include "operations.hpp"

namespace command {

struct Standing {
    size_t placement = 0;
    const char *state = ""; /* taken, left out, open, equal, opposite */
    size_t to = 0;          /* the placement that it is equal or opposite to, else 0 */
    size_t group = 0;       /* the group that settled or tied it, counted from 1; 0 if it is open */

    bool same_state(const Standing &other) const { return state == other.state && to == other.to; }
};

/* Of each placement in order; of a dead end nothing. */
std::vector<Standing> standings_of(const Settled &settled);

/* A group as it is quoted. */
struct Quote {
    size_t line = 0;      /* its line's number, 0 where there is none */
    std::string text;     /* the line as it stands where it has names, else the group's entries */
    bool further = false; /* it is the further group */
};

/* Of each group, and of the further one where there is one. */
std::vector<Quote> quotes_of(const Set &set, const FurtherGroup *further);

/* What a preview shows: settling before and after the further group. */
struct Previewed {
    Settled before, after;
    FurtherGroup group;
};

}

#endif
