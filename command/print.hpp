/* Answers as text for people: an outcome in the papers' words, then a line for each thing that is said. */
#ifndef COMMAND_PRINT_HPP
#define COMMAND_PRINT_HPP

#include <ostream>

#include "operations.hpp"
#include "standing.hpp"

namespace command::print {

void checked(std::ostream &out, const Set &set);
void searched(std::ostream &out, const Set &set, const Searched &searched);
void listed(std::ostream &out, const Set &set, const Listed &listed);
void counted(std::ostream &out, const Counted &counted);
void settled(std::ostream &out, const Set &set, const Settled &settled);
void previewed(std::ostream &out, const Set &set, const Previewed &previewed);

/* The set as named text, with p1, p2, ... where it has no names; or as plain numbers. Both read back to the set. */
void as_names(std::ostream &out, const Set &set);
void as_numbers(std::ostream &out, const Set &set);

/* The name that a placement has in named text. */
std::string name_in_text(const Set &set, size_t placement);

}

#endif
