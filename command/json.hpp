/* The same answers as one JSON object on one line. Names are strings, numbers are numbers. */
#ifndef COMMAND_JSON_HPP
#define COMMAND_JSON_HPP

#include <ostream>

#include "operations.hpp"
#include "standing.hpp"

namespace command::json {

void fault(std::ostream &out, const Fault &fault);
void checked(std::ostream &out, const Set &set);
void searched(std::ostream &out, const Set &set, const Searched &searched);
void listed(std::ostream &out, const Set &set, const Listed &listed);
void counted(std::ostream &out, const Counted &counted);
void settled(std::ostream &out, const Set &set, const Settled &settled);
void previewed(std::ostream &out, const Set &set, const Previewed &previewed);
void saved(std::ostream &out, const std::string &strip);
void as_names(std::ostream &out, const Set &set);
void as_numbers(std::ostream &out, const Set &set);

}

#endif
