/* Layouts drawn as SVG, of sets whose placements have names of the form FIGURE@SHEET.CELL. */
#ifndef COMMAND_SVG_HPP
#define COMMAND_SVG_HPP

#include <ostream>

#include "set.hpp"

namespace command::svg {

/* Sheets side by side, each a grid of its cells with so many columns (0: as square as it gets); one layout below the
 * other. A fault if no name has the form. */
void draw(std::ostream &out, const Set &set, const std::vector<std::vector<uint8_t>> &plans, size_t columns);

}

#endif
