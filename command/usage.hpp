/* The words of the command line. */
#ifndef COMMAND_USAGE_HPP
#define COMMAND_USAGE_HPP

#include "command.hpp"

namespace command {

/* Takes the words apart and does what they say; the exit status. */
int run(int words, const char *const *word, World &world);

}

#endif
