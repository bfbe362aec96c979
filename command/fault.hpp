/* What ends a command before its answer: something that can't be read, written or accepted, and where it stands. */
#ifndef COMMAND_FAULT_HPP
#define COMMAND_FAULT_HPP

#include <cstddef>
#include <cstdint>
#include <exception>
#include <optional>
#include <string>

namespace command {

/* The status that a script asks for. */
enum Status { DONE = 0, CANNOT_READ_OR_WRITE = 1, REFUSED = 2, NO_LAYOUT = 10, STOPPED = 11 };

/* A line and a column of a text, in characters, counted from 1; 0 where there is none. */
struct Spot {
    size_t line = 0;
    size_t column = 0;
};

struct Fault : std::exception {
    Status status = REFUSED;
    std::string source;             /* the file, `standard input` or `--group`; empty where the usage is wrong */
    Spot spot;                      /* in a text */
    std::optional<size_t> byte;     /* in a strip, counted from 0 */
    std::optional<uint32_t> number; /* the library's, where it is the library that refuses */
    uint32_t group = 0;             /* with an unknown placement: the group that holds it, counted from 1 */
    std::string words;              /* what is wrong */
    std::string about;              /* and of what; may be empty */

    explicit Fault(std::string wrong, std::string of_what = "") : words(std::move(wrong)), about(std::move(of_what)) {}

    Fault &in(std::string where, Spot there = {}) {
        source = std::move(where);
        spot = there;
        return *this;
    }

    /* FILE:LINE:COLUMN: words (number): about */
    std::string message() const;
};

}

#endif
