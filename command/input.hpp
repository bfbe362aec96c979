/* What the command reads: a bounded number of bytes, and which of the three kinds of input they are. */
#ifndef COMMAND_INPUT_HPP
#define COMMAND_INPUT_HPP

#include <cstdio>
#include <string>

#include "words.hpp"

namespace command {

/* The bytes of the longest input. */
constexpr size_t MAX_INPUT = 1024 * 1024;

enum class Kind { strip, numbers, names };

struct Input {
    std::string source; /* for messages: the file's name, or `standard input` */
    std::string bytes;
};

/* Reads the file, or standard input where the file is `-`. */
Input read_input(const std::string &file, std::FILE *standard_input);

/* A strip that can be read has 0 or 1 as its second byte: a control character among the first three bytes tells a strip
 * from a text. In a text the first word decides: a number begins plain numbers, anything else named text. */
bool is_strip(std::string_view bytes);
Kind kind_of_text(const Input &input, const std::vector<Line> &lines);

}

#endif
