/* A text as lines of words: white space stands between words, `#` at the start of a word begins a comment. */
#ifndef COMMAND_WORDS_HPP
#define COMMAND_WORDS_HPP

#include <string>
#include <string_view>
#include <vector>

#include "fault.hpp"

namespace command {

struct Word {
    std::string text;
    Spot spot;
};

struct Line {
    std::vector<Word> words; /* without comments */
    std::string quote;       /* the line as it stands, comments too, with single spaces */
};

/* A line ends in LF, CR LF or CR. A text that isn't UTF-8, or has control characters, is a fault. A byte order mark at
 * the beginning is passed over. */
std::vector<Line> lines_of(const std::string &source, std::string_view text);

/* The bytes of the UTF-8 character that the text begins with; 0 if it begins with none. */
size_t character_length(std::string_view text);

/* A byte that stands in no text: a control character that isn't white space. */
bool is_control(char byte);

}

#endif
