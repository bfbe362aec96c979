/* What a name is, what an entry is, and the names of a set's placements in their order. */
#ifndef COMMAND_NAMES_HPP
#define COMMAND_NAMES_HPP

#include <optional>
#include <string_view>
#include <unordered_map>

#include "words.hpp"

namespace command {

/* The first word of a line that names the placements, and the word that is a group with nothing in it. */
constexpr std::string_view PLACEMENTS = "placements";
constexpr std::string_view NOTHING = ".";

/* The bytes of the longest name. */
constexpr size_t MAX_NAME = 255;

/* An entry as it is written: a minus, `-` or U+2212, or none, and the rest. */
struct Entry {
    bool left_out = false;
    std::string_view rest;
};

Entry entry_of(std::string_view word);

/* Digits, with a minus before them or none. */
bool is_number(std::string_view word);

/* What keeps a word from being a name; empty if it is one. */
std::string fault_of_name(std::string_view word);

class Names {
  public:
    size_t size() const { return order.size(); }
    const Word &at(size_t placement) const { return order[placement - 1]; }
    std::optional<size_t> find(std::string_view name) const;

    /* The placement of a name; the next one if the name is new. */
    size_t add(std::string_view name, Spot spot);

  private:
    std::vector<Word> order;
    std::unordered_map<std::string, size_t> placements;
};

}

#endif
