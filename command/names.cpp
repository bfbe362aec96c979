/* Names and entries as they are written. */
#include "names.hpp"

#include <algorithm>

namespace command {

namespace {

constexpr std::string_view MINUS_OF_THE_PAPERS = "\xE2\x88\x92"; /* U+2212 */

bool begins(std::string_view word, std::string_view with) { return word.substr(0, with.size()) == with; }

/* Word processors put a dash, U+2010 to U+2015, where a minus was typed: it is neither a minus nor a name. */
bool begins_with_dash(std::string_view word) {
    return word.size() >= 3 && begins(word, "\xE2\x80") && word[2] >= '\x90' && word[2] <= '\x95';
}

bool is_digit(char byte) { return byte >= '0' && byte <= '9'; }

}

Entry entry_of(std::string_view word) {
    for (std::string_view minus : {std::string_view("-"), MINUS_OF_THE_PAPERS})
        if (begins(word, minus)) return {true, word.substr(minus.size())};
    return {false, word};
}

bool is_number(std::string_view word) {
    std::string_view digits = entry_of(word).rest;
    return !digits.empty() && std::all_of(digits.begin(), digits.end(), is_digit);
}

std::string fault_of_name(std::string_view word) {
    if (word.empty()) return "a minus without a name";
    if (is_number(word)) return "a number where a name must stand";
    if (entry_of(word).left_out) return "a minus where a name must begin";
    if (begins_with_dash(word)) return "a dash where a minus or a name must begin";
    if (word[0] == '+' || word[0] == '#') return std::string("a name can't begin with ") + word[0];
    if (word == PLACEMENTS) return "`placements` can only be the first word of a line";
    if (word == NOTHING) return "`.`, a group with nothing in it, must stand alone on its line";
    if (word.size() > MAX_NAME) return "a name of more than " + std::to_string(MAX_NAME) + " bytes";
    return "";
}

std::optional<size_t> Names::find(std::string_view name) const {
    auto found = placements.find(std::string(name));
    if (found == placements.end()) return std::nullopt;
    return found->second;
}

size_t Names::add(std::string_view name, Spot spot) {
    auto [found, fresh] = placements.emplace(name, order.size() + 1);
    if (fresh) order.push_back({std::string(name), spot});
    return found->second;
}

}
