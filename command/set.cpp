/* The three kinds of input to a set. */
#include "set.hpp"

#include <algorithm>
#include <cstdlib>

#include "platewright.h"
#include "refusal.hpp"

namespace command {

namespace {

/* As strip_of has it. */
constexpr long SMALLEST_NUMBER = INT16_MIN, LARGEST_NUMBER = INT16_MAX;

/* A placement as an entry; one that is far above the limits stays above them. */
int16_t entry(size_t placement, bool left_out) {
    auto size = static_cast<int16_t>(std::min(placement, static_cast<size_t>(LARGEST_NUMBER)));
    return static_cast<int16_t>(left_out ? -size : size);
}

int16_t number_of(const std::string &source, const Word &word) {
    Entry written = entry_of(word.text);
    long size = std::strtol(std::string(written.rest).c_str(), nullptr, 10); /* too large a number: the largest long */
    long value = written.left_out ? -size : size;
    bool valid = is_number(word.text) && value >= SMALLEST_NUMBER && value <= LARGEST_NUMBER;
    if (!valid) throw Fault("no valid number", word.text).in(source, word.spot);
    return static_cast<int16_t>(value);
}

Set set_of_strip(const Input &input) {
    Set set;
    set.kind = Kind::strip;
    set.source = input.source;
    set.table.resize(PLATEWRIGHT_MAX_TABLE);
    auto strip = reinterpret_cast<const uint8_t *>(input.bytes.data());
    platewright_answer answer = platewright_read(strip, input.bytes.size(), set.table.data(), set.table.size());
    if (answer.number != PLATEWRIGHT_STRIP_READ) throw refusal_of_strip(input, answer);
    set.n = answer.n;
    set.table.resize(answer.used);
    return set;
}

Set set_of_numbers(const Input &input, const std::vector<Line> &lines) {
    Set set;
    set.kind = Kind::numbers;
    set.source = input.source;
    for (const Line &line : lines) set.words.insert(set.words.end(), line.words.begin(), line.words.end());
    set.n_word = set.words.front();
    set.words.erase(set.words.begin());
    int16_t n = number_of(set.source, set.n_word);
    if (n < 0) throw Fault("a negative number of placements", set.n_word.text).in(set.source, set.n_word.spot);
    set.n = static_cast<size_t>(n);
    for (const Word &word : set.words) set.table.push_back(number_of(set.source, word));
    return set;
}

bool names_placements(const Line &line) { return !line.words.empty() && line.words[0].text == PLACEMENTS; }

bool is_nothing(const std::vector<Word> &words) { return words.size() == 1 && words[0].text == NOTHING; }

/* The name of an entry, without its minus. */
std::string_view name_of(const std::string &source, const Word &word) {
    std::string_view name = entry_of(word.text).rest;
    std::string fault = fault_of_name(name);
    if (!fault.empty()) throw Fault(fault, word.text).in(source, word.spot);
    return name;
}

void add_placements(Set &set, const Line &line) {
    for (size_t i = 1; i < line.words.size(); i++) {
        const Word &word = line.words[i];
        std::string fault = fault_of_name(word.text);
        if (fault.empty() && set.names.find(word.text)) fault = "a placement that is named before";
        if (!fault.empty()) throw Fault(fault, word.text).in(set.source, word.spot);
        set.names.add(word.text, word.spot);
    }
}

/* Without a `placements` line a name that is new is the next placement. */
void add_group(Set &set, const Line &line, bool names_are_known) {
    if (!is_nothing(line.words)) {
        for (const Word &word : line.words) {
            std::string_view name = name_of(set.source, word);
            if (!names_are_known) set.names.add(name, word.spot);
            size_t unknown = set.names.size() + 1;
            set.table.push_back(entry(set.names.find(name).value_or(unknown), entry_of(word.text).left_out));
            set.words.push_back(word);
        }
    }
    set.table.push_back(0);
    set.words.push_back({"", line.words[0].spot});
    set.quotes.push_back(line.quote);
}

Set set_of_names(const Input &input, const std::vector<Line> &lines) {
    Set set;
    set.kind = Kind::names;
    set.source = input.source;
    bool names_are_known = std::any_of(lines.begin(), lines.end(), names_placements);
    for (const Line &line : lines)
        if (names_placements(line)) add_placements(set, line);
    for (const Line &line : lines)
        if (!line.words.empty() && !names_placements(line)) add_group(set, line, names_are_known);
    set.n = set.names.size();
    return set;
}

}

std::string Set::text_of(int entry) const {
    size_t placement = static_cast<size_t>(std::abs(entry));
    return (entry < 0 ? "-" : "") + (kind == Kind::names ? names.at(placement).text : std::to_string(placement));
}

Set set_of(const Input &input) {
    if (is_strip(input.bytes)) return set_of_strip(input);
    std::vector<Line> lines = lines_of(input.source, input.bytes);
    return kind_of_text(input, lines) == Kind::numbers ? set_of_numbers(input, lines) : set_of_names(input, lines);
}

FurtherGroup further_group_of(const Set &set, const std::string &text) {
    FurtherGroup group;
    for (const Line &line : lines_of(GROUP_SOURCE, text))
        group.words.insert(group.words.end(), line.words.begin(), line.words.end());
    if (group.words.empty()) throw Fault("a group with nothing in it is written .").in(GROUP_SOURCE);
    if (is_nothing(group.words)) group.words.clear();
    for (const Word &word : group.words) {
        if (set.kind != Kind::names) {
            group.entries.push_back(number_of(GROUP_SOURCE, word));
            continue;
        }
        size_t placement = set.names.find(name_of(GROUP_SOURCE, word)).value_or(set.n + 1);
        group.entries.push_back(entry(placement, entry_of(word.text).left_out));
    }
    return group;
}

}
