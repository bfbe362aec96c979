/* Settling's numbers to words. */
#include "standing.hpp"

#include <cstdlib>

namespace command {

namespace {

constexpr char TAKEN[] = "taken", LEFT_OUT[] = "left out", OPEN[] = "open", EQUAL[] = "equal", OPPOSITE[] = "opposite";

Standing standing_of(size_t placement, int value, size_t group) {
    if (value == PLATEWRIGHT_STATE_TAKEN) return {placement, TAKEN, 0, group};
    if (value == PLATEWRIGHT_STATE_LEFT_OUT) return {placement, LEFT_OUT, 0, group};
    auto root = static_cast<size_t>(std::abs(value));
    if (root == placement) return {placement, OPEN, 0, group};
    return {placement, value > 0 ? EQUAL : OPPOSITE, root, group};
}

std::string joined(const std::vector<Word> &words) {
    std::string text;
    for (const Word &word : words) text += (text.empty() ? "" : " ") + word.text;
    return text.empty() ? std::string(NOTHING) : text;
}

std::string written_out(const Set &set, const std::vector<int16_t> &entries) {
    std::string text;
    for (int16_t entry : entries) text += (text.empty() ? "" : " ") + set.text_of(entry);
    return text.empty() ? std::string(NOTHING) : text;
}

}

std::vector<Standing> standings_of(const Settled &settled) {
    std::vector<Standing> standings;
    if (settled.answer.number != PLATEWRIGHT_SETTLED) return standings;
    for (size_t i = 0; i < settled.list.size(); i++)
        standings.push_back(standing_of(i + 1, settled.list[i], settled.reasons[i]));
    return standings;
}

std::vector<Quote> quotes_of(const Set &set, const FurtherGroup *further) {
    std::vector<Quote> quotes;
    size_t element = 0;
    for (const std::vector<int16_t> &entries : groups_of(set)) {
        size_t line = set.words.empty() ? 0 : set.words[element].spot.line;
        bool named = set.kind == Kind::names;
        quotes.push_back({line, named ? set.quotes[quotes.size()] : written_out(set, entries), false});
        element += entries.size() + 1;
    }
    if (further) quotes.push_back({0, joined(further->words), true});
    return quotes;
}

}
