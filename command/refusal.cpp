/* Refusals with words and places. */
#include "refusal.hpp"

#include <cstdlib>

namespace command {

namespace {

Fault refusal(const platewright_answer &answer) {
    Fault fault(words_of(answer.number));
    fault.number = answer.number;
    fault.group = answer.group;
    return fault;
}

std::string listed(const Set &set, const std::vector<size_t> &placements) {
    std::string text;
    for (size_t p : placements) text += (text.empty() ? "" : " ") + set.text_of(static_cast<int>(p));
    return text;
}

/* The element that is the first one too many of its sort: closing zeros, or entries. */
const Word &first_too_many(const Set &set, bool zeros, size_t limit) {
    size_t met = 0;
    for (size_t i = 0; i < set.table.size(); i++)
        if ((set.table[i] == 0) == zeros && ++met > limit) return set.words[i];
    return set.words.back();
}

/* Of names the first one too many; of numbers n itself, where the placements have no spots of their own. */
const Word &written_placement(const Set &set, size_t placement) {
    return set.kind == Kind::names ? set.names.at(placement) : set.n_word;
}

/* What was written at the place of a refusal. */
const Word &written_at(const Set &set, const platewright_answer &answer) {
    switch (answer.number) {
    case PLATEWRIGHT_TOO_MANY_PLACEMENTS: return written_placement(set, PLATEWRIGHT_MAX_PLACEMENTS + 1);
    case PLATEWRIGHT_TOO_MANY_GROUPS: return first_too_many(set, true, PLATEWRIGHT_MAX_GROUPS);
    case PLATEWRIGHT_TOO_MANY_ENTRIES: return first_too_many(set, false, PLATEWRIGHT_MAX_ENTRIES);
    case PLATEWRIGHT_OPEN_GROUP: return set.words.back();
    case PLATEWRIGHT_UNNAMED_PLACEMENT: return written_placement(set, unnamed_placements(set)[0]);
    default: return set.words[answer.place];
    }
}

std::string about(const Set &set, const platewright_answer &answer) {
    switch (answer.number) {
    case PLATEWRIGHT_TOO_MANY_PLACEMENTS: return "at most " + std::to_string(PLATEWRIGHT_MAX_PLACEMENTS);
    case PLATEWRIGHT_TOO_MANY_GROUPS: return "at most " + std::to_string(PLATEWRIGHT_MAX_GROUPS);
    case PLATEWRIGHT_TOO_MANY_ENTRIES: return "at most " + std::to_string(PLATEWRIGHT_MAX_ENTRIES);
    case PLATEWRIGHT_OPEN_GROUP: return "the last element isn't 0";
    case PLATEWRIGHT_UNNAMED_PLACEMENT: return listed(set, unnamed_placements(set));
    case PLATEWRIGHT_UNKNOWN_PLACEMENT:
        return answer.place < set.words.size() ? std::string(entry_of(set.words[answer.place].text).rest) : "";
    default: return "";
    }
}

/* The two bytes after a mark. */
size_t operand(const Input &strip, size_t mark) {
    auto byte = [&](size_t at) { return static_cast<size_t>(static_cast<unsigned char>(strip.bytes[at])); };
    return byte(mark + 1) * 256 + byte(mark + 2);
}

/* The set that the strip before its end mark is: the reader has been through it and found it in order. */
Set set_before(const Input &strip, size_t end) {
    Set set;
    set.kind = Kind::strip;
    for (size_t at = 0; at < end; at++) {
        char mark = strip.bytes[at];
        bool entry = mark == PLATEWRIGHT_MARK_TAKEN || mark == PLATEWRIGHT_MARK_LEFT_OUT;
        if (mark == PLATEWRIGHT_MARK_PLACEMENTS) set.n = operand(strip, at);
        if (entry) set.table.push_back(static_cast<int16_t>(operand(strip, at)));
        at += mark == PLATEWRIGHT_MARK_PLACEMENTS || entry ? 2 : mark == PLATEWRIGHT_MARK_CHAPTER ? 1 : 0;
    }
    return set;
}

}

const char *words_of(uint32_t number) {
    switch (number) {
    case PLATEWRIGHT_LAID_OUT: return "laid out";
    case PLATEWRIGHT_NO_LAYOUT: return "no layout";
    case PLATEWRIGHT_STOPPED: return "stopped";
    case PLATEWRIGHT_SETTLED: return "settled";
    case PLATEWRIGHT_GROUP_ADDED: return "group added";
    case PLATEWRIGHT_STRIP_READ: return "strip read";
    case PLATEWRIGHT_INDEXED: return "indexed";
    case PLATEWRIGHT_DONE: return "done";
    case PLATEWRIGHT_TOO_MANY_PLACEMENTS: return "too many placements";
    case PLATEWRIGHT_TOO_MANY_GROUPS: return "groups over the filing";
    case PLATEWRIGHT_TOO_MANY_ENTRIES: return "entries over the filing";
    case PLATEWRIGHT_OPEN_GROUP: return "open group";
    case PLATEWRIGHT_UNKNOWN_PLACEMENT: return "unknown placement";
    case PLATEWRIGHT_UNKNOWN_MARK: return "unknown mark";
    case PLATEWRIGHT_CUT_STRIP: return "cut strip";
    case PLATEWRIGHT_OUT_OF_TURN: return "out of turn";
    case PLATEWRIGHT_STRIP_TOO_LONG: return "strip too long";
    case PLATEWRIGHT_UNNAMED_PLACEMENT: return "unnamed placement";
    default: return "refused";
    }
}

std::vector<size_t> unnamed_placements(const Set &set) {
    std::vector<bool> named(set.n + 1, false);
    for (int16_t entry : set.table) named[static_cast<size_t>(std::abs(entry))] = true;
    std::vector<size_t> unnamed;
    for (size_t p = 1; p <= set.n; p++)
        if (!named[p]) unnamed.push_back(p);
    return unnamed;
}

Fault refusal_of_strip(const Input &input, const platewright_answer &answer) {
    Fault fault = refusal(answer).in(input.source);
    fault.byte = answer.place;
    bool unnamed = answer.number == PLATEWRIGHT_UNNAMED_PLACEMENT;
    fault.about = about(unnamed ? set_before(input, answer.place) : Set(), answer);
    if (answer.number == PLATEWRIGHT_UNKNOWN_PLACEMENT) fault.about = std::to_string(operand(input, answer.place));
    return fault;
}

Fault refusal_of_set(const Set &set, const platewright_answer &answer) {
    Fault fault = refusal(answer).in(set.source);
    fault.about = about(set, answer);
    if (set.kind != Kind::strip) fault.spot = written_at(set, answer).spot;
    return fault;
}

Fault refusal_of_group(const Set &set, const FurtherGroup &group, const platewright_answer &answer) {
    Fault fault = refusal(answer).in(GROUP_SOURCE);
    fault.about = about(set, answer);
    if (answer.number == PLATEWRIGHT_UNKNOWN_PLACEMENT) {
        const Word &word = group.words[answer.place - set.table.size()];
        fault.spot = word.spot;
        fault.about = entry_of(word.text).rest;
    }
    return fault;
}

}
