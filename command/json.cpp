/* JSON for programs. */
#include "json.hpp"

#include <cstdlib>
#include <nlohmann/json.hpp>

#include "print.hpp"
#include "refusal.hpp"

namespace command::json {

namespace {

using Json = nlohmann::ordered_json;

/* A file's name may be no UTF-8: what isn't becomes U+FFFD. */
void put(std::ostream &out, const Json &object) {
    out << object.dump(-1, ' ', false, Json::error_handler_t::replace) << "\n";
}

Json outcome(uint32_t number) { return {{"number", number}, {"words", words_of(number)}}; }

Json outcome_of_search(const platewright_answer &answer) {
    Json object = outcome(answer.number);
    object["splits"] = answer.count;
    return object;
}

Json entry(const Set &set, int value) {
    if (set.kind == Kind::names) return set.text_of(value);
    return value;
}

Json placement(const Set &set, size_t p) { return entry(set, static_cast<int>(p)); }

Json taken(const Set &set, const std::vector<uint8_t> &plan) {
    Json list = Json::array();
    for (size_t i = 0; i < plan.size(); i++)
        if (plan[i]) list.push_back(placement(set, i + 1));
    return list;
}

Json entries(const Set &set, const std::vector<int16_t> &values) {
    Json list = Json::array();
    for (int16_t value : values) list.push_back(entry(set, value));
    return list;
}

Json state(const Set &set, const Standing &standing) {
    Json object = {{"placement", placement(set, standing.placement)}, {"state", standing.state}};
    if (standing.to != 0) object["to"] = placement(set, standing.to);
    return object;
}

void add_reason(Json &object, const Standing &standing, const std::vector<Quote> &quotes) {
    if (standing.group == 0) return;
    const Quote &quote = quotes[standing.group - 1];
    object["group"] = standing.group;
    if (quote.line != 0) object["line"] = quote.line;
    object["quote"] = quote.text;
}

}

void fault(std::ostream &out, const Fault &fault) {
    Json object = Json::object();
    if (fault.number) object["number"] = *fault.number;
    object["words"] = fault.words;
    if (!fault.about.empty()) object["about"] = fault.about;
    if (!fault.source.empty()) object["file"] = fault.source;
    if (fault.spot.line != 0) object["line"] = fault.spot.line;
    if (fault.spot.line != 0) object["column"] = fault.spot.column;
    if (fault.byte) object["byte"] = *fault.byte;
    if (fault.group != 0) object["group"] = fault.group;
    put(out, object);
}

void checked(std::ostream &out, const Set &set) {
    size_t groups = groups_of(set).size();
    Json object = outcome(PLATEWRIGHT_DONE);
    object["placements"] = set.n;
    object["groups"] = groups;
    object["entries"] = set.table.size() - groups;
    object["in_no_group"] = Json::array();
    for (size_t p : unnamed_placements(set)) object["in_no_group"].push_back(placement(set, p));
    put(out, object);
}

void searched(std::ostream &out, const Set &set, const Searched &searched) {
    Json object = outcome_of_search(searched.answer);
    object["allowance"] = searched.allowance;
    if (searched.answer.number == PLATEWRIGHT_LAID_OUT) {
        object["taken"] = taken(set, searched.plan);
        object["trail"] = entries(set, searched.trail);
    }
    put(out, object);
}

void listed(std::ostream &out, const Set &set, const Listed &listed) {
    Json object = outcome_of_search(listed.answer);
    if (listed.answer.number == PLATEWRIGHT_LAID_OUT) {
        object["more"] = listed.answer.more;
        object["layouts"] = Json::array();
        for (const std::vector<uint8_t> &row : listed.rows) object["layouts"].push_back(taken(set, row));
    }
    put(out, object);
}

void counted(std::ostream &out, const Counted &counted) {
    Json object = outcome_of_search(counted.answer);
    object[counted.all ? "layouts" : "layouts_at_least"] = counted.layouts;
    put(out, object);
}

void settled(std::ostream &out, const Set &set, const Settled &settled) {
    Json object = outcome(settled.answer.number);
    object["placements"] = Json::array();
    std::vector<Quote> quotes = quotes_of(set, nullptr);
    for (const Standing &standing : standings_of(settled)) {
        Json said = state(set, standing);
        add_reason(said, standing, quotes);
        object["placements"].push_back(said);
    }
    put(out, object);
}

void previewed(std::ostream &out, const Set &set, const Previewed &previewed) {
    Json object = outcome(previewed.after.answer.number);
    object["before"] = outcome(previewed.before.answer.number);
    object["placements"] = Json::array();
    std::vector<Quote> quotes = quotes_of(set, &previewed.group);
    std::vector<Standing> before = standings_of(previewed.before);
    before.resize(set.n);
    for (const Standing &standing : standings_of(previewed.after)) {
        const Standing &was = before[standing.placement - 1];
        Json said = state(set, standing);
        add_reason(said, standing, quotes);
        said["changed"] = !standing.same_state(was);
        if (!standing.same_state(was)) {
            said["before"] = state(set, was);
            said["before"].erase("placement");
        }
        object["placements"].push_back(said);
    }
    put(out, object);
}

void saved(std::ostream &out, const std::string &strip) {
    constexpr char DIGITS[] = "0123456789abcdef";
    std::string hexadecimal;
    for (char byte : strip) {
        hexadecimal += DIGITS[static_cast<unsigned char>(byte) / 16];
        hexadecimal += DIGITS[static_cast<unsigned char>(byte) % 16];
    }
    Json object = outcome(PLATEWRIGHT_DONE);
    object["bytes"] = strip.size();
    object["strip"] = hexadecimal;
    put(out, object);
}

void as_names(std::ostream &out, const Set &set) {
    Json object = outcome(PLATEWRIGHT_DONE);
    object["placements"] = Json::array();
    for (size_t p = 1; p <= set.n; p++) object["placements"].push_back(print::name_in_text(set, p));
    object["groups"] = Json::array();
    for (const std::vector<int16_t> &group : groups_of(set)) {
        Json list = Json::array();
        for (int16_t e : group)
            list.push_back((e < 0 ? "-" : "") + print::name_in_text(set, static_cast<size_t>(std::abs(e))));
        object["groups"].push_back(list);
    }
    put(out, object);
}

void as_numbers(std::ostream &out, const Set &set) {
    Json object = outcome(PLATEWRIGHT_DONE);
    object["n"] = set.n;
    object["table"] = set.table;
    put(out, object);
}

}
