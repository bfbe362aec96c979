/* Text for people. */
#include "print.hpp"

#include <cstdlib>

#include "refusal.hpp"

namespace command::print {

namespace {

/* The columns after which a `placements` line is continued by another one. */
constexpr size_t WIDE_LINE = 100;

void outcome(std::ostream &out, const platewright_answer &answer) {
    out << words_of(answer.number) << "\nsplits " << answer.count << "\n";
}

void taken(std::ostream &out, const Set &set, const std::vector<uint8_t> &plan) {
    out << "taken";
    for (size_t i = 0; i < plan.size(); i++)
        if (plan[i]) out << " " << set.text_of(static_cast<int>(i + 1));
    out << "\n";
}

/* `equal to A1` */
std::string state_of(const Set &set, const Standing &standing) {
    if (standing.to == 0) return standing.state;
    return std::string(standing.state) + " to " + set.text_of(static_cast<int>(standing.to));
}

/* `, by group 2 (line 6): A1 A2 A3`, or `, by the further group: -A1 B2` */
std::string reason_of(const Standing &standing, const std::vector<Quote> &quotes) {
    if (standing.group == 0) return "";
    const Quote &quote = quotes[standing.group - 1];
    std::string group = quote.further ? "the further group" : "group " + std::to_string(standing.group);
    std::string line = quote.line == 0 ? "" : " (line " + std::to_string(quote.line) + ")";
    return ", by " + group + line + ": " + quote.text;
}

std::string entry_in_text(const Set &set, int16_t entry) {
    return (entry < 0 ? "-" : "") + name_in_text(set, static_cast<size_t>(std::abs(entry)));
}

void placements_lines(std::ostream &out, const Set &set) {
    std::string line(PLACEMENTS);
    for (size_t p = 1; p <= set.n; p++) {
        std::string name = name_in_text(set, p);
        if (p > 1 && line.size() + 1 + name.size() > WIDE_LINE) {
            out << line << "\n";
            line = PLACEMENTS;
        }
        line += " " + name;
    }
    out << line << "\n";
}

}

void checked(std::ostream &out, const Set &set) {
    size_t groups = groups_of(set).size();
    out << "within the limits\nplacements " << set.n << "\ngroups " << groups << "\nentries "
        << set.table.size() - groups << "\n";
    std::vector<size_t> unnamed = unnamed_placements(set);
    if (unnamed.empty()) return;
    out << "in no group";
    for (size_t p : unnamed) out << " " << set.text_of(static_cast<int>(p));
    out << "\n";
}

void searched(std::ostream &out, const Set &set, const Searched &searched) {
    outcome(out, searched.answer);
    if (searched.answer.number != PLATEWRIGHT_LAID_OUT) return;
    taken(out, set, searched.plan);
    out << "trail";
    for (int16_t split : searched.trail) out << " " << set.text_of(split);
    out << "\n";
}

void listed(std::ostream &out, const Set &set, const Listed &listed) {
    outcome(out, listed.answer);
    if (listed.answer.number != PLATEWRIGHT_LAID_OUT) return;
    out << "layouts " << listed.rows.size() << (listed.answer.more ? ", and there are more" : ", and no more") << "\n";
    for (const std::vector<uint8_t> &row : listed.rows) taken(out, set, row);
}

void counted(std::ostream &out, const Counted &counted) {
    outcome(out, counted.answer);
    out << "layouts " << (counted.all ? "" : "at least ") << counted.layouts << "\n";
}

void settled(std::ostream &out, const Set &set, const Settled &settled) {
    out << words_of(settled.answer.number) << "\n";
    std::vector<Quote> quotes = quotes_of(set, nullptr);
    for (const Standing &s : standings_of(settled))
        out << set.text_of(static_cast<int>(s.placement)) << " " << state_of(set, s) << reason_of(s, quotes) << "\n";
}

void previewed(std::ostream &out, const Set &set, const Previewed &previewed) {
    out << words_of(previewed.after.answer.number) << "\n";
    if (previewed.before.answer.number == PLATEWRIGHT_NO_LAYOUT) out << "no layout before, too\n";
    std::vector<Quote> quotes = quotes_of(set, &previewed.group);
    std::vector<Standing> before = standings_of(previewed.before);
    before.resize(set.n);
    for (const Standing &s : standings_of(previewed.after)) {
        const Standing &was = before[s.placement - 1];
        bool same = s.same_state(was);
        out << (same ? "  " : "* ") << set.text_of(static_cast<int>(s.placement)) << " " << state_of(set, s)
            << (same ? "" : " (" + state_of(set, was) + " before)") << reason_of(s, quotes) << "\n";
    }
}

std::string name_in_text(const Set &set, size_t placement) {
    return set.kind == Kind::names ? set.names.at(placement).text : "p" + std::to_string(placement);
}

void as_names(std::ostream &out, const Set &set) {
    placements_lines(out, set);
    for (const std::vector<int16_t> &entries : groups_of(set)) {
        std::string line;
        for (int16_t entry : entries) line += (line.empty() ? "" : " ") + entry_in_text(set, entry);
        out << (line.empty() ? NOTHING : line) << "\n";
    }
}

void as_numbers(std::ostream &out, const Set &set) {
    out << set.n << "\n";
    for (int16_t element : set.table) out << element << (element == 0 ? "\n" : " ");
}

}
