// Runs the tables of calls in tests/cases through include/platewright.h: each case is a call and the line that must
// come of it. tests/cases/README.md tells the language. Every list is lent at exactly its size, with a page after it
// that nobody may touch and a watched filler before it: the sanitizers see only code that was compiled with them, and
// the library wasn't.
//
// One more operation is one function under "The operations" and one row of OPERATIONS, and a row of FIELDS for a field
// that no other has.
#include <algorithm>
#include <cctype>
#include <charconv>
#include <csignal>
#include <cstdio>
#include <cstring>
#include <fstream>
#include <limits>
#include <map>
#include <sstream>
#include <stdexcept>
#include <string>
#include <sys/mman.h>
#include <type_traits>
#include <unistd.h>
#include <vector>

#include "platewright.h"

namespace {

// ---- The language

constexpr size_t LONGEST_LINE = 1000;
constexpr size_t MOST_ELEMENTS = 20000; // of a list
constexpr int DEEPEST = 4;              // counts and parentheses inside each other

// A case that can't be read.
struct Wrong : std::runtime_error {
    using std::runtime_error::runtime_error;
};

enum class Kind {
    number,
    list,
    bytes, // a list of two hexadecimal digits each
    part,  // "10 from 1529"
};

const std::map<std::string, Kind> FIELDS = {
    {"again", Kind::list},    {"allowance", Kind::number}, {"back", Kind::list},     {"buffer", Kind::list},
    {"entries", Kind::list},  {"first", Kind::list},       {"group", Kind::list},    {"k", Kind::number},
    {"list", Kind::list},     {"n", Kind::number},         {"plan", Kind::list},     {"reasons", Kind::list},
    {"receipt", Kind::bytes}, {"rows", Kind::list},        {"shown", Kind::part},    {"starts", Kind::list},
    {"strip", Kind::bytes},   {"table", Kind::list},       {"times", Kind::number},  {"trail", Kind::list},
    {"used", Kind::number},
};

struct Value {
    uint64_t number = 0; // of a list: how many of its first elements are lent
    uint64_t from = 0;   // of a part
    std::vector<int64_t> elements;
};

using Fields = std::map<std::string, Value>;

bool is_word(char c) { return std::isalnum(static_cast<unsigned char>(c)) || c == '_' || c == '-'; }

// A line, and how far it is read.
class Text {
  public:
    explicit Text(const std::string &line) : line_(line) {}

    bool at_end() {
        skip();
        return at_ == line_.size();
    }

    bool take(char c) {
        skip();
        bool there = at_ < line_.size() && line_[at_] == c;
        at_ += there;
        return there;
    }

    void need(char c) {
        if (!take(c)) throw Wrong(std::string("'") + c + "' must stand at column " + std::to_string(at_ + 1));
    }

    bool take_word(const std::string &word) {
        size_t before = at_;
        if (!at_end() && is_word(line_[at_]) && this->word() == word) return true;
        at_ = before;
        return false;
    }

    std::string word() {
        skip();
        size_t from = at_;
        while (at_ < line_.size() && is_word(line_[at_])) at_++;
        if (from == at_) throw Wrong("a word or a number must stand at column " + std::to_string(at_ + 1));
        return line_.substr(from, at_ - from);
    }

  private:
    void skip() {
        while (at_ < line_.size() && line_[at_] == ' ') at_++;
    }

    const std::string &line_;
    size_t at_ = 0;
};

template <typename T> T number_of(const std::string &word, int base = 10) {
    T number{};
    auto [end, fault] = std::from_chars(word.data(), word.data() + word.size(), number, base);
    if (fault != std::errc() || end != word.data() + word.size()) throw Wrong("'" + word + "' is no number here");
    return number;
}

// The elements between brackets, or between parentheses.
class Elements {
  public:
    Elements(Text &text, bool bytes) : text_(text), bytes_(bytes) {}

    std::vector<int64_t> up_to(char end, int depth = 0) {
        std::vector<int64_t> list;
        while (!text_.take(end)) append(list, item(depth), 1);
        return list;
    }

  private:
    std::vector<int64_t> item(int depth) {
        if (depth == DEEPEST) throw Wrong("too many counts and parentheses inside each other");
        if (text_.take('(')) return up_to(')', depth + 1);
        std::string word = text_.word();
        if (text_.take('*')) return repeated(number_of<uint64_t>(word), depth + 1);
        if (word == "fours") return fours();
        if (bytes_ && word.size() != 2) throw Wrong("'" + word + "' isn't two hexadecimal digits");
        return {number_of<int64_t>(word, bytes_ ? 16 : 10)};
    }

    std::vector<int64_t> repeated(uint64_t times, int depth) {
        std::vector<int64_t> list;
        append(list, item(depth), times);
        return list;
    }

    // README.md: groups of four entries and a 0, with both signs and every placement.
    std::vector<int64_t> fours() {
        constexpr uint64_t GROUP = 5;
        text_.need('(');
        auto length = number_of<uint64_t>(text_.word());
        text_.need(')');
        std::vector<int64_t> list;
        for (uint64_t i = 0; i < std::min<uint64_t>(length, MOST_ELEMENTS + 1); i++) {
            int64_t placement = static_cast<int64_t>(i % PLATEWRIGHT_MAX_PLACEMENTS) + 1;
            append(list, {i % GROUP == GROUP - 1 ? 0 : i % 2 == 0 ? placement : -placement}, 1);
        }
        return list;
    }

    static void append(std::vector<int64_t> &list, const std::vector<int64_t> &more, uint64_t times) {
        if (times > MOST_ELEMENTS || list.size() + times * more.size() > MOST_ELEMENTS)
            throw Wrong("a list of more than " + std::to_string(MOST_ELEMENTS) + " elements");
        for (uint64_t i = 0; i < times; i++) list.insert(list.end(), more.begin(), more.end());
    }

    Text &text_;
    bool bytes_;
};

// "[...]", or "3 of [...]": the first 3 are lent.
Value list_value(Text &text, bool bytes) {
    Value value;
    bool partly = !text.take('[');
    if (partly) {
        value.number = number_of<uint64_t>(text.word());
        if (!text.take_word("of")) throw Wrong("after the number of lent elements, 'of' and a list must stand");
        text.need('[');
    }
    value.elements = Elements(text, bytes).up_to(']');
    if (!partly) value.number = value.elements.size();
    if (value.number > value.elements.size()) throw Wrong("more elements are lent than there are");
    return value;
}

Value value_of(Text &text, Kind kind) {
    if (kind == Kind::list || kind == Kind::bytes) return list_value(text, kind == Kind::bytes);
    Value value;
    value.number = number_of<uint64_t>(text.word());
    if (kind == Kind::part) {
        if (!text.take_word("from")) throw Wrong("'from' must stand between the two numbers");
        value.from = number_of<uint64_t>(text.word());
    }
    return value;
}

// ---- Lent lists

constexpr unsigned char FILLER = 0xA5;

// So many bytes before a page that can't be touched. What stands before them is filler.
class Fenced {
  public:
    explicit Fenced(size_t bytes) : bytes_(bytes) {
        size_t page = static_cast<size_t>(sysconf(_SC_PAGESIZE));
        open_ = (bytes / page + 1) * page;
        whole_ = open_ + page;
        void *memory = mmap(nullptr, whole_, PROT_READ | PROT_WRITE, MAP_PRIVATE | MAP_ANONYMOUS, -1, 0);
        if (memory == MAP_FAILED) throw Wrong("no memory for a list");
        base_ = static_cast<unsigned char *>(memory);
        if (mprotect(base_ + open_, page, PROT_NONE) != 0) throw Wrong("no fence for a list");
        std::memset(base_, FILLER, open_);
    }
    Fenced(const Fenced &) = delete;
    Fenced &operator=(const Fenced &) = delete;
    ~Fenced() { munmap(base_, whole_); }

    unsigned char *start() const { return base_ + open_ - bytes_; }
    bool filler_kept() const {
        return std::all_of(base_, start(), [](unsigned char byte) { return byte == FILLER; });
    }

  private:
    size_t bytes_, open_, whole_;
    unsigned char *base_;
};

// A list of a case, of which the first elements are lent.
template <typename T> class Lent {
  public:
    Lent(const std::string &name, const Value &value)
        : name_(name), before_(narrowed(name, value.elements)), size_(value.number), memory_(size_ * sizeof(T)) {
        std::copy_n(before_.begin(), size_, data());
    }

    T *data() const { return reinterpret_cast<T *>(memory_.start()); }
    size_t size() const { return size_; }

    // The whole list as it is now; what isn't lent is as it was.
    std::vector<T> now() const {
        std::vector<T> list = before_;
        std::copy_n(data(), size_, list.begin());
        return list;
    }

    // Nothing, where no element changed but those from one index up to another.
    std::string kept_but(size_t from, size_t to) const {
        if (!memory_.filler_kept()) return " (" + name_ + ": changed before its first element)";
        for (size_t i = 0; i < size_; i++) {
            bool written = from <= i && i < to;
            if (!written && data()[i] != before_[i]) return " (" + name_ + ": changed at " + std::to_string(i) + ")";
        }
        return "";
    }

    std::string kept() const { return kept_but(0, 0); }

  private:
    static std::vector<T> narrowed(const std::string &name, const std::vector<int64_t> &elements) {
        std::vector<T> list;
        for (int64_t x : elements) {
            list.push_back(static_cast<T>(x));
            bool fits = static_cast<int64_t>(list.back()) == x && (x >= 0 || std::is_signed_v<T>);
            if (!fits) throw Wrong(name + ": " + std::to_string(x) + " doesn't fit an element");
        }
        return list;
    }

    std::string name_;
    std::vector<T> before_;
    size_t size_;
    Fenced memory_;
};

// The fields of a call, as its operation asks for them.
class Call {
  public:
    explicit Call(const Fields &fields) : fields_(fields) {}

    bool has(const std::string &name) const { return fields_.count(name) != 0; }
    const Value &value(const std::string &name) const { return fields_.at(name); }
    size_t size(const std::string &name) const { return value(name).number; }
    size_t n() const { return size("n"); }

    uint32_t allowance() const {
        uint64_t splits = value("allowance").number;
        if (splits > std::numeric_limits<uint32_t>::max()) throw Wrong("the allowance has more than 32 bits");
        return static_cast<uint32_t>(splits);
    }

    Lent<int16_t> entries(const std::string &name) const { return {name, value(name)}; }
    Lent<uint8_t> bytes(const std::string &name) const { return {name, value(name)}; }
    Lent<uint16_t> groups(const std::string &name) const { return {name, value(name)}; }
    Lent<size_t> sizes(const std::string &name) const { return {name, value(name)}; }

  private:
    const Fields &fields_;
};

// ---- What is shown of an answer

bool refused(uint32_t number) {
    static const uint32_t outcomes[] = {
        PLATEWRIGHT_LAID_OUT,    PLATEWRIGHT_NO_LAYOUT,  PLATEWRIGHT_STOPPED, PLATEWRIGHT_SETTLED,
        PLATEWRIGHT_GROUP_ADDED, PLATEWRIGHT_STRIP_READ, PLATEWRIGHT_INDEXED, PLATEWRIGHT_DONE,
    };
    return std::find(std::begin(outcomes), std::end(outcomes), number) == std::end(outcomes);
}

// The elements that a call may have written, where it may write so many.
size_t written(const platewright_answer &answer, size_t length) { return refused(answer.number) ? 0 : length; }

template <typename T> std::string numbers(const std::vector<T> &list) {
    std::string text;
    for (T x : list) text += " " + std::to_string(x);
    return text;
}

// Number, place, count and group.
std::string four(const platewright_answer &a) {
    std::ostringstream text;
    text << a.number << ' ' << a.place << ' ' << a.count << ' ' << a.group;
    return text.str();
}

std::string zero(const std::string &name, uint64_t value) {
    return value == 0 ? "" : " (" + name + " is " + std::to_string(value) + ")";
}

// Nothing, where those of the answer that most operations don't name are 0.
std::string no_listing(const platewright_answer &a) { return zero("rows", a.rows) + zero("more", a.more); }
std::string no_values(const platewright_answer &a) { return zero("n", a.n) + zero("used", a.used) + no_listing(a); }

// A list after the call: all of it, or the part that the case says.
template <typename T> std::string shown(const Call &call, const Lent<T> &lent) {
    std::vector<T> list = lent.now();
    if (!call.has("shown")) return numbers(list);
    const Value &part = call.value("shown");
    if (part.from > list.size() || part.number > list.size() - part.from) throw Wrong("shown: past the list's end");
    auto first = list.begin() + static_cast<std::ptrdiff_t>(part.from);
    return numbers(std::vector<T>(first, first + static_cast<std::ptrdiff_t>(part.number)));
}

// ---- The operations: each makes its call and gives the line that came

bool same(const platewright_answer &a, const platewright_answer &b) {
    return four(a) == four(b) && no_values(a) == no_values(b);
}

// Where the parts end in which a table is handed over.
using Ends = std::vector<size_t>;

platewright_answer in_parts(const Lent<int16_t> &table, size_t n, const Ends &ends) {
    platewright_pass pass = platewright_check_begin(n);
    size_t from = 0;
    for (size_t end : ends) {
        pass = platewright_check_part(pass, table.data() + from, end - from);
        from = end;
    }
    return platewright_check_end(pass);
}

// A table, what its whole check answered, and how many ways of handing it over were answered otherwise.
struct Parts {
    const Lent<int16_t> &table;
    size_t n;
    platewright_answer whole;
    size_t tried = 0;
    size_t otherwise = 0;
    std::string first = "";

    void try_ends(const Ends &ends) {
        tried++;
        platewright_answer answer = in_parts(table, n, ends);
        if (same(answer, whole)) return;
        if (otherwise++ == 0) first = " (" + four(answer) + " in parts that end at" + numbers(ends) + ")";
    }

    size_t in_two() {
        tried = 0;
        for (size_t cut = 0; cut <= table.size(); cut++) try_ends({cut, table.size()});
        return tried;
    }

    // Only a short table.
    size_t in_three() {
        constexpr size_t SHORT = 16;
        tried = 0;
        for (size_t cut = 0; table.size() <= SHORT && cut <= table.size(); cut++)
            for (size_t next = cut; next <= table.size(); next++) try_ends({cut, next, table.size()});
        return tried;
    }

    // In parts of one size, then with an empty part after each.
    size_t in_many() {
        tried = 0;
        for (size_t size : {1, 2, 3, 7, 100}) {
            Ends plain, spaced;
            for (size_t from = 0; from < table.size(); from += size) {
                size_t end = std::min(from + size, table.size());
                plain.push_back(end);
                spaced.insert(spaced.end(), 2, end);
            }
            try_ends(plain);
            try_ends(spaced);
        }
        return tried;
    }
};

std::string call_check(const Call &call) {
    auto table = call.entries("table");
    platewright_answer whole = platewright_check(table.data(), table.size(), call.n());
    Parts parts{table, call.n(), whole};
    std::ostringstream line;
    line << four(whole) << " | in two " << parts.in_two();
    line << ", in three " << parts.in_three();
    line << ", in many " << parts.in_many();
    line << " | otherwise " << parts.otherwise << parts.first;
    return line.str() + no_values(whole) + table.kept();
}

constexpr size_t MOST_TIMES = 1000000;

// One part, then another one so many times.
std::string call_check_repeated(const Call &call) {
    auto first = call.entries("first");
    auto again = call.entries("again");
    size_t times = call.size("times");
    if (times > MOST_TIMES) throw Wrong("more than " + std::to_string(MOST_TIMES) + " times");
    platewright_pass pass = platewright_check_begin(call.n());
    pass = platewright_check_part(pass, first.data(), first.size());
    for (size_t i = 0; i < times; i++) pass = platewright_check_part(pass, again.data(), again.size());
    platewright_answer answer = platewright_check_end(pass);
    std::string parts = " | parts " + std::to_string(times + 1);
    return four(answer) + parts + no_values(answer) + first.kept() + again.kept();
}

std::string call_search(const Call &call) {
    auto table = call.entries("table");
    auto plan = call.bytes("plan");
    auto trail = call.entries("trail");
    platewright_answer answer = platewright_search(table.data(), table.size(), call.n(), call.allowance(), plan.data(),
                                                   plan.size(), trail.data(), trail.size());
    size_t end = written(answer, call.n());
    return four(answer) + " |" + numbers(plan.now()) + " |" + numbers(trail.now()) + no_values(answer) +
           table.kept() + plan.kept_but(0, end) + trail.kept_but(0, end);
}

std::string call_list(const Call &call) {
    auto table = call.entries("table");
    auto rows = call.bytes("rows");
    size_t k = call.size("k");
    platewright_answer answer =
        platewright_list(table.data(), table.size(), call.n(), k, call.allowance(), rows.data(), rows.size());
    std::string line = four(answer) + (answer.more ? " more:" : ":") + numbers(rows.now());
    line += zero("rows less place", answer.rows - written(answer, answer.place));
    return line + zero("n", answer.n) + zero("used", answer.used) + table.kept() +
           rows.kept_but(0, written(answer, k * call.n()));
}

// Settle's and preview's two lists after the call.
std::string states(const platewright_answer &answer, size_t n, const Lent<int16_t> &list,
                   const Lent<uint16_t> &reasons) {
    size_t end = written(answer, n);
    return four(answer) + ":" + numbers(list.now()) + ":" + numbers(reasons.now()) + no_values(answer) +
           list.kept_but(0, end) + reasons.kept_but(0, end);
}

std::string call_settle(const Call &call) {
    auto table = call.entries("table");
    auto list = call.entries("list");
    auto reasons = call.groups("reasons");
    platewright_answer answer = platewright_settle(table.data(), table.size(), call.n(), list.data(), list.size(),
                                                   reasons.data(), reasons.size());
    return states(answer, call.n(), list, reasons) + table.kept();
}

// Nothing, where every head is its group's; most of them aren't shown.
std::string heads_right(const Lent<int16_t> &table, const std::vector<size_t> &start,
                        const std::vector<size_t> &entry) {
    size_t group = 0, from = 0;
    for (size_t i = 0; i < table.size(); i++) {
        if (table.data()[i] != 0) continue;
        bool right = group < start.size() && start[group] == from && entry[group] == i - from;
        if (!right) return " (head " + std::to_string(group) + " is another)";
        group++;
        from = i + 1;
    }
    return "";
}

constexpr size_t HEADS_SHOWN = 6; // the first five and the last

std::string call_index(const Call &call) {
    auto table = call.entries("table");
    auto starts = call.sizes("starts");
    auto entries = call.sizes("entries");
    platewright_answer answer = platewright_index(table.data(), table.size(), call.n(), starts.data(), starts.size(),
                                                  entries.data(), entries.size());
    std::vector<size_t> start = starts.now(), entry = entries.now();
    if (start.size() != entry.size() || start.size() < HEADS_SHOWN) throw Wrong("starts, entries: not alike, or short");
    std::ostringstream line;
    line << four(answer) << ":";
    for (size_t i = 0; i < HEADS_SHOWN; i++) {
        size_t head = i + 1 < HEADS_SHOWN ? i : start.size() - 1;
        line << " | " << start[head] << ' ' << entry[head];
    }
    auto groups = static_cast<size_t>(std::count(table.data(), table.data() + table.size(), 0));
    size_t end = written(answer, groups);
    if (!refused(answer.number)) line << heads_right(table, start, entry);
    return line.str() + no_values(answer) + table.kept() + starts.kept_but(0, end) + entries.kept_but(0, end);
}

std::string call_add(const Call &call) {
    auto buffer = call.entries("buffer");
    auto group = call.entries("group");
    size_t used = call.size("used");
    platewright_answer answer =
        platewright_add(buffer.data(), buffer.size(), used, call.n(), group.data(), group.size());
    return four(answer) + ": " + std::to_string(answer.used) + " |" + shown(call, buffer) + zero("n", answer.n) +
           no_listing(answer) + group.kept() + buffer.kept_but(used, written(answer, answer.used));
}

std::string call_take_back(const Call &call) {
    auto buffer = call.entries("buffer");
    size_t used = call.size("used");
    platewright_answer answer = platewright_take_back(buffer.data(), buffer.size(), used, call.n());
    std::string line = four(answer) + ": " + std::to_string(answer.used) + " |" + shown(call, buffer) +
                       zero("n", answer.n) + no_listing(answer) + buffer.kept_but(answer.used, written(answer, used));
    for (size_t i = answer.used; i < written(answer, used) && i < buffer.size(); i++)
        line += zero("element " + std::to_string(i), static_cast<uint16_t>(buffer.data()[i]));
    return line;
}

std::string preview_of(const Call &call, const Lent<int16_t> &buffer, const Lent<int16_t> &group) {
    auto list = call.entries("list");
    auto reasons = call.groups("reasons");
    platewright_answer answer =
        platewright_preview(buffer.data(), buffer.size(), call.size("used"), call.n(), group.data(), group.size(),
                            list.data(), list.size(), reasons.data(), reasons.size());
    return states(answer, call.n(), list, reasons) + buffer.kept() + group.kept();
}

std::string call_preview(const Call &call) {
    auto buffer = call.entries("buffer");
    auto group = call.entries("group");
    return preview_of(call, buffer, group);
}

// An add of the same group to the same buffer, beside it.
std::string call_preview_then_add(const Call &call) {
    auto buffer = call.entries("buffer");
    auto group = call.entries("group");
    std::string line = preview_of(call, buffer, group);
    size_t used = call.size("used");
    platewright_answer answer =
        platewright_add(buffer.data(), buffer.size(), used, call.n(), group.data(), group.size());
    return line + " | " + four(answer) + group.kept() + buffer.kept_but(used, written(answer, answer.used));
}

std::string call_read(const Call &call) {
    auto strip = call.bytes("strip");
    auto table = call.entries("table");
    platewright_answer answer = platewright_read(strip.data(), strip.size(), table.data(), table.size());
    return four(answer) + ": " + std::to_string(answer.n) + " " + std::to_string(answer.used) + " |" +
           numbers(table.now()) + no_listing(answer) + strip.kept() + table.kept_but(0, written(answer, answer.used));
}

std::string call_save(const Call &call) {
    auto table = call.entries("table");
    auto strip = call.bytes("strip");
    platewright_answer answer = platewright_save(table.data(), table.size(), call.n(), strip.data(), strip.size());
    return four(answer) + " |" + shown(call, strip) + (call.has("shown") ? " .." : "") + no_values(answer) +
           table.kept() + strip.kept_but(0, written(answer, answer.place));
}

// What reading the saved strip brings back.
std::string call_save_and_read(const Call &call) {
    auto table = call.entries("table");
    auto strip = call.bytes("strip");
    auto back = call.entries("back");
    platewright_save(table.data(), table.size(), call.n(), strip.data(), strip.size());
    platewright_answer answer = platewright_read(strip.data(), strip.size(), back.data(), back.size());
    bool alike = back.now() == table.now();
    return "read back " + four(answer) + ": " + std::to_string(answer.n) + " " + std::to_string(answer.used) +
           (alike ? " the same" : " another") + no_listing(answer) + table.kept() + back.kept_but(0, answer.used);
}

// The number, the plan, and the receipt's bytes by fours.
std::string call_window(const Call &call) {
    auto strip = call.bytes("strip");
    auto plan = call.bytes("plan");
    auto receipt = call.bytes("receipt");
    uint32_t number = platewright_window(strip.data(), strip.size(), call.allowance(), plan.data(), plan.size(),
                                         receipt.data(), receipt.size());
    std::string line = std::to_string(number) + " |" + numbers(plan.now()) + " |";
    std::vector<uint8_t> bytes = receipt.now();
    for (size_t i = 0; i < bytes.size(); i++) {
        char digits[3];
        std::snprintf(digits, sizeof digits, "%02X", bytes[i]);
        line += (i % 4 == 0 ? " " : "") + std::string(digits);
    }
    return line + strip.kept() + plan.kept_but(0, refused(number) ? 0 : plan.size()) +
           receipt.kept_but(0, number == PLATEWRIGHT_RECEIPT_SHORT ? 0 : PLATEWRIGHT_RECEIPT);
}

struct Operation {
    const char *name;
    const char *fields; // which a case must have; with '?' it may
    std::string (*line)(const Call &);
};

const Operation OPERATIONS[] = {
    {"check", "n table", call_check},
    {"check_repeated", "n first again times", call_check_repeated},
    {"search", "n table allowance plan trail", call_search},
    {"list", "n table k allowance rows", call_list},
    {"settle", "n table list reasons", call_settle},
    {"index", "n table starts entries", call_index},
    {"add", "used n buffer group shown?", call_add},
    {"take_back", "used n buffer shown?", call_take_back},
    {"preview", "used n buffer group list reasons", call_preview},
    {"preview_then_add", "used n buffer group list reasons", call_preview_then_add},
    {"read", "strip table", call_read},
    {"save", "n table strip shown?", call_save},
    {"save_and_read", "n table strip back", call_save_and_read},
    {"window", "strip allowance plan receipt", call_window},
};

// ---- The run

const Operation &operation_of(const std::string &name) {
    for (const Operation &operation : OPERATIONS)
        if (name == operation.name) return operation;
    throw Wrong("'" + name + "' is no operation");
}

void check_fields(const Operation &operation, const Fields &fields) {
    std::istringstream names(operation.fields);
    std::string name;
    size_t known = 0;
    while (names >> name) {
        bool optional = name.back() == '?';
        if (optional) name.pop_back();
        known += fields.count(name);
        if (!optional && fields.count(name) == 0) throw Wrong(std::string(operation.name) + " needs the field " + name);
    }
    if (known < fields.size()) throw Wrong(std::string(operation.name) + " has only the fields " + operation.fields);
}

std::string line_of(const std::string &call) {
    if (call.size() > LONGEST_LINE) throw Wrong("a line of more than " + std::to_string(LONGEST_LINE) + " characters");
    Text text(call);
    const Operation &operation = operation_of(text.word());
    Fields fields;
    do {
        std::string name = text.word();
        auto field = FIELDS.find(name);
        if (field == FIELDS.end()) throw Wrong("'" + name + "' is no field");
        if (!fields.emplace(name, value_of(text, field->second)).second) throw Wrong("the field " + name + " twice");
    } while (text.take(','));
    if (!text.at_end()) throw Wrong("a comma must stand between fields");
    check_fields(operation, fields);
    return operation.line(Call(fields));
}

struct Totals {
    size_t cases = 0;
    size_t failed = 0;
};

// The case that runs, for the report of a touched fence.
char running[LONGEST_LINE];

void fence_touched(int) {
    static const char said[] = ": an element outside a lent list was touched\n";
    ssize_t told = write(STDOUT_FILENO, running, std::strlen(running));
    told += write(STDOUT_FILENO, said, sizeof said - 1);
    _exit(told > 0 ? 1 : 2);
}

void fail(const std::string &where, const std::string &what, Totals &totals) {
    totals.failed++;
    std::printf("%s: %s\n", where.c_str(), what.c_str());
}

void run_case(const std::string &where, const std::string &call, const std::string &expected, Totals &totals) {
    totals.cases++;
    std::fflush(stdout);
    std::snprintf(running, sizeof running, "%s", where.c_str());
    try {
        std::string came = line_of(call);
        if (came != expected) fail(where, call + "\n  expected: " + expected + "\n  came:     " + came, totals);
    } catch (const Wrong &wrong) {
        fail(where, wrong.what(), totals);
    }
}

// A case is two lines; between cases, comments and empty lines.
void run_file(const std::string &path, Totals &totals) {
    std::ifstream file(path);
    size_t before = totals.cases;
    std::string call, answer;
    for (size_t number = 1; std::getline(file, call); number++) {
        if (call.empty() || call[0] == '#') continue;
        std::string where = path + ":" + std::to_string(number++);
        bool whole = std::getline(file, answer) && answer.rfind("= ", 0) == 0;
        if (whole) run_case(where, call, answer.substr(2), totals);
        if (!whole) fail(where, "a call must stand here, and on the next line '= ' and what must come of it", totals);
    }
    if (totals.cases == before) fail(path, "can't be read, or has no case", totals);
}

} // namespace

int main(int argc, char **argv) {
    std::signal(SIGSEGV, fence_touched);
    std::signal(SIGBUS, fence_touched);
    Totals totals;
    for (int i = 1; i < argc; i++) run_file(argv[i], totals);
    std::printf("%zu cases, %zu failed\n", totals.cases, totals.failed);
    return totals.cases > 0 && totals.failed == 0 ? 0 : 1;
}
