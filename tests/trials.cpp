/* Every operation of platewright.h beside the reference, on filings from fixed seeds. The program prints how many cases
 * of each kind there were; at the first disagreement it prints the smallest filing that disagrees, the call, what was
 * expected and what came, and ends with 1.
 *
 * Usage: trials [case ...]; without a name all cases are tried. */
#include "trials.hpp"

#include <signal.h>
#include <sys/mman.h>
#include <unistd.h>

#include <cstring>

namespace trials {

std::vector<uint8_t *> &Fence::idle() {
    static std::vector<uint8_t *> fences;
    return fences;
}

static uint8_t *new_fence() {
    size_t page = (size_t)sysconf(_SC_PAGESIZE);
    void *at = mmap(nullptr, Fence::BYTES + 2 * page, PROT_NONE, MAP_PRIVATE | MAP_ANONYMOUS, -1, 0);
    if (at == MAP_FAILED || mprotect((uint8_t *)at + page, Fence::BYTES, PROT_READ | PROT_WRITE) != 0) {
        perror("fence");
        exit(2);
    }
    return (uint8_t *)at + page;
}

/* A call has touched a page beside a list. The cases before it are printed, since every line is. */
static void fence_touched(int) {
    static const char words[] = "disagreement\n  a call has read or written past the end of a lent list\n";
    _exit(write(STDOUT_FILENO, words, sizeof words - 1) < 0 ? 2 : 1);
}

static void watch_fences() {
    signal(SIGSEGV, fence_touched);
    signal(SIGBUS, fence_touched);
    setvbuf(stdout, nullptr, _IOLBF, 0);
}

static uint8_t *taken_from(std::vector<uint8_t *> &idle) {
    if (idle.empty()) return new_fence();
    uint8_t *from = idle.back();
    idle.pop_back();
    return from;
}

Fence::Fence() : from(taken_from(idle())) {}
Fence::~Fence() { idle().push_back(from); }

template class Lent<uint8_t>;
template class Lent<int16_t>;
template class Lent<uint16_t>;
template class Lent<size_t>;

template <class T> static std::string list_shown(const std::vector<T> &list) {
    std::string s = "[";
    for (T e : list) s += (s.size() > 1 ? " " : "") + std::to_string(e);
    return s + "]";
}

std::string shown(size_t number) { return std::to_string(number); }
std::string shown(const Entries &list) { return list_shown(list); }
std::string shown(const Bytes &list) { return list_shown(list); }
std::string shown(const Reasons &list) { return list_shown(list); }
std::string shown(const std::vector<size_t> &list) { return list_shown(list); }
std::string shown(const Filing &f) { return "n " + shown(f.n) + ", table " + shown(f.table); }

std::string shown_strip(const Bytes &strip) {
    std::string s = "strip";
    char hex[4];
    for (uint8_t byte : strip) {
        snprintf(hex, sizeof hex, " %02X", byte);
        s += hex;
    }
    return s;
}

std::string shown(const Answer &a) {
    return "number " + shown(a.number) + ", place " + shown(a.place) + ", count " + shown(a.count) + ", n " +
           shown(a.n) + ", used " + shown(a.used) + ", rows " + shown(a.rows) + ", group " + shown(a.group) +
           ", more " + shown(a.more);
}

static bool same_answer(const Answer &a, const Answer &b) {
    return a.number == b.number && a.count == b.count && a.place == b.place && a.n == b.n && a.used == b.used &&
           a.rows == b.rows && a.group == b.group && a.more == b.more;
}

void Comparison::differ(const char *what, const std::string &expected, const std::string &came) {
    differences += std::string("  ") + what + "\n    expected " + expected + "\n    came     " + came + "\n";
}

void Comparison::same(const Answer &expected, const Answer &came) {
    if (!same_answer(expected, came)) differ("answer", shown(expected), shown(came));
}

void Comparison::same(const char *what, size_t expected, size_t came) {
    if (expected != came) differ(what, shown(expected), shown(came));
}

void Comparison::holds(const char *what, bool truth) {
    if (!truth) differ(what, "yes", "no");
}

void Comparison::disagree(std::initializer_list<std::string> words) const {
    std::string call;
    for (const std::string &word : words) call += (call.empty() ? "" : " ") + word;
    throw Disagreement{call + "\n" + differences};
}

void report(const std::string &given, const Disagreement &d) {
    printf("disagreement\n  given    %s\n  call     %s", given.c_str(), d.what.c_str());
    fflush(stdout);
    exit(1);
}

void try_strip(const Bytes &strip, const std::function<void(const Bytes &)> &trial) {
    if (!disagrees(trial, strip)) return;
    Bytes small = shrunk<uint8_t>(strip, [&](const Bytes &less) { return disagrees(trial, less); });
    try {
        trial(small);
    } catch (const Disagreement &d) {
        report(shown_strip(small), d);
    }
}

/* The filing without a placement: those above it are one lower. */
static Filing without(const Filing &f, size_t p) {
    Filing less{f.n - 1, f.table};
    for (int16_t &e : less.table)
        if (size_of(e) >= p) e = (int16_t)(e < 0 ? e + 1 : e - 1);
    return less;
}

/* Fewer elements, then fewer placements. */
void try_filing(const Filing &filing, const std::function<void(const Filing &)> &trial) {
    if (!disagrees(trial, filing)) return;
    Filing f = filing;
    f.table = shrunk<int16_t>(f.table, [&](const Entries &less) { return disagrees(trial, Filing{f.n, less}); });
    for (size_t p = std::min(f.n, MAX_N); p > 0; p--) {
        auto stands = [&](int16_t e) { return size_of(e) == p; };
        bool named = std::any_of(f.table.begin(), f.table.end(), stands);
        if (!named && disagrees(trial, without(f, p))) f = without(f, p);
    }
    try {
        trial(f);
    } catch (const Disagreement &d) {
        report(shown(f), d);
    }
}

uint64_t &Tally::thing(const std::string &name) {
    for (auto &t : things)
        if (t.first == name) return t.second;
    things.emplace_back(name, 0);
    return things.back().second;
}

void Tally::show(const std::vector<std::pair<uint32_t, const char *>> &outcomes) const {
    auto count = [&](uint32_t number) { return numbers.count(number) ? numbers.at(number) : 0; };
    for (const auto &o : outcomes) printf("%s %lu\n", o.second, (unsigned long)count(o.first));
    for (const auto &n : numbers) {
        bool outcome = std::any_of(outcomes.begin(), outcomes.end(), [&](const auto &o) { return o.first == n.first; });
        if (!outcome) printf("refused %u: %lu\n", n.first, (unsigned long)n.second);
    }
    for (const auto &t : things) printf("%s %lu\n", t.first.c_str(), (unsigned long)t.second);
    printf("disagreements 0\n");
}

struct Case {
    const char *name;
    void (*run)();
};

static const Case cases[] = {
    {"hand", hand_trial},     {"check", check_trial},   {"index", index_trial}, {"search", search_trial},
    {"settle", settle_trial}, {"list", list_trial},     {"edits", edits_trial}, {"read", read_trial},
    {"save", save_trial},     {"window", window_trial}, {"trees", trees_trial},
    {"memory", memory_trial}, {"properties", properties_trial},
};

#ifdef WRONG
/* A line for each wrong program: its number, the case that must find it, and what is wrong. */
static int show_programs() {
    for (int i = 1; i < wrong::FAULTS; i++) printf("%d %s %s\n", i, wrong::programs[i].where, wrong::programs[i].what);
    return 0;
}
#endif

} // namespace trials

int main(int arguments, char **argument) {
#ifdef WRONG
    if (arguments == 2 && strcmp(argument[1], "programs") == 0) return trials::show_programs();
#endif
    trials::watch_fences();
    for (const trials::Case &c : trials::cases) {
        bool asked = arguments < 2;
        for (int i = 1; i < arguments; i++) asked = asked || strcmp(argument[i], c.name) == 0;
        if (!asked) continue;
        printf("%s\n", c.name);
        c.run();
    }
    printf("all disagreements 0\n");
    return 0;
}
