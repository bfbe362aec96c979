/* The commands on inputs of any bytes, in-process: each gets an answer or an error, and one set in several kinds is
 * answered alike. Built with -DLIBFUZZER it is libFuzzer's target; else it makes its own inputs from fixed seeds:
 * random bytes, random words, and damaged sets of all three kinds.
 *
 *     fuzz [RUNS]
 *
 * prints how many inputs of each sort there were; a failure prints the input and aborts. */
#include <cstdlib>
#include <iostream>
#include <map>
#include <nlohmann/json.hpp>
#include <random>
#include <sstream>

#include "../../command/command.hpp"

namespace {

using namespace command;

constexpr uint32_t FEW_SPLITS = 40;

/* A command with its options. */
struct Question {
    Act act;
    Options options;
};

Question question(Act act, void (*set)(Options &) = [](Options &) {}) {
    Question q{act, Options()};
    q.options.allowance = FEW_SPLITS;
    q.options.rows = 3;
    set(q.options);
    return q;
}

const Question CHECK = question(run_check), SAVE = question(run_save), TEXT = question(run_text);
const Question NUMBERS = question(run_text, [](Options &o) { o.numbers = true; });
const Question DRAW = question(run_list, [](Options &o) { o.svg = true; });

/* Those that may be asked of every set. */
const Question QUESTIONS[] = {
    question(run_search),
    question(run_search, [](Options &o) { o.seconds = 0; }),
    question(run_list),
    question(run_list, [](Options &o) { o.count = true; }),
    question(run_settle),
};

/* Those whose group may be none for the set. */
const Question PREVIEWS[] = {
    question(run_preview, [](Options &o) { o.group = "1 -2"; }),
    question(run_preview, [](Options &o) { o.group = "a -b #c\n."; }),
    question(run_preview, [](Options &o) { o.group = "\xE2\x88\x92" "f1@2.1 f2@1.2"; }),
    question(run_preview, [](Options &o) { o.group = "."; }),
};

struct Ran {
    int status;
    std::string out, err;
};

Ran ran(const Question &q, const std::string &input) {
    std::ostringstream out, err;
    std::FILE *in = fmemopen(const_cast<char *>(input.data()), input.size(), "rb");
    if (!in) abort();
    World world{in, out, err, false};
    int status = answer(q.act, q.options, world);
    std::fclose(in);
    return {status, out.str(), err.str()};
}

void expect(bool holds, const char *what, const std::string &input) {
    if (holds) return;
    std::cerr << "failed: " << what << "\ninput, " << input.size() << " bytes:\n";
    for (char byte : input)
        std::cerr << (byte >= ' ' && byte < 127 ? std::string(1, byte) : "\\" + std::to_string(byte & 255));
    std::cerr << "\n";
    abort();
}

/* One of the five statuses, but nothing here can't be read; an error is told, and only an error. */
Ran sound(const Question &q, const std::string &input) {
    Ran r = ran(q, input);
    bool outcome = r.status == DONE || r.status == NO_LAYOUT || r.status == STOPPED;
    expect(outcome || r.status == REFUSED, "a status that the manual names", input);
    expect(outcome == r.err.empty(), "an error has a message, an answer has none", input);
    return r;
}

/* The same as one JSON object on one line, with the same status. */
Ran sound_in_json(Question q, const std::string &input) {
    Ran plain = sound(q, input);
    q.options.json = true;
    Ran r = sound(q, input);
    expect(r.status == plain.status, "--json has the same status", input);
    expect(nlohmann::json::accept(r.out), "--json prints one JSON object", input);
    expect(r.out.find('\n') == r.out.size() - 1, "--json prints one line", input);
    return plain;
}

/* A set as numbers, as names and as a strip is one set. */
void compare_kinds(const std::string &input) {
    std::string numbers = sound_in_json(NUMBERS, input).out;
    std::string names = sound_in_json(TEXT, input).out;
    expect(sound(NUMBERS, numbers).out == numbers, "numbers read back", input);
    expect(sound(NUMBERS, names).out == numbers, "named text reads back to the same set", input);
    expect(sound(TEXT, names).out == names, "named text reads back", input);
    Ran saved = sound_in_json(SAVE, input);
    if (saved.status == DONE) {
        expect(sound(NUMBERS, saved.out).out == numbers, "a saved strip reads back", input);
        expect(sound(SAVE, saved.out).out == saved.out, "a saved strip is saved alike", input);
    }
    for (const Question &q : QUESTIONS) {
        int status = sound_in_json(q, input).status;
        expect(status != REFUSED, "what check lets pass no question refuses", input);
        expect(status == sound(q, numbers).status, "numbers are answered alike", input);
        expect(status == sound(q, names).status, "names are answered alike", input);
    }
}

/* Whether the input is a set. */
bool try_input(const std::string &input) {
    bool set = sound_in_json(CHECK, input).status == DONE;
    if (set) compare_kinds(input);
    else expect(sound(SAVE, input).status == REFUSED, "what check refuses save refuses", input);
    for (const Question &q : PREVIEWS) {
        Ran r = sound_in_json(q, input);
        expect(set || r.status == REFUSED, "what check refuses preview refuses", input);
    }
    ran(DRAW, input);
    return set;
}

}

#ifdef LIBFUZZER

extern "C" int LLVMFuzzerTestOneInput(const uint8_t *data, size_t size) {
    try_input(std::string(reinterpret_cast<const char *>(data), size));
    return 0;
}

#else

namespace {

using Random = std::mt19937;

size_t below(Random &random, size_t limit) { return random() % limit; }

std::string random_bytes(Random &random) {
    std::string bytes(below(random, 60), ' ');
    for (char &byte : bytes) byte = static_cast<char>(random());
    return bytes;
}

std::string random_words(Random &random) {
    static const std::vector<std::string> WORDS = {
        "a", "-a", "b", "-b", "c@1.2", "d@1.1", "blank@2.1", "placements", "placements a b", ".", "-", "--a", "#",
        "# x", "+a", "0", "1", "2", "-2", "3", "257", "-32768", "32767", "32768", "99999999999999999999", "-0", "P",
        "\n", "\n", "\n", "\r\n", "\r", "\t", "\v", "\x1B", "\xC3\xA4", "\xC3",
        "\xE2\x88\x92", "\xE2\x88\x92" "b", "\xE2\x80\x93" "b", "\xEF\xBB\xBF"};
    std::string text;
    for (size_t i = below(random, 30); i > 0; i--) {
        text += WORDS[below(random, WORDS.size())];
        if (below(random, 5) != 0) text += " ";
    }
    return text;
}

std::string name_of(size_t p) {
    return "f" + std::to_string(p) + "@" + std::to_string(1 + p % 2) + "." + std::to_string(p);
}

/* A set of some placements, as one of the three kinds. */
std::string random_set(Random &random) {
    size_t n = 1 + below(random, 8);
    std::string numbers = std::to_string(n), strip = {'P', '\0', static_cast<char>(n)}, names = "placements";
    for (size_t p = 1; p <= n; p++) names += " " + name_of(p);
    for (size_t groups = 1 + below(random, 5); groups > 0; groups--) {
        size_t entries = below(random, 5);
        strip += 'G';
        names += entries == 0 ? "\n." : "\n";
        for (; entries > 0; entries--) {
            size_t p = 1 + below(random, n);
            bool minus = below(random, 3) == 0;
            numbers += (minus ? " -" : " ") + std::to_string(p);
            names += (minus ? " -" : " ") + name_of(p);
            strip += {minus ? 'L' : 'T', '\0', static_cast<char>(p)};
        }
        numbers += " 0";
        strip += 'E';
    }
    return std::vector<std::string>{numbers, names + "\n", strip + "Z"}[below(random, 3)];
}

/* Some bytes are changed, taken away or put in, or the end is cut. */
std::string damaged(Random &random, std::string bytes) {
    for (size_t i = below(random, 4); i > 0 && !bytes.empty(); i--) {
        size_t at = below(random, bytes.size());
        switch (below(random, 4)) {
        case 0: bytes[at] = static_cast<char>(random()); break;
        case 1: bytes.erase(at, 1 + below(random, 4)); break;
        case 2: bytes.insert(at, 1, " \n-#0.\0\xFF"[below(random, 8)]); break;
        default: bytes.resize(at);
        }
    }
    return bytes;
}

struct Sort {
    const char *name;
    std::string (*make)(Random &);
    size_t inputs = 0, sets = 0;
};

}

int main(int words, char **word) {
    size_t runs = words > 1 ? std::strtoul(word[1], nullptr, 10) : 4000;
    auto damaged_set = [](Random &random) { return damaged(random, random_set(random)); };
    Sort sorts[] = {{"random bytes", random_bytes}, {"random words", random_words}, {"damaged sets", damaged_set}};
    for (size_t seed = 0; seed < runs; seed++) {
        Random random(static_cast<uint32_t>(seed));
        Sort &sort = sorts[std::min<size_t>(seed % 4, 2)];
        sort.inputs++;
        sort.sets += try_input(sort.make(random));
    }
    for (const Sort &sort : sorts)
        std::cout << "fuzz: " << sort.inputs << " inputs of " << sort.name << ", " << sort.sets << " of them sets\n";
    return 0;
}

#endif
