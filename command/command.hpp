/* The commands: each reads the set that its options name, calls the library and writes the answer. */
#ifndef COMMAND_COMMAND_HPP
#define COMMAND_COMMAND_HPP

#include <cstdio>
#include <optional>
#include <ostream>
#include <string>

#include "operations.hpp"

namespace command {

/* What a command reads from and writes to. */
struct World {
    std::FILE *in;
    std::ostream &out;
    std::ostream &err;
    bool terminal; /* the output is shown to a person */
};

/* The layouts that are listed where nothing else is said. */
constexpr size_t ROWS = 10;

/* The options of all commands together. */
struct Options {
    std::string file = "-";
    bool json = false;
    uint32_t allowance = ALLOWANCE;
    std::optional<double> seconds;
    bool progress = false;
    size_t rows = ROWS;
    bool count = false;
    bool svg = false;
    size_t columns = 0;
    std::string group;
    std::string output;
    bool numbers = false;
};

/* Each gives the exit status, or throws a fault. */
using Act = int (*)(const Options &, World &);

int run_check(const Options &options, World &world);
int run_search(const Options &options, World &world);
int run_list(const Options &options, World &world);
int run_settle(const Options &options, World &world);
int run_preview(const Options &options, World &world);
int run_save(const Options &options, World &world);
int run_text(const Options &options, World &world);

/* The exit status; a fault is told on standard error, and in JSON where JSON is asked for. */
int answer(Act act, const Options &options, World &world);

}

#endif
