/* Commands and options, their help, and what is wrong with the words. */
#include "usage.hpp"

#include <CLI/CLI.hpp>

namespace command {

namespace {

/* Help in the command's own words. */
class Help : public CLI::Formatter {
    std::string make_usage(const CLI::App *app, std::string) const override {
        bool whole = app->get_parent() == nullptr;
        std::string name = whole ? "platewright COMMAND" : "platewright " + app->get_name();
        return "\nUsage: " + name + " [options] [FILE]\n";
    }
    std::string make_option_opts(const CLI::Option *option) const override {
        return option->get_positional() || option->get_type_size() == 0 ? "" : " " + option->get_type_name();
    }
};

/* CLI11 would read a number that begins with 0 as octal. */
const CLI::Validator DECIMAL(
    [](std::string &number) {
        bool digits = !number.empty() && number.find_first_not_of("0123456789") == std::string::npos;
        return digits && (number.size() == 1 || number[0] != '0') ? "" : number + " is no decimal number";
    },
    "");
const CLI::Validator SECONDS(
    [](std::string &number) {
        bool digits = !number.empty() && number.find_first_not_of("0123456789.") == std::string::npos;
        return digits ? "" : number + " is no time in seconds";
    },
    "");

CLI::App *add(CLI::App &app, Options &options, Act &act, const char *name, const char *does, Act own) {
    CLI::App *sub = app.add_subcommand(name, does)->group("Commands");
    sub->add_option("FILE", options.file, "the set; standard input if there is none, or -");
    sub->add_flag("--json", options.json, "print one JSON object");
    sub->footer("`platewright --help` tells the kinds of input and the exit status.");
    sub->callback([&act, own] { act = own; });
    return sub;
}

void add_drawing(CLI::App *sub, Options &options) {
    sub->add_flag("--svg", options.svg, "draw sheets, where names have the form FIGURE@SHEET.CELL")->excludes("--json");
    sub->add_option("--columns", options.columns, "columns of a drawn sheet")->type_name("N")->needs("--svg")
        ->check(DECIMAL);
}

void add_allowance(CLI::App *sub, Options &options) {
    sub->add_option("--allowance", options.allowance, "splits that are allowed (" + std::to_string(ALLOWANCE) + ")")
        ->type_name("N")->check(DECIMAL);
}

void add_searches(CLI::App &app, Options &options, Act &act) {
    CLI::App *sub = add(app, options, act, "search", "the first layout, no layout, or stopped", run_search);
    add_allowance(sub, options);
    sub->add_option("--time", options.seconds, "allowances that double until the time is used up")
        ->type_name("SECONDS")->check(SECONDS)->excludes("--allowance");
    sub->add_flag("--progress", options.progress, "tell each search on standard error");
    add_drawing(sub, options);

    sub = add(app, options, act, "list", "all layouts in order, and whether there are more", run_list);
    sub->add_option("--rows", options.rows, "layouts that are listed at most (" + std::to_string(ROWS) + ")")
        ->type_name("K")->check(DECIMAL);
    sub->add_flag("--count", options.count, "only say how many there are, or at least how many")->excludes("--rows");
    add_allowance(sub, options);
    add_drawing(sub, options);
    sub->get_option("--svg")->excludes("--count");
}

void add_commands(CLI::App &app, Options &options, Act &act) {
    add(app, options, act, "check", "is the set within the limits; else what is wrong, and where", run_check);
    add_searches(app, options, act);
    add(app, options, act, "settle", "what is settled of every placement, and by which group", run_settle);
    add(app, options, act, "preview", "what a further group would settle, marked * where it differs", run_preview)
        ->add_option("--group", options.group, "the group's entries, such as \"a -b c\"; must be given")
        ->type_name("ENTRIES")->required();
    add(app, options, act, "save", "the set as a strip", run_save)
        ->add_option("-o,--output", options.output, "the file to write; - for standard output")->type_name("FILE");
    add(app, options, act, "text", "the set as named text", run_text)
        ->add_flag("--numbers", options.numbers, "as plain numbers");
}

constexpr char FOOTER[] =
    "FILE may be a strip, plain numbers (the number of placements, then the table, each group closed by 0),\n"
    "or named text: a group's entries on each line, -x for \"x is left out\", # for comments, and perhaps\n"
    "a line `placements a b c` for the order of the placements.\n\n"
    "`platewright COMMAND --help` tells a command's options. Exit status: 0 laid out or done, 10 no layout,\n"
    "11 stopped, 2 refused or bad usage, 1 could not read or write.";

std::string usage_fault(const CLI::App *app, const CLI::Error &error) {
    std::string what = error.what();
    std::vector<std::string> unknown = app->remaining();
    if (app->get_subcommands().empty())
        what = unknown.empty() ? "a command is missing" : "no such command: " + unknown[0];
    return "platewright: " + what + "\nTry `platewright --help`.\n";
}

}

int run(int words, const char *const *word, World &world) {
    Options options;
    Act act = nullptr;
    CLI::App app("Lays out figures: in each group of a set exactly one entry must hold.", "platewright");
    app.formatter(std::make_shared<Help>());
    app.get_formatter()->label("Positionals", "Input");
    app.set_version_flag("--version", "platewright " PLATEWRIGHT_VERSION, "print the version and exit");
    app.set_help_flag("-h,--help", "print this help and exit");
    app.failure_message(usage_fault);
    app.require_subcommand(1);
    app.footer(FOOTER);
    add_commands(app, options, act);
    try {
        app.parse(words, word);
    } catch (const CLI::ParseError &stop) {
        bool asked = stop.get_exit_code() == 0;
        app.exit(stop, world.out, world.err);
        return asked ? DONE : REFUSED;
    }
    return answer(act, options, world);
}

}
