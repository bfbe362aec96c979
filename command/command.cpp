/* What each command does. */
#include "command.hpp"

#include <cerrno>
#include <cstring>
#include <iomanip>
#include <sstream>

#include "json.hpp"
#include "operations.hpp"
#include "print.hpp"
#include "refusal.hpp"
#include "standing.hpp"
#include "svg.hpp"

namespace command {

namespace {

int status_of(const platewright_answer &answer) {
    switch (answer.number) {
    case PLATEWRIGHT_NO_LAYOUT: return NO_LAYOUT;
    case PLATEWRIGHT_STOPPED: return STOPPED;
    default: return DONE;
    }
}

Set read_set(const Options &options, World &world) {
    Set set = set_of(read_input(options.file, world.in));
    check(set);
    return set;
}

void tell_progress(World &world, const Searched &s) {
    world.err << "platewright: allowance " << s.allowance << ": " << words_of(s.answer.number) << ", " << s.answer.count
              << " splits in " << std::fixed << std::setprecision(3) << s.seconds << " s\n";
}

/* A drawing of layouts; where there is none to draw, the outcome is told on standard error. */
int draw(const Options &options, World &world, const Set &set, const platewright_answer &answer,
         const std::vector<std::vector<uint8_t>> &plans) {
    bool laid_out = answer.number == PLATEWRIGHT_LAID_OUT;
    std::ostringstream nowhere; /* a set that can't be drawn is refused all the same */
    svg::draw(laid_out ? world.out : nowhere, set, plans, options.columns);
    if (!laid_out) world.err << "platewright: " << words_of(answer.number) << "\n";
    return status_of(answer);
}

int run_count(const Options &options, World &world, const Set &set) {
    Counted counted = count(set, options.allowance);
    (options.json ? json::counted : print::counted)(world.out, counted);
    return status_of(counted.answer);
}

void write_file(const std::string &name, const std::string &bytes) {
    std::FILE *file = std::fopen(name.c_str(), "wb");
    bool written = file && std::fwrite(bytes.data(), 1, bytes.size(), file) == bytes.size();
    int why = errno;
    if (file && std::fclose(file) != 0 && written) {
        why = errno;
        written = false;
    }
    if (written) return;
    Fault fault("could not write", std::strerror(why));
    fault.status = CANNOT_READ_OR_WRITE;
    throw fault.in(name);
}

}

int run_check(const Options &options, World &world) {
    Set set = read_set(options, world);
    (options.json ? json::checked : print::checked)(world.out, set);
    return DONE;
}

int run_search(const Options &options, World &world) {
    Set set = read_set(options, world);
    auto each = [&](const Searched &s) {
        if (options.progress) tell_progress(world, s);
    };
    Searched searched = options.seconds ? search_for(set, *options.seconds, each) : search(set, options.allowance);
    if (!options.seconds) each(searched);
    if (options.svg) return draw(options, world, set, searched.answer, {searched.plan});
    (options.json ? json::searched : print::searched)(world.out, set, searched);
    return status_of(searched.answer);
}

int run_list(const Options &options, World &world) {
    Set set = read_set(options, world);
    if (options.count) return run_count(options, world, set);
    size_t most = most_rows(set.n);
    if (options.rows > most)
        throw Fault("--rows: at most " + std::to_string(most) + " for " + std::to_string(set.n) + " placements");
    Listed listed = list(set, options.rows, options.allowance);
    if (options.svg) return draw(options, world, set, listed.answer, listed.rows);
    (options.json ? json::listed : print::listed)(world.out, set, listed);
    return status_of(listed.answer);
}

int run_settle(const Options &options, World &world) {
    Set set = read_set(options, world);
    Settled settled = settle(set);
    (options.json ? json::settled : print::settled)(world.out, set, settled);
    return status_of(settled.answer);
}

int run_preview(const Options &options, World &world) {
    Set set = read_set(options, world);
    FurtherGroup group = further_group_of(set, options.group);
    Previewed previewed{settle(set), preview(set, group), group};
    (options.json ? json::previewed : print::previewed)(world.out, set, previewed);
    return status_of(previewed.after.answer);
}

int run_save(const Options &options, World &world) {
    bool to_output = options.output.empty() || options.output == "-";
    if (options.output.empty() && world.terminal && !options.json)
        throw Fault("a strip is no text for a terminal: use --output FILE, or --output - to see it all the same");
    std::string strip = save(read_set(options, world));
    if (!to_output) write_file(options.output, strip);
    if (options.json) json::saved(world.out, strip);
    else if (to_output) world.out << strip;
    return DONE;
}

int run_text(const Options &options, World &world) {
    Set set = read_set(options, world);
    if (options.numbers) (options.json ? json::as_numbers : print::as_numbers)(world.out, set);
    else (options.json ? json::as_names : print::as_names)(world.out, set);
    return DONE;
}

int answer(Act act, const Options &options, World &world) {
    try {
        return act(options, world);
    } catch (const Fault &fault) {
        world.err << "platewright: " << fault.message() << "\n";
        if (options.json) json::fault(world.out, fault);
        return fault.status;
    }
}

}
