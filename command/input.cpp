/* Reading, and telling the kinds of input apart. */
#include "input.hpp"

#include <algorithm>
#include <cerrno>
#include <cstring>
#include <memory>

#include "names.hpp"

namespace command {

namespace {

constexpr size_t FIRST_BYTES = 3, PART = 4096;

Fault cannot_read(const std::string &source) {
    Fault fault("could not read", std::strerror(errno));
    fault.status = CANNOT_READ_OR_WRITE;
    return fault.in(source);
}

/* Nothing is read past the first bytes that are too many. */
Input read_from(std::FILE *file, const std::string &source) {
    Input input{source, ""};
    char part[PART];
    while (size_t length = std::fread(part, 1, sizeof part, file)) {
        input.bytes.append(part, length);
        if (input.bytes.size() > MAX_INPUT)
            throw Fault("input of more than " + std::to_string(MAX_INPUT) + " bytes").in(source);
    }
    if (std::ferror(file)) throw cannot_read(source);
    return input;
}

}

Input read_input(const std::string &file, std::FILE *standard_input) {
    if (file == "-") return read_from(standard_input, "standard input");
    std::unique_ptr<std::FILE, int (*)(std::FILE *)> opened(std::fopen(file.c_str(), "rb"), std::fclose);
    if (!opened) throw cannot_read(file);
    return read_from(opened.get(), file);
}

bool is_strip(std::string_view bytes) {
    std::string_view first = bytes.substr(0, FIRST_BYTES);
    return std::any_of(first.begin(), first.end(), is_control);
}

Kind kind_of_text(const Input &input, const std::vector<Line> &lines) {
    for (const Line &line : lines)
        if (!line.words.empty()) return is_number(line.words[0].text) ? Kind::numbers : Kind::names;
    throw Fault("empty input: no strip, no numbers and no names").in(input.source);
}

}
