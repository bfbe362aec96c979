/* Text to words. */
#include "words.hpp"

namespace command {

namespace {

constexpr std::string_view BYTE_ORDER_MARK = "\xEF\xBB\xBF";

bool is_space(char byte) { return byte == ' ' || (byte >= '\t' && byte <= '\r'); }

bool continues(char byte) { return (static_cast<unsigned char>(byte) & 0xC0) == 0x80; }

/* The smallest character of so many bytes: a smaller one is written too long. */
constexpr uint32_t SMALLEST[] = {0, 0, 0x80, 0x800, 0x10000};

/* Surrogates, the control characters U+0080 to U+009F and what ends in FFFE or FFFF are no characters of a text. */
bool is_character(uint32_t value, size_t length) {
    bool surrogate = value >= 0xD800 && value <= 0xDFFF;
    bool control = value < 0xA0;
    bool none = (value & 0xFFFE) == 0xFFFE;
    return value >= SMALLEST[length] && value <= 0x10FFFF && !surrogate && !control && !none;
}

std::vector<std::string_view> split_lines(std::string_view text) {
    std::vector<std::string_view> lines;
    while (!text.empty()) {
        size_t end = text.find_first_of("\r\n");
        lines.push_back(text.substr(0, end));
        if (end == std::string_view::npos) break;
        text.remove_prefix(end + (text.substr(end, 2) == "\r\n" ? 2 : 1));
    }
    return lines;
}

std::vector<std::string_view> characters_of(const std::string &source, std::string_view line, size_t number) {
    std::vector<std::string_view> characters;
    while (!line.empty()) {
        size_t length = character_length(line);
        Spot spot{number, characters.size() + 1};
        if (length == 0) throw Fault("not a character of UTF-8 text").in(source, spot);
        if (is_control(line[0])) throw Fault("a control character").in(source, spot);
        characters.push_back(line.substr(0, length));
        line.remove_prefix(length);
    }
    return characters;
}

std::vector<Word> words_of(const std::vector<std::string_view> &characters, size_t number) {
    std::vector<Word> words;
    bool inside = false;
    for (size_t i = 0; i < characters.size(); i++) {
        if (is_space(characters[i][0])) {
            inside = false;
            continue;
        }
        if (!inside && characters[i] == "#") break;
        if (!inside) words.push_back({"", {number, i + 1}});
        inside = true;
        words.back().text += characters[i];
    }
    return words;
}

std::string quote_of(const std::vector<std::string_view> &characters) {
    std::string quote;
    bool gap = false;
    for (std::string_view character : characters) {
        if (is_space(character[0])) {
            gap = !quote.empty();
            continue;
        }
        if (gap) quote += ' ';
        gap = false;
        quote += character;
    }
    return quote;
}

}

size_t character_length(std::string_view text) {
    if (text.empty()) return 0;
    auto first = static_cast<unsigned char>(text[0]);
    if (first < 0x80) return 1;
    size_t length = first >= 0xF0 ? 4 : first >= 0xE0 ? 3 : 2;
    if (first < 0xC0 || first >= 0xF8 || text.size() < length) return 0;
    uint32_t value = first & (0x7Fu >> length);
    for (size_t i = 1; i < length; i++) {
        if (!continues(text[i])) return 0;
        value = value << 6 | (static_cast<unsigned char>(text[i]) & 0x3Fu);
    }
    return is_character(value, length) ? length : 0;
}

bool is_control(char byte) {
    auto value = static_cast<unsigned char>(byte);
    return (value < 0x20 && !is_space(byte)) || value == 0x7F;
}

std::vector<Line> lines_of(const std::string &source, std::string_view text) {
    if (text.substr(0, BYTE_ORDER_MARK.size()) == BYTE_ORDER_MARK) text.remove_prefix(BYTE_ORDER_MARK.size());
    std::vector<Line> lines;
    for (std::string_view line : split_lines(text)) {
        size_t number = lines.size() + 1;
        std::vector<std::string_view> characters = characters_of(source, line, number);
        lines.push_back({words_of(characters, number), quote_of(characters)});
    }
    return lines;
}

}
