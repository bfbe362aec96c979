/* The drawing of layouts. */
#include "svg.hpp"

#include <algorithm>
#include <cmath>
#include <map>
#include <optional>
#include <set>

namespace command::svg {

namespace {

/* In pixels. */
constexpr size_t CELL_WIDTH = 104, CELL_HEIGHT = 76, MARGIN = 28, GAP = 36, HEADING = 34, TITLE = 24;
constexpr double LARGEST_LETTERS = 22, LETTER_WIDTH = 0.62;

/* A cell is drawn empty where this figure stands. */
constexpr std::string_view BLANK = "blank";

constexpr const char *COLOURS[] = {"#cfe3f5", "#fbe0c3", "#d5ecd0", "#f4d3dc", "#e3dbf3", "#fbf0bd",
                                   "#cdeae6", "#ead9c8", "#dfe6ea", "#f6cfc4", "#d8dff5", "#e6ecc4"};

bool is_digit(char byte) { return byte >= '0' && byte <= '9'; }

/* Numbers inside names by their size: 2 before 10. */
struct Natural {
    bool operator()(std::string_view a, std::string_view b) const {
        while (!a.empty() && !b.empty()) {
            size_t in_a = piece(a), in_b = piece(b);
            int order = is_digit(a[0]) && is_digit(b[0]) ? by_size(a.substr(0, in_a), b.substr(0, in_b))
                                                         : a.substr(0, in_a).compare(b.substr(0, in_b));
            if (order != 0) return order < 0;
            a.remove_prefix(in_a);
            b.remove_prefix(in_b);
        }
        return a.size() < b.size();
    }

    /* A run of digits, or one byte that is none. */
    static size_t piece(std::string_view text) {
        auto end = std::find_if_not(text.begin(), text.end(), is_digit);
        return std::max<size_t>(1, static_cast<size_t>(end - text.begin()));
    }

    /* As numbers; two that are equal by their digits, so that `1` and `01` stay apart. */
    static int by_size(std::string_view a, std::string_view b) {
        auto digits = [](std::string_view t) { return t.substr(std::min(t.find_first_not_of('0'), t.size())); };
        std::string_view x = digits(a), y = digits(b);
        if (x.size() != y.size()) return x.size() < y.size() ? -1 : 1;
        return x != y ? x.compare(y) : a.compare(b);
    }
};

struct Place {
    std::string figure, sheet, cell;
};

/* FIGURE@SHEET.CELL, cut at the last @ and the first point after it. */
std::optional<Place> place_of(const std::string &name) {
    size_t at = name.rfind('@');
    if (at == std::string::npos || at == 0) return std::nullopt;
    size_t point = name.find('.', at);
    if (point == std::string::npos || point == at + 1 || point + 1 == name.size()) return std::nullopt;
    return Place{name.substr(0, at), name.substr(at + 1, point - at - 1), name.substr(point + 1)};
}

std::string escaped(std::string_view text) {
    std::string safe;
    for (char byte : text) {
        switch (byte) {
        case '&': safe += "&amp;"; break;
        case '<': safe += "&lt;"; break;
        case '>': safe += "&gt;"; break;
        case '"': safe += "&quot;"; break;
        default: safe += byte;
        }
    }
    return safe;
}

size_t characters_in(std::string_view text) {
    size_t characters = 0;
    for (size_t at = 0; at < text.size(); at += character_length(text.substr(at))) characters++;
    return characters;
}

/* What stands in each sheet's cells in one layout. */
using Figures = std::map<std::pair<std::string, std::string>, std::vector<std::string>>;

class Drawing {
  public:
    Drawing(std::ostream &stream, const Set &set, size_t wanted_columns);
    void draw(const std::vector<std::vector<uint8_t>> &plans);

  private:
    std::ostream &out;
    std::map<size_t, Place> places; /* of the placements whose names have the form */
    std::map<std::string, std::set<std::string, Natural>, Natural> sheets;
    std::map<std::string, size_t, Natural> figures; /* and their colours */
    size_t columns, rows;

    size_t sheet_width() const { return columns * CELL_WIDTH; }
    size_t layout_height() const { return TITLE + rows * CELL_HEIGHT + GAP; }
    Figures figures_in(const std::vector<uint8_t> &plan) const;
    void draw_layout(const Figures &standing, size_t y);
    void draw_cell(const std::string &cell, const std::vector<std::string> &standing, size_t x, size_t y);
    void draw_figure(const std::vector<std::string> &standing, size_t x, size_t y);
    void text(const char *style, size_t x, size_t y, std::string_view words);
};

Drawing::Drawing(std::ostream &stream, const Set &set, size_t wanted_columns) : out(stream) {
    for (size_t p = 1; set.kind == Kind::names && p <= set.n; p++)
        if (std::optional<Place> place = place_of(set.names.at(p).text)) places[p] = *place;
    if (places.empty()) throw Fault("no placement has a name of the form FIGURE@SHEET.CELL to draw").in(set.source);
    size_t most_cells = 0;
    for (const auto &[p, place] : places) {
        figures[place.figure] = 0;
        sheets[place.sheet].insert(place.cell);
        most_cells = std::max(most_cells, sheets[place.sheet].size());
    }
    size_t colour = 0;
    for (auto &figure : figures) figure.second = colour++ % (sizeof COLOURS / sizeof *COLOURS);
    auto side = static_cast<size_t>(std::ceil(std::sqrt(static_cast<double>(most_cells))));
    columns = std::min(wanted_columns == 0 ? side : wanted_columns, most_cells);
    rows = (most_cells + columns - 1) / columns;
}

Figures Drawing::figures_in(const std::vector<uint8_t> &plan) const {
    Figures standing;
    for (const auto &[p, place] : places)
        if (plan[p - 1] && place.figure != BLANK) standing[{place.sheet, place.cell}].push_back(place.figure);
    return standing;
}

void Drawing::text(const char *style, size_t x, size_t y, std::string_view words) {
    out << "<text class=\"" << style << "\" x=\"" << x << "\" y=\"" << y << "\">" << escaped(words) << "</text>\n";
}

/* The letters become smaller where the name is long. */
void Drawing::draw_figure(const std::vector<std::string> &standing, size_t x, size_t y) {
    std::string words;
    for (const std::string &figure : standing) words += (words.empty() ? "" : " + ") + figure;
    double fitting = (CELL_WIDTH - 12) / (LETTER_WIDTH * static_cast<double>(characters_in(words)));
    double size = std::round(std::min(LARGEST_LETTERS, fitting) * 10) / 10;
    out << "<text class=\"figure\" font-size=\"" << size << "\" x=\"" << x + CELL_WIDTH / 2 << "\" y=\""
        << y + CELL_HEIGHT / 2 + 4 << "\">" << escaped(words) << "</text>\n";
}

void Drawing::draw_cell(const std::string &cell, const std::vector<std::string> &standing, size_t x, size_t y) {
    const char *colour = standing.empty() ? "#ffffff" : COLOURS[figures[standing[0]]];
    out << "<rect class=\"cell\" x=\"" << x << "\" y=\"" << y << "\" width=\"" << CELL_WIDTH << "\" height=\""
        << CELL_HEIGHT << "\" fill=\"" << colour << "\"/>\n";
    text("number", x + 6, y + 14, cell);
    if (!standing.empty()) draw_figure(standing, x, y);
}

void Drawing::draw_layout(const Figures &standing, size_t y) {
    size_t x = MARGIN;
    for (const auto &[sheet, cells] : sheets) {
        text("sheet", x, y + TITLE - 8, "sheet " + sheet);
        size_t i = 0;
        for (const std::string &cell : cells) {
            auto found = standing.find({sheet, cell});
            draw_cell(cell, found == standing.end() ? std::vector<std::string>() : found->second,
                      x + i % columns * CELL_WIDTH, y + TITLE + i / columns * CELL_HEIGHT);
            i++;
        }
        out << "<rect class=\"edge\" x=\"" << x << "\" y=\"" << y + TITLE << "\" width=\"" << sheet_width()
            << "\" height=\"" << rows * CELL_HEIGHT << "\"/>\n";
        x += sheet_width() + GAP;
    }
}

void Drawing::draw(const std::vector<std::vector<uint8_t>> &plans) {
    size_t heading = plans.size() > 1 ? HEADING : 0;
    size_t width = 2 * MARGIN + sheets.size() * (sheet_width() + GAP) - GAP;
    size_t height = 2 * MARGIN + plans.size() * (heading + layout_height()) - GAP;
    out << "<svg xmlns=\"http://www.w3.org/2000/svg\" width=\"" << width << "\" height=\"" << height
        << "\" viewBox=\"0 0 " << width << " " << height << "\" font-family=\"Helvetica, Arial, sans-serif\">\n"
        << "<style>\n.layout{font-size:18px;font-weight:bold;fill:#333}\n.sheet{font-size:14px;fill:#555}\n"
        << ".number{font-size:10px;fill:#888}\n.figure{text-anchor:middle;dominant-baseline:middle;fill:#222}\n"
        << ".cell{stroke:#c8c2b4}\n.edge{fill:none;stroke:#555;stroke-width:2}\n</style>\n"
        << "<rect width=\"100%\" height=\"100%\" fill=\"#f5f3ee\"/>\n";
    size_t y = MARGIN;
    for (size_t i = 0; i < plans.size(); i++) {
        if (heading != 0) text("layout", MARGIN, y + HEADING / 2, "layout " + std::to_string(i + 1));
        draw_layout(figures_in(plans[i]), y + heading);
        y += heading + layout_height();
    }
    out << "</svg>\n";
}

}

void draw(std::ostream &out, const Set &set, const std::vector<std::vector<uint8_t>> &plans, size_t columns) {
    Drawing(out, set, columns).draw(plans);
}

}
