// Reads the text of a table: the whole text is split into lines and the lines into fields, and each is
// tested as a string of its own.
#pragma once

#include <charconv>
#include <cstddef>
#include <optional>
#include <string>
#include <variant>
#include <vector>

#include "text.hpp"

namespace table {

struct Move {
    int from;
    int label;
    int to;
};

struct Table {
    int states;
    int start;
    std::vector<Move> moves;
};

struct Refusal {
    int number;
    std::size_t line;
    int field;
};

using Reading = std::variant<Table, Refusal>;
using Fields = std::vector<std::string>;

constexpr std::size_t longest = 40960;
constexpr int most_states = 255;
constexpr int names = 32;
constexpr int send_labels = 32;
constexpr int silent_label = 64;

// Digits with no sign and no zero before them; `0` itself is one.
inline bool is_figure(const std::string& s) {
    if (s.empty() || s.find_first_not_of("0123456789") != std::string::npos) return false;
    return s == "0" || s.front() != '0';
}

// The number that a string is, where it is a figure from `low` up to, and without, `limit`.
inline std::optional<int> number_in(const std::string& s, int low, int limit) {
    // Every limit has at most three digits, so a longer figure is out of range, however long.
    if (!is_figure(s) || s.size() > 3) return std::nullopt;
    int n = 0;
    std::from_chars(s.data(), s.data() + s.size(), n);
    if (n < low || n >= limit) return std::nullopt;
    return n;
}

// The field of a line, counted from 1, as a number in a range; what is not one refuses the text.
inline int number_at(const Fields& fields, std::size_t line, int field, int low, int limit) {
    std::optional<int> n = number_in(fields[static_cast<std::size_t>(field) - 1], low, limit);
    if (!n) throw Refusal{2, line, field};
    return *n;
}

inline void expect_shape(const Fields& fields, std::size_t line, const std::string& kind, std::size_t many) {
    if (fields.front() != kind || fields.size() != many) throw Refusal{1, line, 0};
}

inline Table head_of(const Fields& fields) {
    expect_shape(fields, 1, "table", 3);
    int states = number_at(fields, 1, 2, 1, most_states + 1);
    int start = number_at(fields, 1, 3, 0, states);
    return Table{states, start, {}};
}

inline int label_of(const Fields& fields, std::size_t line) {
    const std::string& way = fields[2];
    if (way != "?" && way != "!" && way != "-") throw Refusal{3, line, 3};
    if (way == "-") {
        if (!fields[3].empty()) throw Refusal{3, line, 4};
        return silent_label;
    }
    int name = number_at(fields, line, 4, 0, names);
    return way == "?" ? name : name + send_labels;
}

inline Move move_of(const Fields& fields, std::size_t line, int states) {
    expect_shape(fields, line, "move", 5);
    int from = number_at(fields, line, 2, 0, states);
    int label = label_of(fields, line);
    int to = number_at(fields, line, 5, 0, states);
    return Move{from, label, to};
}

inline Table read_lines(const std::string& whole) {
    std::vector<std::string> lines = text::split(whole, '\n');
    // What follows the last line end: a line without its end, unless it is empty.
    std::string tail = lines.back();
    lines.pop_back();
    if (lines.empty()) throw Refusal{1, 1, 0};
    Table read = head_of(text::split(lines.front(), ','));
    for (std::size_t i = 1; i < lines.size(); ++i) {
        read.moves.push_back(move_of(text::split(lines[i], ','), i + 1, read.states));
    }
    if (!tail.empty()) throw Refusal{1, lines.size() + 1, 0};
    return read;
}

// A text as a table, with room for so many moves, or why it is refused.
inline Reading read(const std::string& whole, std::size_t room) {
    if (whole.size() > longest) return Refusal{4, 0, 0};
    try {
        Table read = read_lines(whole);
        if (read.moves.size() > room) return Refusal{4, 0, 0};
        return read;
    } catch (const Refusal& refusal) {
        return refusal;
    }
}

// The answer line of a reading: the figures of the table and each move, or those of the refusal.
inline std::string answer(const Reading& reading) {
    if (const Refusal* refusal = std::get_if<Refusal>(&reading)) {
        return "refused," + std::to_string(refusal->number) + "," + std::to_string(refusal->line) + "," + std::to_string(refusal->field);
    }
    const Table& read = std::get<Table>(reading);
    std::string line = "read," + std::to_string(read.states) + "," + std::to_string(read.start) + "," + std::to_string(read.moves.size());
    for (const Move& move : read.moves) {
        line += ";" + std::to_string(move.from) + " " + std::to_string(move.label) + " " + std::to_string(move.to);
    }
    return line;
}

}  // namespace table
