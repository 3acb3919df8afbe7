// Texts of tables, well formed and damaged as people and machines damage them.
#pragma once

#include <cstddef>
#include <cstdint>
#include <string>
#include <vector>

#include "random.hpp"
#include "table.hpp"
#include "text.hpp"

namespace table_cases {

using Lines = std::vector<table::Fields>;

inline Lines parted(const std::string& whole) {
    Lines lines;
    for (const std::string& line : text::split(whole, '\n')) lines.push_back(text::split(line, ','));
    return lines;
}

inline std::string joined(const Lines& lines) {
    std::vector<std::string> whole;
    for (const table::Fields& fields : lines) whole.push_back(text::join(fields, ','));
    return text::join(whole, '\n');
}

// ---- Well formed texts ----

inline std::string head_line(std::size_t states, std::size_t start) {
    return "table," + std::to_string(states) + "," + std::to_string(start) + "\n";
}

inline std::string move_line(Random& random, std::size_t states) {
    std::string line = "move," + std::to_string(random.below(states));
    switch (random.below(5)) {
        case 0: line += ",-,"; break;
        case 1: case 2: line += ",?," + std::to_string(random.below(32)); break;
        default: line += ",!," + std::to_string(random.below(32)); break;
    }
    return line + "," + std::to_string(random.below(states)) + "\n";
}

inline std::size_t some_states(Random& random) {
    switch (random.below(6)) {
        case 0: return random.between(1, 3);
        case 1: return random.between(250, 255);
        case 2: return random.between(1, 255);
        default: return random.between(2, 16);
    }
}

inline std::string with_moves(Random& random, std::size_t states, std::size_t moves) {
    std::string whole = head_line(states, random.below(states));
    std::string last;
    for (std::size_t i = 0; i < moves; ++i) {
        // Now and then a move is given twice.
        if (last.empty() || !random.one_in(12)) last = move_line(random, states);
        whole += last;
    }
    return whole;
}

inline std::string well_formed(Random& random) {
    return with_moves(random, some_states(random), random.one_in(10) ? 0 : random.between(1, 40));
}

// A well formed text of exactly so many bytes: moves of all widths, the last ones chosen to fit.
inline std::string of_length(Random& random, std::size_t bytes) {
    std::string whole = head_line(255, 0);
    while (bytes - whole.size() > 60) whole += move_line(random, 255);
    // Silent moves are 12 to 16 bytes long by their figures, and four or fewer reach any gap up to 60.
    static const std::vector<std::string> fills = {
        "move,0,-,,0\n", "move,10,-,,0\n", "move,10,-,,20\n", "move,100,-,,20\n", "move,100,-,,200\n",
    };
    while (whole.size() < bytes) {
        std::size_t gap = bytes - whole.size();
        std::size_t lines = (gap + 15) / 16;
        whole += fills[gap / lines - 12];
    }
    return whole;
}

// ---- Damage ----

// A place of a number in a text, or none.
struct Cell {
    bool there;
    std::size_t line;
    std::size_t field;
};

inline Cell some_number(Random& random, const Lines& lines) {
    std::vector<Cell> cells;
    for (std::size_t l = 0; l < lines.size(); ++l) {
        for (std::size_t f = 1; f < lines[l].size(); ++f) {
            if (table::is_figure(lines[l][f])) cells.push_back(Cell{true, l, f});
        }
    }
    return cells.empty() ? Cell{false, 0, 0} : random.pick(cells);
}

// A line that reads as a move, or none.
inline Cell some_move(Random& random, const Lines& lines) {
    std::vector<Cell> cells;
    for (std::size_t l = 0; l < lines.size(); ++l) {
        if (lines[l].size() == 5) cells.push_back(Cell{true, l, 0});
    }
    return cells.empty() ? Cell{false, 0, 0} : random.pick(cells);
}

// A decimal figure plus a power of two, digit by digit, so that no width limits it.
inline std::string plus_power(std::string digits, unsigned power) {
    std::string two = "1";
    for (unsigned i = 0; i < power; ++i) {
        int carry = 0;
        for (std::size_t k = two.size(); k-- > 0;) {
            int d = (two[k] - '0') * 2 + carry;
            two[k] = static_cast<char>('0' + d % 10);
            carry = d / 10;
        }
        if (carry > 0) two.insert(two.begin(), '1');
    }
    std::string sum;
    int carry = 0;
    for (std::size_t k = 0; k < digits.size() || k < two.size() || carry > 0; ++k) {
        int a = k < digits.size() ? digits[digits.size() - 1 - k] - '0' : 0;
        int b = k < two.size() ? two[two.size() - 1 - k] - '0' : 0;
        sum.insert(sum.begin(), static_cast<char>('0' + (a + b + carry) % 10));
        carry = (a + b + carry) / 10;
    }
    return sum;
}

inline std::string digits_of(Random& random, std::size_t many) {
    std::string s(1, static_cast<char>('1' + random.below(9)));
    while (s.size() < many) s += static_cast<char>('0' + random.below(10));
    return s;
}

inline std::string bad_number(Random& random, const std::string& good) {
    switch (random.below(17)) {
        case 0: return "";
        case 1: return "0" + good;
        case 2: return "00";
        case 3: return "+" + good;
        case 4: return "-" + good;
        case 5: return " " + good;
        case 6: return good + " ";
        case 7: return good + "\t";
        case 8: return "0x" + good;
        case 9: return good + ".0";
        case 10: return plus_power(good, 8);
        case 11: return plus_power(good, 16);
        case 12: return plus_power(good, 32);
        case 13: return plus_power(good, 64);
        case 14: return plus_power(good, 128);
        case 15: return digits_of(random, random.between(4, 40));
        default: return std::to_string(random.between(256, 999));
    }
}

inline void damage_number(Random& random, std::string& whole) {
    Lines lines = parted(whole);
    Cell cell = some_number(random, lines);
    if (!cell.there) return;
    std::string& field = lines[cell.line][cell.field];
    field = bad_number(random, field);
    whole = joined(lines);
}

// A number just at its bound or past it.
inline void damage_bound(Random& random, std::string& whole) {
    Lines lines = parted(whole);
    if (lines[0].size() != 3) return;
    std::string states = lines[0][1];
    Cell move = some_move(random, lines);
    switch (random.below(5)) {
        case 0: lines[0][2] = states; break;
        case 1: lines[0][1] = random.one_in(2) ? "0" : "256"; break;
        case 2: if (move.there) lines[move.line][1] = states; break;
        case 3: if (move.there) lines[move.line][4] = states; break;
        default: if (move.there) lines[move.line][3] = random.one_in(2) ? "32" : "31"; break;
    }
    whole = joined(lines);
}

inline void damage_way(Random& random, std::string& whole) {
    static const std::vector<std::string> ways = {"", "??", "!!", "?!", "--", "->", "send", "recv", "x", " ?", "? ", "0", "\xc2\xbf", "_", "--"};
    Lines lines = parted(whole);
    Cell move = some_move(random, lines);
    if (!move.there) return;
    lines[move.line][2] = random.pick(ways);
    whole = joined(lines);
}

inline void damage_name(Random& random, std::string& whole) {
    static const std::vector<std::string> names = {"0", "31", "32", "x", " ", "-", "00", "\t"};
    Lines lines = parted(whole);
    Cell move = some_move(random, lines);
    if (!move.there) return;
    std::string& name = lines[move.line][3];
    if (random.one_in(2)) {
        lines[move.line][2] = "-";
        name = random.pick(names);
    } else if (lines[move.line][2] != "-") {
        name = "";
    } else {
        lines[move.line][2] = random.one_in(2) ? "?" : "!";
    }
    whole = joined(lines);
}

inline void damage_kind(Random& random, std::string& whole) {
    static const std::vector<std::string> kinds = {"", "Table", "TABLE", "tables", "tabl", "move", "moves", "Move", "mov", " move", "move ", "table", "#", "row", "\xef\xbb\xbftable"};
    Lines lines = parted(whole);
    std::size_t line = random.below(lines.size());
    lines[line][0] = random.pick(kinds);
    whole = joined(lines);
}

inline void damage_fields(Random& random, std::string& whole) {
    Lines lines = parted(whole);
    table::Fields& fields = lines[random.below(lines.size())];
    std::size_t at = random.below(fields.size());
    auto place = fields.begin() + static_cast<std::ptrdiff_t>(at);
    switch (random.below(5)) {
        case 0: fields.insert(place, random.one_in(2) ? "" : std::to_string(random.below(40))); break;
        case 1: fields.push_back(""); break;
        case 2: fields.push_back(std::to_string(random.below(40))); break;
        case 3: std::swap(fields[at], fields[random.below(fields.size())]); break;
        default: fields.erase(place); break;
    }
    if (fields.empty()) fields.push_back("");
    whole = joined(lines);
}

inline void damage_lines(Random& random, std::string& whole) {
    std::vector<std::string> lines = text::split(whole, '\n');
    std::size_t at = random.below(lines.size());
    auto place = lines.begin() + static_cast<std::ptrdiff_t>(at);
    switch (random.below(6)) {
        case 0: lines.insert(place, ""); break;
        case 1: lines.push_back(""); break;
        case 2: lines.insert(place, lines[0]); break;
        case 3: lines.insert(place, "# a note"); break;
        case 4: std::swap(lines[0], lines[at]); break;
        default: lines.erase(lines.begin()); break;
    }
    whole = text::join(lines, '\n');
}

inline void damage_ends(Random& random, std::string& whole) {
    std::vector<std::size_t> ends;
    for (std::size_t i = 0; i < whole.size(); ++i) {
        if (whole[i] == '\n') ends.push_back(i);
    }
    if (ends.empty()) return;
    std::size_t at = random.pick(ends);
    switch (random.below(6)) {
        case 0: whole.erase(ends.back()); break;
        case 1: whole.erase(at, 1); break;
        case 2: whole.insert(at, "\r"); break;
        case 3: whole[at] = '\r'; break;
        case 4: whole[at] = random.one_in(2) ? ' ' : '\0'; break;
        default: for (std::size_t k = ends.size(); k-- > 0;) whole.insert(ends[k], "\r"); break;
    }
}

// What a disk, a wire or a stray key does to single bytes.
inline void damage_bytes(Random& random, std::string& whole) {
    std::size_t at = random.below(whole.size() + 1);
    switch (random.below(7)) {
        case 0: whole.insert(at, 1, '\0'); break;
        case 1: whole.insert(at, 1, static_cast<char>(random.between(128, 255))); break;
        case 2: whole.insert(at, 1, static_cast<char>(random.below(256))); break;
        case 3: if (at < whole.size()) whole[at] = static_cast<char>(whole[at] ^ (1 << random.below(8))); break;
        case 4: if (at < whole.size()) whole[at] = static_cast<char>(random.below(256)); break;
        case 5: if (at < whole.size()) whole.erase(at, 1); break;
        default: whole.erase(at); break;
    }
}

inline void damage_marks(Random& random, std::string& whole) {
    static const std::vector<char> marks = {';', ' ', '\t', '.', '|', '%'};
    char mark = random.pick(marks);
    bool all = random.one_in(2);
    for (std::size_t i = 0; i < whole.size(); ++i) {
        if (whole[i] == ',' && (all || random.one_in(6))) whole[i] = mark;
    }
}

inline void damage(Random& random, std::string& whole) {
    switch (random.below(16)) {
        case 0: case 1: case 2: damage_number(random, whole); break;
        case 3: case 4: damage_bound(random, whole); break;
        case 5: case 6: damage_way(random, whole); break;
        case 7: case 8: damage_name(random, whole); break;
        case 9: damage_kind(random, whole); break;
        case 10: damage_fields(random, whole); break;
        case 11: damage_lines(random, whole); break;
        case 12: damage_ends(random, whole); break;
        case 13: case 14: damage_bytes(random, whole); break;
        default: damage_marks(random, whole); break;
    }
}

// ---- The cases ----

// Texts at each bound and of each kind of fault, written as the case lines have them.
inline const std::vector<std::string>& set_texts() {
    static const std::vector<std::string> lines = {
        "", "|", "||", ",", "table", "table|", "table,3|", "table,3,1", "table,3,1|", "table,3,1||", "table,3,1,|", "table,3,1,0|",
        "table,1,0|", "table,255,254|", "table,255,255|", "table,256,0|", "table,0,0|", "table,1,1|", "table,5,5|", "table,10,9|",
        "table,,0|", "table,3,|", "table,,|", "table,a,0|", "table,3,a|", "table,03,0|", "table,3,00|", "table,3,01|", "table,00,0|",
        "table,+3,0|", "table,3,+1|", "table,-3,0|", "table,3,-1|", "table,3,-0|", "table, 3,0|", "table,3 ,0|", "table,3, 0|", "table,3,0 |",
        "table,257,0|", "table,511,0|", "table,512,0|", "table,65537,0|", "table,65791,0|", "table,4294967299,0|", "table,18446744073709551619,0|",
        "table,340282366920938463463374607431768211459,0|", "table,99999999999999999999999999999999999999999,0|", "table,3,256|", "table,3,257|",
        "table,3,65536|", "table,3,4294967296|", "table,3,18446744073709551616|", "table,3,18446744073709551617|", "table,1000,0|", "table,2550,0|",
        "Table,3,1|", "TABLE,3,1|", "tables,3,1|", "tabl,3,1|", " table,3,1|", "table ,3,1|", ",3,1|", "move,3,1|", "move,0,?,0,0|",
        "%ef%bb%bftable,3,1|", "table,3,1%0d|", "table,3,1%0d|move,0,?,0,1%0d|", "table%0d|", "table,3%0d,1|", "table,3,1%0dmove,0,?,0,1%0d",
        "table,3,1%00|", "%00table,3,1|", "table,%00,1|", "table,3%00,1|", "%00", "%00|", "table,3,1|%00", "table,3,1|%00|", "table,3,1|move,0,?,0,1|%00",
        "table,%ff,0|", "table,3,%b1|", "table,%ef%bc%93,0|", "%ff%fet%00a%00b%00l%00e%00|", "table,3,1|move,0,%bf,0,1|", "table,3,1|move,0,?,%80,1|",
        "table;3;1|", "table 3 1|", "table%2c3%2c1|", "table%7c3|", "%25table,3,1|", "table,3,1|#|", "# a note|table,3,1|", "|table,3,1|",
        "table,3,1|table,3,1|", "table,3,1|move,0,?,0,1|table,3,1|", "table,3,1|move,0,?,0,1||", "table,3,1||move,0,?,0,1|", "table,3,1|move,0,?,0,1|||",
        "table,3,1|move,0,?,0,1|", "table,3,1|move,0,?,0,1", "table,3,1|move,0,!,31,2|", "table,3,1|move,0,?,31,2|move,0,!,0,2|move,2,-,,2|",
        "table,3,1|move,0,?,32,2|", "table,3,1|move,0,!,32,2|", "table,3,1|move,0,!,64,2|", "table,3,1|move,0,?,256,2|", "table,3,1|move,0,?,4294967296,2|",
        "table,3,1|move,0,?,,2|", "table,3,1|move,0,!,,2|", "table,3,1|move,0,-,0,2|", "table,3,1|move,0,-,x,2|", "table,3,1|move,0,-, ,2|", "table,3,1|move,0,-,32,2|",
        "table,3,1|move,0,-,%0d,2|", "table,3,1|move,0,-,,2%0d|", "table,3,1|move,0,,0,2|", "table,3,1|move,0,,,2|", "table,3,1|move,0,??,0,2|", "table,3,1|move,0,-?,0,2|",
        "table,3,1|move,0,send,0,2|", "table,3,1|move,0,x,0,2|", "table,3,1|move,0,?%0d,0,2|", "table,3,1|move,0, ?,0,2|", "table,3,1|move,3,?,0,2|", "table,3,1|move,0,?,0,3|",
        "table,3,1|move,2,?,0,2|", "table,255,0|move,254,!,31,254|", "table,255,0|move,255,!,31,254|", "table,255,0|move,254,!,31,255|", "table,255,0|move,256,!,31,254|",
        "table,1,0|move,0,-,,0|move,0,-,,0|move,0,-,,0|", "table,1,0|move,1,-,,0|", "table,1,0|move,0,-,,1|", "table,3,1|move,00,?,0,2|", "table,3,1|move,0,?,00,2|",
        "table,3,1|move,0,?,0,02|", "table,3,1|move,+0,?,0,2|", "table,3,1|move,0,?,+1,2|", "table,3,1|move,0,?,0,-1|", "table,3,1|move,,?,0,2|", "table,3,1|move,0,?,0,|",
        "table,3,1|move,0,?,0|", "table,3,1|move,0,?|", "table,3,1|move,0|", "table,3,1|move|", "table,3,1|move,0,?,0,2,|", "table,3,1|move,0,?,0,2,0|", "table,3,1|,,,,|",
        "table,3,1|mov,0,?,0,2|", "table,3,1|moves,0,?,0,2|", "table,3,1|Move,0,?,0,2|", "table,3,1|,0,?,0,2|", "table,3,1|move,0,?,0,2|move", "table,3,1|move,0,?,0,2|,",
        // Two faults: the first in the order of the tests is told.
        "table,0,9", "table,0,0", "table,3,3|move,9,x,9,9|", "Table,0,0|", "table,0,x|", "table,256,256|", "table,3,1|move,9,x,0,0|", "table,3,1|move,0,x,99,0|",
        "table,3,1|move,0,x,0,9|", "table,3,1|move,0,?,99,9|", "table,3,1|move,0,-,0,9|", "table,3,1|move,9,?,0,9|", "table,3,1|mov,9,x,99,9|", "table,3,1|move,9,x,99|",
        "table,3,1|move,0,?,0,9|move,9,?,0,0|", "table,3,1|move,0,?,0,9|mov", "table,3,1|move,0,?,99,0|table,3,1|", "table,3,1|move,9,?,0,0", "table,3,3|move,0,?,0,0", "table,3,1|move,9|table",
    };
    return lines;
}

// Texts at the bounds of length and of room.
inline std::vector<std::string> long_texts(Random& random) {
    std::vector<std::string> texts;
    for (std::size_t moves : {1023u, 1024u, 1025u, 2000u}) texts.push_back(with_moves(random, 255, moves));
    texts.push_back(of_length(random, table::longest));
    texts.push_back(of_length(random, table::longest + 1));
    // Too long and faulty in its first line; full and faulty in its last byte.
    texts.push_back("tables" + of_length(random, table::longest));
    texts.push_back(of_length(random, table::longest));
    texts.back().back() = ' ';
    // More moves than there is room for, and a fault: in the head, in the middle, in the last line.
    std::string many = with_moves(random, 40, 1100);
    texts.push_back("T" + many.substr(1));
    std::vector<std::string> lines = text::split(many, '\n');
    lines[600] = "move,0,?,32,0";
    texts.push_back(text::join(lines, '\n'));
    texts.push_back(many + "move,0,?,0,40\n");
    texts.push_back(many + "move,0,?,0,0");
    // One line of the greatest length, with and without its end, and line ends alone.
    texts.push_back("table,3," + std::string(table::longest - 9, '1') + "\n");
    texts.push_back("table,3," + std::string(table::longest - 8, '1'));
    texts.push_back(std::string(table::longest, ','));
    texts.push_back("table,3,1\n" + std::string(table::longest - 10, '\n'));
    texts.push_back(std::string(table::longest + 1, '\n'));
    return texts;
}

// So many texts: the set ones, the long ones, and random ones of which about a quarter are damaged.
inline std::vector<std::string> make(std::uint64_t seed, std::size_t count) {
    Random random(seed);
    std::vector<std::string> texts;
    for (const std::string& line : set_texts()) texts.push_back(text::from_line(line));
    for (const std::string& whole : long_texts(random)) texts.push_back(whole);
    while (texts.size() < count) {
        std::string whole = well_formed(random);
        if (random.one_in(4)) {
            damage(random, whole);
            if (random.one_in(5)) damage(random, whole);
        }
        texts.push_back(whole);
    }
    texts.resize(count);
    return texts;
}

}  // namespace table_cases
