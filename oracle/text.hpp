// Splitting, joining and the one-line form in which a text stands among the cases.
#pragma once

#include <cstddef>
#include <string>
#include <vector>

namespace text {

// The pieces between the bytes `mark`: one more than there are marks.
inline std::vector<std::string> split(const std::string& whole, char mark) {
    std::vector<std::string> pieces;
    std::size_t from = 0;
    for (std::size_t at; (at = whole.find(mark, from)) != std::string::npos; from = at + 1) {
        pieces.push_back(whole.substr(from, at - from));
    }
    pieces.push_back(whole.substr(from));
    return pieces;
}

inline std::string join(const std::vector<std::string>& pieces, char mark) {
    std::string whole;
    for (std::size_t i = 0; i < pieces.size(); ++i) {
        if (i > 0) whole += mark;
        whole += pieces[i];
    }
    return whole;
}

// One line: `|` for byte 10, `%hh` for what is not printable ASCII and for `|` and `%` themselves.
inline std::string to_line(const std::string& whole) {
    static const char hex[] = "0123456789abcdef";
    std::string line;
    for (unsigned char byte : whole) {
        if (byte == '\n') {
            line += '|';
        } else if (byte < ' ' || byte > '~' || byte == '|' || byte == '%') {
            line += '%';
            line += hex[byte >> 4];
            line += hex[byte & 15];
        } else {
            line += static_cast<char>(byte);
        }
    }
    return line;
}

inline int hex_digit(char c) {
    if (c >= '0' && c <= '9') return c - '0';
    if (c >= 'a' && c <= 'f') return c - 'a' + 10;
    return -1;
}

// The text of such a line; a `%` without two lowercase hex digits after it stands for itself.
inline std::string from_line(const std::string& line) {
    std::string whole;
    for (std::size_t i = 0; i < line.size(); ++i) {
        bool coded = line[i] == '%' && i + 2 < line.size() && hex_digit(line[i + 1]) >= 0 && hex_digit(line[i + 2]) >= 0;
        if (coded) {
            whole += static_cast<char>(hex_digit(line[i + 1]) * 16 + hex_digit(line[i + 2]));
            i += 2;
        } else {
            whole += line[i] == '|' ? '\n' : line[i];
        }
    }
    return whole;
}

}  // namespace text
