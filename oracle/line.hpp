// The installer's line: the verdict on two texts, or why there is none, and what it leaves in the two buffers.
#pragma once

#include <algorithm>
#include <cstddef>
#include <string>
#include <utility>
#include <variant>
#include <vector>

#include "judge.hpp"
#include "machine.hpp"
#include "table.hpp"
#include "text.hpp"

namespace line {

using judge::Bytes;

constexpr std::size_t shortest_buffer = 40;
constexpr std::size_t move_room = 1024;
constexpr std::size_t longest_input = 40960;

inline std::string refused(int number, int which, std::size_t at, int field) {
    return "refused," + std::to_string(number) + "," + std::to_string(which) + "," + std::to_string(at) + "," + std::to_string(field);
}

// What the line says of two texts; a verdict fills the workspace.
inline std::string said(const std::string& module, const std::string& contract, Bytes& workspace) {
    std::vector<machine::Pile> machines;
    for (const std::string* whole : {&module, &contract}) {
        const table::Reading reading = table::read(*whole, move_room);
        const int which = static_cast<int>(machines.size()) + 1;
        if (const table::Refusal* refusal = std::get_if<table::Refusal>(&reading)) {
            return refused(refusal->number, which, refusal->line, refusal->field);
        }
        machines.push_back(machine::of_table(std::get<table::Table>(reading)));
    }
    const auto outcome = judge::run(machines[0], machines[1], workspace);
    if (const int* number = std::get_if<int>(&outcome)) return refused(*number, 0, 0, 0);
    return judge::told(std::get<judge::Verdict>(outcome));
}

// The texts before and behind the first empty line that has its end; without one the second is empty.
inline std::pair<std::string, std::string> parts_of(const std::string& input) {
    const std::vector<std::string> lines = text::split(input, '\n');
    for (std::size_t i = 0; i + 1 < lines.size(); ++i) {
        if (!lines[i].empty()) continue;
        std::string first;
        for (std::size_t k = 0; k < i; ++k) first += lines[k] + "\n";
        const auto behind = lines.begin() + static_cast<std::ptrdiff_t>(i) + 1;
        return {first, text::join(std::vector<std::string>(behind, lines.end()), '\n')};
    }
    return {input, ""};
}

inline std::string said_of_input(const std::string& input, Bytes& workspace) {
    if (input.size() > longest_input) return refused(4, 0, 0, 0);
    const auto [module, contract] = parts_of(input);
    return said(module, contract, workspace);
}

// Puts the line and its end at the front of the buffer, and tells how long that is.
inline std::size_t put(const std::string& what, Bytes& buffer) {
    const std::string whole = what + "\n";
    std::copy(whole.begin(), whole.end(), buffer.begin());
    return whole.size();
}

// The two calls.
inline std::size_t of_texts(const std::string& module, const std::string& contract, Bytes& workspace, Bytes& buffer) {
    return buffer.size() < shortest_buffer ? 0 : put(said(module, contract, workspace), buffer);
}

inline std::size_t of_input(const std::string& input, Bytes& workspace, Bytes& buffer) {
    return buffer.size() < shortest_buffer ? 0 : put(said_of_input(input, workspace), buffer);
}

}  // namespace line
