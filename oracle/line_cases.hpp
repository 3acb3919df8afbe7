// Cases of the installer's line: texts that are judged, damaged ones, and ones at every bound, with buffers of any length.
#pragma once

#include <cstddef>
#include <cstdint>
#include <optional>
#include <string>
#include <vector>

#include "judge_cases.hpp"
#include "line.hpp"
#include "random.hpp"
#include "source_cases.hpp"
#include "table_cases.hpp"
#include "text.hpp"

namespace line_cases {

constexpr std::size_t buffer_limit = 1000;
constexpr std::uint8_t untouched = judge_cases::untouched;

// The first call takes two texts, which part after so many bytes; the second takes all as one input.
struct Case {
    int call;
    std::size_t room;
    std::size_t buffer;
    std::size_t first;
    std::string bytes;
};

// ---- A case as a line ----

inline std::string to_line(const Case& made) {
    return std::to_string(made.call) + "," + std::to_string(made.room) + "," + std::to_string(made.buffer) + "," + std::to_string(made.first) + "," +
           text::to_line(made.bytes);
}

// Four numbers and a text, which may have commas of its own.
inline std::optional<Case> from_line(const std::string& line) {
    std::vector<std::size_t> numbers;
    std::size_t at = 0;
    for (std::uint64_t most : {std::uint64_t{2}, std::uint64_t{judge_cases::room_limit}, std::uint64_t{buffer_limit}, std::uint64_t{100000}}) {
        const std::size_t comma = line.find(',', at);
        if (comma == std::string::npos) return std::nullopt;
        const auto number = source_cases::number(line.substr(at, comma - at), most);
        if (!number) return std::nullopt;
        numbers.push_back(static_cast<std::size_t>(*number));
        at = comma + 1;
    }
    if (numbers[0] == 0) return std::nullopt;
    const Case made{static_cast<int>(numbers[0]), numbers[1], numbers[2], numbers[3], text::from_line(line.substr(at))};
    if (made.first > made.bytes.size()) return std::nullopt;
    return made;
}

// ---- The answer of a case ----

// How long the line is, and what both buffers hold then.
struct Left {
    std::size_t length;
    judge::Bytes buffer;
    judge::Bytes workspace;
};

inline bool operator==(const Left& a, const Left& b) { return a.length == b.length && a.buffer == b.buffer && a.workspace == b.workspace; }

inline Left left_by(const Case& made) {
    Left left{0, judge::Bytes(made.buffer, untouched), judge::Bytes(made.room, untouched)};
    left.length = made.call == 1 ? line::of_texts(made.bytes.substr(0, made.first), made.bytes.substr(made.first), left.workspace, left.buffer)
                                 : line::of_input(made.bytes, left.workspace, left.buffer);
    return left;
}

inline std::string answer(const Left& left) {
    const std::string buffer(left.buffer.begin(), left.buffer.end());
    return std::to_string(left.length) + ";" + text::to_line(buffer) + ";" + judge_cases::bytes_told(left.workspace);
}

inline std::string answer(const std::string& line) {
    const std::optional<Case> made = from_line(line);
    return made ? answer(left_by(*made)) : "unclear";
}

// ---- Cases that are set ----

inline Case of_input(const std::string& input, std::size_t room = 65536, std::size_t buffer = line::shortest_buffer) { return {2, room, buffer, 0, input}; }

inline Case of_texts(const std::string& module, const std::string& contract, std::size_t room = 65536, std::size_t buffer = line::shortest_buffer) {
    return {1, room, buffer, module.size(), module + contract};
}

inline std::string of_states(int states) { return "table," + std::to_string(states) + ",0\n"; }

// Where the first empty line stands, and where there is none.
inline void add_parts(std::vector<Case>& cases) {
    static const std::vector<std::string> inputs = {
        "", "\n", "\n\n", "\n\n\n", "table,1,0", "table,1,0\n", "table,1,0\n\n", "table,1,0\n\n\n", "\ntable,1,0\n", "\ntable,1,0\n\ntable,1,0\n",
        "table,1,0\n\ntable,1,0", "table,1,0\n\ntable,1,0\n", "table,1,0\n\ntable,1,0\n\n", "table,1,0\n\n\ntable,1,0\n", "table,1,0\ntable,1,0\n",
        "table,1,0\n \ntable,1,0\n", "table,1,0\n\r\ntable,1,0\n", "table,1,0\r\n\r\ntable,1,0\r\n", "table,2,0\n\ntable,1,1\n", "table,2,2\n\ntable,1,1\n",
        "x\n\ny\n", "x\n\n", "x", "table,1,0\nmove,0,?,0,0\n\ntable,1,0\nmove,0,?,0,0\n", "table,1,0\nmove,0,-,,0\n\ntable,2,0\nmove,0,?,0,1\n",
        "table,3,1\nmove,1,?,0,0\nmove,0,?,1,2\n\ntable,3,1\nmove,1,?,0,0\nmove,0,?,2,2\n", "table,2,0\nmove,0,!,31,1\n\ntable,1,0\n",
        "table,2,0\nmove,0,?,0,1\nmove,0,?,1,1\n\ntable,4,0\nmove,0,-,,1\nmove,0,-,,2\nmove,1,?,0,3\nmove,2,?,1,3\n",
    };
    for (const std::string& input : inputs) cases.push_back(of_input(input));
}

// Every length of the line buffer near its bound, and of the workspace near its own.
inline void add_buffers(std::vector<Case>& cases) {
    const std::string worked = "table,3,1\nmove,1,?,0,0\nmove,0,?,1,2\n";
    const std::string faulty = "table,3,3\n";
    for (std::size_t buffer : {0, 1, 16, 17, 39, 40, 41, 60}) {
        cases.push_back(of_input(worked + "\n" + worked, 36, buffer));
        cases.push_back(of_texts(worked, faulty, 36, buffer));
        if (buffer >= 39 && buffer <= 40) cases.push_back(of_input(std::string(line::longest_input + 1, 'x'), 0, buffer));
    }
    for (std::size_t room : {0, 1, 35, 36, 37}) {
        cases.push_back(of_texts(worked, worked, room));
        cases.push_back(of_texts(worked, faulty, room));
    }
    for (int states : {1, 254, 255}) cases.push_back(of_texts(of_states(states), "table,1,0\nmove,0,!,31,0\n"));
    for (int states : {1, 2}) cases.push_back(of_input(of_states(255) + "\n" + of_states(states)));
    cases.push_back(of_texts(of_states(255), of_states(255), 510 * 510));
}

// The longest texts and the most moves, in each of the two.
inline void add_long(Random& random, std::vector<Case>& cases) {
    const std::string one = "table,1,0\n";
    for (std::size_t moves : {1024, 1025}) {
        const std::string many = table_cases::with_moves(random, 3, moves);
        cases.push_back(of_texts(many, one));
        cases.push_back(of_texts(one, many));
        cases.push_back(of_texts(many, many));
    }
    for (std::size_t bytes : {table::longest, table::longest + 1}) {
        cases.push_back(of_texts(std::string(bytes, 'x'), one));
        cases.push_back(of_texts(one, std::string(bytes, 'x')));
        // One input that has one byte too many, or just not.
        cases.push_back(of_input(one + "\n" + std::string(bytes - one.size() - 1, 'x')));
        cases.push_back(of_input(one + std::string(bytes - one.size(), '\n')));
    }
}

// ---- Random cases ----

inline std::size_t some_buffer(Random& random) {
    if (random.one_in(12)) return random.below(line::shortest_buffer);
    return random.one_in(2) ? line::shortest_buffer : random.between(line::shortest_buffer, 60);
}

// A module and a contract that are often judged; one of four has a fault.
inline Case some_case(Random& random) {
    const judge_cases::Plan plan = judge_cases::some_plan(random);
    const judge_cases::Case judged = random.one_in(6) ? judge_cases::refusal_case(random) : judge_cases::plain_case(random, plan);
    std::string module = judged.texts[0];
    std::string contract = judged.texts[judge_cases::contract_text];
    if (random.one_in(8)) table_cases::damage(random, module);
    if (random.one_in(8)) table_cases::damage(random, contract);
    const std::size_t buffer = some_buffer(random);
    if (random.one_in(3)) return of_texts(module, contract, judged.room, buffer);
    if (random.one_in(16)) return of_input(module + contract, judged.room, buffer);
    std::string input = module + "\n" + contract;
    if (random.one_in(16)) input.insert(random.below(input.size() + 1), "\n");
    if (random.one_in(16)) input.erase(random.below(input.size()), 1);
    return of_input(input, judged.room, buffer);
}

// Tables of any size, mostly with a fault or too large for the workspace.
inline Case some_tables(Random& random) {
    std::string module = table_cases::well_formed(random);
    std::string contract = table_cases::well_formed(random);
    if (random.one_in(3)) table_cases::damage(random, module);
    if (random.one_in(3)) table_cases::damage(random, contract);
    const std::size_t room = random.below(900);
    return random.one_in(2) ? of_texts(module, contract, room, some_buffer(random)) : of_input(module + "\n" + contract, room, some_buffer(random));
}

// So many cases: the set ones, the long ones, and random ones.
inline std::vector<std::string> make(std::uint64_t seed, std::size_t count) {
    Random random(seed);
    std::vector<Case> cases;
    add_parts(cases);
    add_buffers(cases);
    add_long(random, cases);
    while (cases.size() < count) cases.push_back(random.one_in(8) ? some_tables(random) : some_case(random));
    cases.resize(count, cases.front());
    std::vector<std::string> lines;
    for (const Case& made : cases) lines.push_back(to_line(made));
    return lines;
}

}  // namespace line_cases
