// Lists of calls on a house from a seed, each as one line, and what comes of every call.
#pragma once

#include <cstddef>
#include <cstdint>
#include <optional>
#include <string>
#include <utility>
#include <variant>
#include <vector>

#include "house.hpp"
#include "judge_cases.hpp"
#include "random.hpp"
#include "source_cases.hpp"
#include "table_cases.hpp"
#include "text.hpp"

namespace house_cases {

using house::Call;
using machine::Machine;

constexpr std::size_t most_number = 255;

// ---- A list of calls as a line ----

// The one-line form, in which `;` and a blank are escaped too, since they part calls and words.
inline std::string text_told(const std::string& whole) {
    std::string line;
    for (char c : text::to_line(whole)) {
        if (c == ';') {
            line += "%3b";
        } else if (c == ' ') {
            line += "%20";
        } else {
            line += c;
        }
    }
    return line;
}

struct Told {
    std::string operator()(const house::Enter& call) const { return "enter " + text_told(call.text); }
    std::string operator()(const house::Seat& call) const { return "seat " + std::to_string(call.seat) + " " + std::to_string(call.contract); }
    std::string operator()(const house::Fit& call) const {
        const std::string helper = call.helper ? std::to_string(*call.helper) : "-";
        return "fit " + std::to_string(call.seat) + " " + std::to_string(call.module) + " " + helper + " " + std::to_string(call.hidden) + " " + std::to_string(call.room);
    }
    std::string operator()(const house::Unfit& call) const { return "unfit " + std::to_string(call.seat); }
    std::string operator()(const house::Clear& call) const { return "clear " + std::to_string(call.seat); }
};

inline std::string to_line(const std::vector<Call>& calls) {
    std::vector<std::string> told;
    for (const Call& call : calls) told.push_back(std::visit(Told{}, call));
    return text::join(told, ';');
}

inline std::optional<std::size_t> figure(const std::string& word, std::size_t most) {
    const auto n = source_cases::number(word, most);
    if (!n) return std::nullopt;
    return static_cast<std::size_t>(*n);
}

inline std::optional<Call> call_of(const std::string& line) {
    const std::vector<std::string> words = text::split(line, ' ');
    auto at = [&](std::size_t i, std::size_t most = most_number) { return figure(words[i], most); };
    if (words[0] == "enter" && words.size() == 2) return house::Enter{text::from_line(words[1])};
    if (words[0] == "seat" && words.size() == 3 && at(1) && at(2)) return house::Seat{*at(1), *at(2)};
    if (words[0] == "unfit" && words.size() == 2 && at(1)) return house::Unfit{*at(1)};
    if (words[0] == "clear" && words.size() == 2 && at(1)) return house::Clear{*at(1)};
    if (words[0] != "fit" || words.size() != 6 || !at(1) || !at(2)) return std::nullopt;
    if (words[3] != "-" && !at(3)) return std::nullopt;
    const auto hidden = at(4, source_cases::all_names);
    const auto room = at(5, judge_cases::room_limit);
    if (!hidden || !room) return std::nullopt;
    const auto helper = words[3] == "-" ? std::nullopt : at(3);
    return house::Fit{*at(1), *at(2), helper, static_cast<std::uint32_t>(*hidden), *room};
}

// ---- Answers ----

// Every call in turn: its answer, the workspace that a fit was lent, and the seats after it.
inline std::string answer(const std::string& line) {
    house::History taken;
    std::vector<std::string> told;
    for (const std::string& piece : text::split(line, ';')) {
        const std::optional<Call> call = call_of(piece);
        if (!call) return "unclear";
        std::string bytes;
        house::Answer got = std::visit(
            [&](const auto& made) {
                if constexpr (std::is_same_v<std::decay_t<decltype(made)>, house::Fit>) {
                    judge::Bytes workspace(made.room, judge_cases::untouched);
                    house::Answer fitted = house::answer(taken, made, workspace);
                    bytes = " " + judge_cases::hash_told(workspace);
                    return fitted;
                } else {
                    return house::answer(taken, made);
                }
            },
            *call);
        if (got.is_taken) taken.push_back(*call);
        told.push_back(got.line + bytes + " |" + house::seats_told(taken));
    }
    return text::join(told, ';');
}

// ---- Random lists ----

// What the maker of a list knows of a table that was entered: which contract it was made for, if for one.
struct Known {
    Machine machine;
    std::optional<std::size_t> contract;
    std::optional<std::size_t> helper;
    std::uint32_t hidden;
};

inline std::size_t some_number(Random& random, std::size_t many) {
    if (random.one_in(12)) return random.between(many, many + 2);
    return random.below(many == 0 ? 1 : many);
}

inline std::string damaged(Random& random, std::string whole) {
    if (random.one_in(40)) return whole + std::string(table::longest, 'x');
    switch (random.below(4)) {
        case 0: return "";
        case 1: whole.pop_back(); return whole;
        case 2: whole[random.below(whole.size())] = random.pick(std::vector<char>{',', '\n', '?', '9', 'x', '\0', ' ', ';', '%'}); return whole;
        default: return whole + "move,0,-,0,0\n";
    }
}

// A text for the next table: a contract, a module for an earlier one, a helper and the module that wants it, or a fault.
struct Maker {
    Random& random;
    judge_cases::Plan plan;
    std::vector<Known> known;
    std::vector<Call> calls;

    void enter(const Machine& machine, std::optional<std::size_t> contract, std::optional<std::size_t> helper = std::nullopt, std::uint32_t hidden = 0) {
        calls.push_back(house::Enter{judge_cases::mixed_text(random, machine)});
        if (known.size() < house::most_tables) known.push_back({machine, contract, helper, hidden});
    }

    void enter_some() {
        if (random.one_in(8)) {
            calls.push_back(house::Enter{damaged(random, judge_cases::text_of(judge_cases::some_machine(random, plan, 3)))});
            return;
        }
        const Machine machine = judge_cases::some_machine(random, plan, judge_cases::some_size(random, 5));
        if (known.empty() || random.one_in(3)) return enter(machine, std::nullopt);
        const std::size_t at = random.below(known.size());
        if (random.one_in(4)) return enter_beside(machine);
        enter(judge_cases::module_for(random, plan, known[at].machine), at);
    }

    // A module and its helper, and a contract that the two keep or nearly keep.
    void enter_beside(const Machine& left) {
        const Machine right = judge_cases::some_machine(random, plan, judge_cases::some_size(random, 3));
        const std::uint32_t hidden = judge_cases::some_hidden(random, plan);
        const Machine both = *judge_cases::module_of(judge_cases::beside_hiding, hidden, left, right);
        const std::size_t first = known.size();
        enter(judge_cases::contract_for(random, plan, both), std::nullopt);
        enter(right, std::nullopt);
        enter(left, first, first + 1, hidden);
    }

    std::size_t some_room(std::size_t needed) {
        switch (random.below(16)) {
            case 0: return random.below(needed + 1);
            case 1: return needed == 0 ? 0 : needed - 1;
            case 2: return needed + random.between(1, 9);
            default: return needed;
        }
    }

    // Mostly a module at a seat with the contract it was made for.
    void fit_some(std::size_t seat) {
        if (known.empty() || random.one_in(8)) {
            const auto helper = random.one_in(2) ? std::optional<std::size_t>{} : some_number(random, known.size());
            calls.push_back(house::Fit{seat, some_number(random, known.size()), helper, judge_cases::some_hidden(random, plan), some_room(400)});
            return;
        }
        const std::size_t module = random.below(known.size());
        const Known& chosen = known[module];
        const std::size_t contract = chosen.contract.value_or(module);
        if (!random.one_in(4)) calls.push_back(house::Seat{seat, contract});
        std::size_t states = judge::at(chosen.machine.states);
        if (chosen.helper && *chosen.helper < known.size()) states *= judge::at(known[*chosen.helper].machine.states);
        const std::size_t side = states + (contract < known.size() ? judge::at(known[contract].machine.states) : 0);
        calls.push_back(house::Fit{seat, module, chosen.helper, chosen.hidden, some_room(side * side)});
    }

    void call_some() {
        const std::size_t seat = some_number(random, house::seats);
        switch (random.below(12)) {
            case 0: case 1: case 2: return enter_some();
            case 3: case 4: calls.push_back(house::Seat{seat, some_number(random, known.size())}); return;
            case 5: calls.push_back(house::Unfit{seat}); return;
            case 6: calls.push_back(house::Clear{seat}); return;
            default: return fit_some(seat);
        }
    }
};

inline std::string some_list(Random& random) {
    Maker maker{random, judge_cases::some_plan(random), {}, {}};
    for (std::size_t i = random.between(1, 4); i > 0; --i) maker.enter_some();
    for (std::size_t i = random.between(3, 25); i > 0; --i) maker.call_some();
    return to_line(maker.calls);
}

// ---- Lists at the bounds ----

inline Machine with_moves(std::size_t many) {
    Machine made{40, 0, {}};
    for (std::size_t i = 0; i < many; ++i) made.moves.insert({static_cast<int>(i / 40), 0, static_cast<int>(i % 40)});
    return made;
}

inline Machine idle(int states) { return Machine{states, states - 1, {}}; }

// Twelve tables and a 13th; 1,024 moves and one more; the 13th beats the moves, and a fault in the text beats both.
inline std::vector<std::string> full_lists() {
    std::vector<Call> tables;
    for (int i = 0; i < 13; ++i) tables.push_back(house::Enter{judge_cases::text_of(idle(i + 1))});
    tables.push_back(house::Enter{"table,1,1\n"});
    tables.push_back(house::Seat{5, 11});
    tables.push_back(house::Seat{5, 12});
    tables.push_back(house::Fit{5, 11, std::nullopt, 0, 576});
    std::vector<Call> moves;
    moves.push_back(house::Enter{judge_cases::text_of(with_moves(1000))});
    moves.push_back(house::Enter{judge_cases::text_of(with_moves(25))});
    moves.push_back(house::Enter{judge_cases::text_of(with_moves(24))});
    moves.push_back(house::Enter{judge_cases::text_of(with_moves(1))});
    moves.push_back(house::Enter{judge_cases::text_of(with_moves(0))});
    moves.push_back(house::Seat{0, 1});
    moves.push_back(house::Fit{0, 1, std::nullopt, 0, 6400});
    moves.push_back(house::Fit{0, 2, std::nullopt, 0, 6400});
    std::vector<Call> alone = {house::Enter{judge_cases::text_of(with_moves(1024))}, house::Enter{judge_cases::text_of(with_moves(1025))}};
    std::vector<Call> swapped = {house::Enter{judge_cases::text_of(with_moves(1025))}, house::Enter{judge_cases::text_of(with_moves(1024))}};
    return {to_line(tables), to_line(moves), to_line(alone), to_line(swapped)};
}

// 15 beside 17 states are judged, 16 beside 16 are not.
inline std::vector<std::string> wide_lists() {
    std::vector<Call> calls;
    for (int states : {15, 17, 16, 255}) calls.push_back(house::Enter{judge_cases::text_of(idle(states))});
    calls.push_back(house::Seat{2, 3});
    calls.push_back(house::Fit{2, 0, 1, 0, 260100});
    calls.push_back(house::Fit{2, 2, 2, 0, 260100});
    calls.push_back(house::Fit{2, 2, 2, 0, 0});
    calls.push_back(house::Fit{2, 0, 1, 0, 260099});
    calls.push_back(house::Fit{2, 3, std::nullopt, 0, 260100});
    calls.push_back(house::Fit{2, 3, 3, 0, 260100});
    return {to_line(calls)};
}

inline std::vector<std::string> make(std::uint64_t seed, std::size_t count) {
    std::vector<std::string> lines = full_lists();
    for (const std::string& line : wide_lists()) lines.push_back(line);
    Random random(seed);
    while (lines.size() < count) lines.push_back(some_list(random));
    lines.resize(count);
    return lines;
}

}  // namespace house_cases
