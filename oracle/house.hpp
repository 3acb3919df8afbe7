// A house by its history: the calls that were taken are kept as a list, and what stands in a seat is looked up in it,
// from the last call back.
#pragma once

#include <cstddef>
#include <cstdint>
#include <optional>
#include <string>
#include <variant>
#include <vector>

#include "judge.hpp"
#include "machine.hpp"
#include "source_cases.hpp"
#include "table.hpp"

namespace house {

constexpr std::size_t seats = 6;
constexpr std::size_t most_tables = 12;
constexpr std::size_t most_moves = 1024;

// ---- Calls ----

struct Enter {
    std::string text;
};

struct Seat {
    std::size_t seat;
    std::size_t contract;
};

struct Fit {
    std::size_t seat;
    std::size_t module;
    std::optional<std::size_t> helper;
    std::uint32_t hidden;
    std::size_t room;
};

struct Unfit {
    std::size_t seat;
};

struct Clear {
    std::size_t seat;
};

using Call = std::variant<Enter, Seat, Fit, Unfit, Clear>;

// ---- What the calls that were taken come to ----

using History = std::vector<Call>;

inline std::vector<table::Table> tables_of(const History& taken) {
    std::vector<table::Table> tables;
    for (const Call& call : taken) {
        if (const Enter* enter = std::get_if<Enter>(&call)) tables.push_back(std::get<table::Table>(table::read(enter->text, most_moves)));
    }
    return tables;
}

// The contract that the last seat call put there, unless the seat was cleared since.
inline std::optional<std::size_t> contract_at(const History& taken, std::size_t seat) {
    for (auto call = taken.rbegin(); call != taken.rend(); ++call) {
        const Clear* clear = std::get_if<Clear>(&*call);
        if (clear != nullptr && clear->seat == seat) return std::nullopt;
        const Seat* put = std::get_if<Seat>(&*call);
        if (put != nullptr && put->seat == seat) return put->contract;
    }
    return std::nullopt;
}

// What the last fit judged there, unless it was taken away since.
inline std::optional<Fit> fitted_at(const History& taken, std::size_t seat) {
    for (auto call = taken.rbegin(); call != taken.rend(); ++call) {
        const Clear* clear = std::get_if<Clear>(&*call);
        const Unfit* unfit = std::get_if<Unfit>(&*call);
        if ((clear != nullptr && clear->seat == seat) || (unfit != nullptr && unfit->seat == seat)) return std::nullopt;
        const Fit* fit = std::get_if<Fit>(&*call);
        if (fit != nullptr && fit->seat == seat) return *fit;
    }
    return std::nullopt;
}

// ---- One call ----

struct Answer {
    bool is_taken;
    std::string line;
};

inline Answer refused(int number) { return {false, "refused," + std::to_string(number)}; }

inline Answer answer(const History& taken, const Enter& call) {
    const table::Reading reading = table::read(call.text, table::longest);
    if (const table::Refusal* refusal = std::get_if<table::Refusal>(&reading)) {
        return {false, "refused," + std::to_string(refusal->number) + "," + std::to_string(refusal->line) + "," + std::to_string(refusal->field)};
    }
    const std::vector<table::Table> tables = tables_of(taken);
    std::size_t moves = std::get<table::Table>(reading).moves.size();
    for (const table::Table& old : tables) moves += old.moves.size();
    if (tables.size() >= most_tables || moves > most_moves) return {false, "refused,4,0,0"};
    return {true, "table," + std::to_string(tables.size())};
}

inline Answer answer(const History& taken, const Seat& call) {
    if (call.seat >= seats) return refused(5);
    if (call.contract >= tables_of(taken).size()) return refused(8);
    if (contract_at(taken, call.seat)) return refused(7);
    return {true, "done"};
}

inline Answer answer(const History& taken, const Unfit& call) {
    if (call.seat >= seats) return refused(5);
    if (!contract_at(taken, call.seat)) return refused(6);
    if (!fitted_at(taken, call.seat)) return refused(9);
    return {true, "done"};
}

inline Answer answer(const History& taken, const Clear& call) {
    if (call.seat >= seats) return refused(5);
    if (!contract_at(taken, call.seat)) return refused(6);
    return {true, "done"};
}

inline Answer answer(const History& taken, const Fit& call, judge::Bytes& workspace) {
    if (call.seat >= seats) return refused(5);
    const std::optional<std::size_t> contract = contract_at(taken, call.seat);
    if (!contract) return refused(6);
    const std::vector<table::Table> tables = tables_of(taken);
    if (call.module >= tables.size() || (call.helper && *call.helper >= tables.size())) return refused(8);
    machine::Pile pile = machine::of_table(tables[call.module]);
    if (call.helper) pile = machine::parallel(pile, machine::of_table(tables[*call.helper]));
    pile = machine::restricted(pile, source_cases::names_in(call.hidden));
    const auto outcome = judge::run(pile, machine::of_table(tables[*contract]), workspace);
    if (const int* number = std::get_if<int>(&outcome)) return refused(*number);
    const judge::Verdict& verdict = std::get<judge::Verdict>(outcome);
    if (std::holds_alternative<judge::Yes>(verdict.what)) return {true, judge::told(verdict)};
    const judge::No& no = std::get<judge::No>(verdict.what);
    const auto& [clause, label, to] = no.failing;
    return {false, "refused,12," + std::to_string(no.round) + "," + std::to_string(clause) + "," + judge::label_told(label) + "," + std::to_string(to)};
}

// ---- The seats ----

inline std::string seat_told(const History& taken, std::size_t seat) {
    const std::optional<std::size_t> contract = contract_at(taken, seat);
    if (!contract) return "-";
    const std::optional<Fit> fitted = fitted_at(taken, seat);
    if (!fitted) return std::to_string(*contract);
    const std::string helper = fitted->helper ? std::to_string(*fitted->helper) : "-";
    return std::to_string(*contract) + ":" + std::to_string(fitted->module) + "," + helper + "," + std::to_string(fitted->hidden);
}

inline std::string seats_told(const History& taken) {
    std::string line;
    for (std::size_t seat = 0; seat < seats; ++seat) line += " " + seat_told(taken, seat);
    return line;
}

}  // namespace house
