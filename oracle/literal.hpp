// The definitions taken literally, for very small machines: every relation between the states is tried against both
// clauses, with every set of labels, and the largest relation is the union of those that meet them.
#pragma once

#include <cstddef>
#include <cstdint>
#include <set>
#include <utility>
#include <vector>

#include "judge.hpp"
#include "judge_cases.hpp"
#include "machine.hpp"
#include "random.hpp"

namespace literal {

using machine::Machine;
using Labels = std::set<int>;
using Pairs = std::set<std::pair<int, int>>;

// The states that zero or more silent moves lead to.
inline std::set<int> drifts(const Machine& m, int p) {
    std::set<int> states = {p};
    for (bool grown = true; grown;) {
        grown = false;
        for (const auto& [from, label, to] : m.moves) {
            if (machine::is_silent(label) && states.count(from) > 0) grown = states.insert(to).second || grown;
        }
    }
    return states;
}

// The states that silent moves and then one on the label lead to.
inline std::set<int> yields(const Machine& m, int p, int wanted) {
    std::set<int> states;
    for (int t : drifts(m, p)) {
        for (const auto& [from, label, to] : m.moves) {
            if (from == t && label == wanted) states.insert(to);
        }
    }
    return states;
}

// Stable, and no initial has its complement in X.
inline bool refuses(const Machine& m, int p, const Labels& X) {
    if (!machine::is_stable(m, p)) return false;
    for (int label : machine::initials(m, p)) {
        if (X.count(machine::complement(label)) > 0) return false;
    }
    return true;
}

// Silent moves lead to a state that refuses X and whose initials hold Y, a set of at most one label.
inline bool can_refuse(const Machine& m, int p, const Labels& X, const Labels& Y) {
    for (int t : drifts(m, p)) {
        const Labels initials = machine::initials(m, t);
        bool holds = true;
        for (int label : Y) holds = holds && initials.count(label) > 0;
        if (refuses(m, t, X) && holds) return true;
    }
    return false;
}

inline std::vector<Labels> subsets(const std::vector<int>& labels) {
    std::vector<Labels> all;
    for (std::uint32_t bits = 0; bits < (std::uint32_t{1} << labels.size()); ++bits) {
        Labels one;
        for (std::size_t i = 0; i < labels.size(); ++i) {
            if (bits >> i & 1) one.insert(labels[i]);
        }
        all.push_back(one);
    }
    return all;
}

// What the second clause asks of a pair, at every X and every Y over these labels.
inline bool second_clause(const Machine& P, const Machine& Q, int p, int q, const std::vector<int>& labels) {
    std::vector<Labels> ready = {{}};
    for (int label : labels) ready.push_back({label});
    for (const Labels& X : subsets(labels)) {
        for (const Labels& Y : ready) {
            if (can_refuse(P, p, X, Y) && !can_refuse(Q, q, X, Y)) return false;
        }
    }
    return true;
}

inline bool first_clause(const Machine& P, const Machine& Q, const Pairs& R, int p, int q, const std::vector<int>& labels) {
    for (int label : labels) {
        const std::set<int> answers = yields(Q, q, label);
        for (int to : yields(P, p, label)) {
            bool is_held = false;
            for (int other : answers) is_held = is_held || R.count({to, other}) > 0;
            if (!is_held) return false;
        }
    }
    return true;
}

// The union of all relations that meet both clauses.
inline Pairs largest(const Machine& P, const Machine& Q, const std::vector<int>& labels) {
    std::vector<std::pair<int, int>> all;
    for (int p = 0; p < P.states; ++p) {
        // A pair that fails the second clause is in no relation that meets it.
        for (int q = 0; q < Q.states; ++q) {
            if (second_clause(P, Q, p, q, labels)) all.emplace_back(p, q);
        }
    }
    Pairs joined;
    for (std::uint32_t bits = 0; bits < (std::uint32_t{1} << all.size()); ++bits) {
        Pairs R;
        for (std::size_t i = 0; i < all.size(); ++i) {
            if (bits >> i & 1) R.insert(all[i]);
        }
        bool meets = true;
        for (const auto& [p, q] : R) meets = meets && first_clause(P, Q, R, p, q, labels);
        if (meets) joined.insert(R.begin(), R.end());
    }
    return joined;
}

// The pairs that the judge leaves standing.
inline Pairs judged(const Machine& P, const Machine& Q) {
    const judge::View module = judge::view_of(P);
    const judge::View contract = judge::view_of(Q);
    const judge::Relation standing = judge::rounds_of(module, contract).back();
    Pairs pairs;
    for (int p = 0; p < P.states; ++p) {
        for (int q = 0; q < Q.states; ++q) {
            if (standing[judge::at(p)][judge::at(q)]) pairs.insert({p, q});
        }
    }
    return pairs;
}

// Both names in both directions, so that complements are among the labels.
inline std::vector<int> few_labels() {
    return {judge_cases::receive(0), judge_cases::receive(1), judge_cases::send(0), judge_cases::send(1)};
}

inline std::pair<Machine, Machine> some_pair(Random& random) {
    const judge_cases::Plan plan{few_labels(), random.between(2, 4)};
    const Machine P = judge_cases::some_machine(random, plan, static_cast<int>(random.between(1, 3)));
    if (random.one_in(2)) return {P, judge_cases::some_machine(random, plan, static_cast<int>(random.between(1, 3)))};
    return {P, judge_cases::broken(random, plan, P)};
}

// How many of so many random pairs disagree.
inline std::size_t disagreements(std::uint64_t seed, std::size_t count) {
    Random random(seed);
    std::size_t wrong = 0;
    for (std::size_t i = 0; i < count; ++i) {
        const auto [P, Q] = some_pair(random);
        if (largest(P, Q, few_labels()) != judged(P, Q)) wrong += 1;
    }
    return wrong;
}

// The first so many of those pairs, as cases for the judge.
inline std::vector<std::string> cases(std::uint64_t seed, std::size_t count) {
    Random random(seed);
    std::vector<std::string> lines;
    for (std::size_t i = 0; i < count; ++i) {
        const auto [P, Q] = some_pair(random);
        lines.push_back(judge_cases::to_line(judge_cases::of_tables(P, Q)));
    }
    return lines;
}

}  // namespace literal
