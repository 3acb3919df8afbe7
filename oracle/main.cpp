// Answers worked out apart from the library: cases from a seed, their answers, and texts to time.
#include <cstdint>
#include <cstdlib>
#include <fstream>
#include <iostream>
#include <iterator>
#include <string>
#include <vector>

#include "house_cases.hpp"
#include "judge_cases.hpp"
#include "line_cases.hpp"
#include "literal.hpp"
#include "source_cases.hpp"
#include "statement.hpp"
#include "table.hpp"
#include "table_cases.hpp"
#include "text.hpp"

namespace {

// The room for moves when cases are answered, and when a text of any length is timed.
constexpr std::size_t case_room = 1024;
constexpr std::size_t bench_room = 4096;

std::string all_of(std::istream& in) {
    return std::string(std::istreambuf_iterator<char>(in), std::istreambuf_iterator<char>());
}

// The lines of the input; what follows the last line end is one too, unless it is empty.
std::vector<std::string> lines_of(std::istream& in) {
    std::vector<std::string> lines = text::split(all_of(in), '\n');
    if (lines.back().empty()) lines.pop_back();
    return lines;
}

int write_table_cases(std::uint64_t seed, std::size_t count) {
    for (const std::string& whole : table_cases::make(seed, count)) std::cout << text::to_line(whole) << '\n';
    return 0;
}

int answer_table_cases() {
    for (const std::string& line : lines_of(std::cin)) {
        std::cout << table::answer(table::read(text::from_line(line), case_room)) << '\n';
    }
    return 0;
}

int write_source_cases(std::uint64_t seed, std::size_t count) {
    for (const std::string& line : source_cases::make(seed, count)) std::cout << line << '\n';
    return 0;
}

int answer_source_cases() {
    for (const std::string& line : lines_of(std::cin)) std::cout << source_cases::answer(line) << '\n';
    return 0;
}

int write_table_text(std::uint64_t seed, std::size_t bytes) {
    Random random(seed);
    std::cout << table_cases::of_length(random, bytes);
    return 0;
}

std::string file_at(const std::string& path) {
    std::ifstream file(path, std::ios::binary);
    return all_of(file);
}

// Takes in one move of each reading, so that no reading can be left out.
void bench_reading(const std::string& whole, std::uint64_t repeats) {
    std::uint64_t sum = 0;
    std::uint64_t read = 0;
    for (std::uint64_t turn = 0; turn < repeats; ++turn) {
        table::Reading reading = table::read(whole, bench_room);
        if (const table::Table* got = std::get_if<table::Table>(&reading)) {
            read += 1;
            if (got->moves.empty()) continue;
            const table::Move& move = got->moves[turn % got->moves.size()];
            sum = sum * 31 + static_cast<std::uint64_t>(move.from * 65536 + move.label * 256 + move.to);
        }
    }
    std::cout << "texts " << repeats << ", bytes " << whole.size() << ", read " << read << ", sum " << sum << '\n';
}

// Searches one set of names after another, and takes in what is found.
void bench_searching(const machine::Machine& searched, std::uint32_t repeats) {
    std::uint64_t sum = 0;
    std::uint32_t found = 0;
    for (std::uint32_t turn = 0; turn < repeats; ++turn) {
        const machine::Names names = source_cases::names_in(turn * 0x9e3779b1U);
        for (int p : machine::reached(searched, names)) {
            if (!machine::is_stuck(searched, names, p)) continue;
            found += 1;
            sum = sum * 31 + static_cast<std::uint64_t>(p * 256 + *machine::initials(searched, p).begin());
            break;
        }
    }
    std::cout << "searches " << repeats << ", found " << found << ", sum " << sum << '\n';
}

int bench_table(const std::string& path, std::uint64_t repeats) {
    bench_reading(file_at(path), repeats);
    return 0;
}

int bench_search(const std::string& path, std::uint64_t repeats) {
    const table::Reading sparse = table::read(file_at(path), bench_room);
    bench_searching(*machine::of_table(std::get<table::Table>(sparse)), static_cast<std::uint32_t>(repeats));
    return 0;
}

// ---- The judge ----

int write_judge_cases(std::uint64_t seed, std::size_t count, judge_cases::Choice choice) {
    for (const std::string& line : judge_cases::make(seed, count, choice)) std::cout << line << '\n';
    return 0;
}

int answer_judge_cases() {
    for (const std::string& line : lines_of(std::cin)) std::cout << judge_cases::answer(line) << '\n';
    return 0;
}

int write_sparse_text(std::uint64_t states) {
    Random random(judge_cases::timed_seed);
    std::cout << judge_cases::text_of(judge_cases::sparse(random, static_cast<int>(states)));
    return 0;
}

int write_judge_text(const std::string& kind, std::uint64_t states) {
    const auto timed = judge_cases::to_time(kind, states);
    if (!timed) return 1;
    std::cout << judge_cases::to_line(*timed) << '\n';
    return 0;
}

// Writes the verdict of the last turn.
int bench_judge(const std::string& kind, std::uint64_t states, std::uint64_t repeats) {
    const auto timed = judge_cases::to_time(kind, states);
    if (!timed || repeats == 0) return 1;
    std::string said;
    for (std::uint64_t turn = 0; turn < repeats; ++turn) said = judge_cases::answer(*timed);
    std::cout << said.substr(0, said.find(';')) << '\n';
    return 0;
}

// The definitions taken literally, against the judge above.
int compare_literally(std::uint64_t seed, std::size_t count) {
    const std::size_t wrong = literal::disagreements(seed, count);
    std::cout << count << " pairs, " << wrong << " disagree\n";
    return wrong == 0 ? 0 : 1;
}

int write_literal_cases(std::uint64_t seed, std::size_t count) {
    for (const std::string& line : literal::cases(seed, count)) std::cout << line << '\n';
    return 0;
}

// ---- The house ----

int write_house_cases(std::uint64_t seed, std::size_t count) {
    for (const std::string& line : house_cases::make(seed, count)) std::cout << line << '\n';
    return 0;
}

int answer_house_cases() {
    for (const std::string& line : lines_of(std::cin)) std::cout << house_cases::answer(line) << '\n';
    return 0;
}

int write_statement(const std::string& folder) {
    std::cout << statement::of(lines_of(std::cin), folder);
    return 0;
}

// ---- The line ----

int write_line_cases(std::uint64_t seed, std::size_t count) {
    for (const std::string& line : line_cases::make(seed, count)) std::cout << line << '\n';
    return 0;
}

int answer_line_cases() {
    for (const std::string& line : lines_of(std::cin)) std::cout << line_cases::answer(line) << '\n';
    return 0;
}

int usage() {
    std::cerr << "oracle cases table SEED COUNT       writes cases of texts, one to a line\n"
                 "oracle answer table                 reads them and writes the answer of each\n"
                 "oracle cases source SEED COUNT      writes cases of piles over tables, one to a line\n"
                 "oracle answer source                reads them and writes the answer of each\n"
                 "oracle text table SEED BYTES        writes a well formed text of so many bytes (100 or more)\n"
                 "oracle bench table FILE REPEATS     reads a text so many times, for timing\n"
                 "oracle text sparse STATES           writes a machine of four moves a state\n"
                 "oracle bench search FILE REPEATS    searches the machine of a text so many times, for timing\n"
                 "oracle cases judge SEED COUNT       writes cases of modules and contracts, one to a line\n"
                 "oracle cases pile SEED COUNT        writes them with long paths, and with piles whose names are changed\n"
                 "oracle answer judge                 reads either and writes the answer of each\n"
                 "oracle text judge KIND N            writes a case to be timed, of N states (1 to 255) a side; KIND is\n"
                 "                                    sparse, dense, ring, chain, rounds, loaded or pile (which has 255)\n"
                 "oracle bench judge KIND N REPEATS   reads and judges it so many times, for timing\n"
                 "oracle selftest judge               holds the judge against the worked checks\n"
                 "oracle selftest literal SEED COUNT  holds the judge against every relation, for so many small pairs\n"
                 "oracle cases literal SEED COUNT     writes such pairs as cases of the judge\n"
                 "oracle cases house SEED COUNT       writes lists of calls on a house, one to a line\n"
                 "oracle answer house                 reads them and writes what comes of each call\n"
                 "oracle statement FOLDER             reads a script of calls, and writes the statement of them\n"
                 "oracle cases line SEED COUNT        writes cases of the installer's line, one to a line\n"
                 "oracle answer line                  reads them and writes the answer of each\n";
    return 2;
}

}  // namespace

int main(int argc, char** argv) {
    std::ios::sync_with_stdio(false);
    const std::vector<std::string> words(argv + 1, argv + argc);
    if (words.size() < 2) return usage();
    auto number = [&](std::size_t i) { return std::strtoull(words[i].c_str(), nullptr, 10); };
    auto asks = [&](const char* first, const char* second, std::size_t many) { return words[0] == first && words[1] == second && words.size() == many; };
    if (asks("cases", "table", 4)) return write_table_cases(number(2), number(3));
    if (asks("answer", "table", 2)) return answer_table_cases();
    if (asks("cases", "source", 4)) return write_source_cases(number(2), number(3));
    if (asks("answer", "source", 2)) return answer_source_cases();
    if (asks("text", "table", 4)) return write_table_text(number(2), number(3));
    if (asks("bench", "table", 4)) return bench_table(words[2], number(3));
    if (asks("bench", "search", 4)) return bench_search(words[2], number(3));
    if (asks("bench", "judge", 5)) return bench_judge(words[2], number(3), number(4));
    if (asks("cases", "judge", 4)) return write_judge_cases(number(2), number(3), judge_cases::Choice::judge);
    if (asks("cases", "pile", 4)) return write_judge_cases(number(2), number(3), judge_cases::Choice::pile);
    if (asks("answer", "judge", 2)) return answer_judge_cases();
    if (asks("text", "sparse", 3)) return write_sparse_text(number(2));
    if (asks("text", "judge", 4)) return write_judge_text(words[2], number(3));
    if (asks("selftest", "judge", 2)) return judge_cases::selftest(std::cout) ? 0 : 1;
    if (asks("selftest", "literal", 4)) return compare_literally(number(2), number(3));
    if (asks("cases", "literal", 4)) return write_literal_cases(number(2), number(3));
    if (asks("cases", "house", 4)) return write_house_cases(number(2), number(3));
    if (asks("answer", "house", 2)) return answer_house_cases();
    if (words[0] == "statement" && words.size() == 2) return write_statement(words[1]);
    if (asks("cases", "line", 4)) return write_line_cases(number(2), number(3));
    if (asks("answer", "line", 2)) return answer_line_cases();
    return usage();
}
