// Drives the installer's library as a C caller does: random cases to both calls, each held against the oracle's own
// answer, buffers and all; and how much stack the calls take.
#include <pthread.h>

#include <cstddef>
#include <cstdint>
#include <cstdlib>
#include <cstring>
#include <iostream>
#include <string>
#include <vector>

#include "line_cases.hpp"

extern "C" {
std::size_t verdict_line(const std::uint8_t* module, std::size_t module_length, const std::uint8_t* contract, std::size_t contract_length,
                         std::uint8_t* workspace, std::size_t workspace_length, std::uint8_t* line, std::size_t line_length);
std::size_t verdict_line_of_input(const std::uint8_t* input, std::size_t input_length, std::uint8_t* workspace, std::size_t workspace_length,
                                  std::uint8_t* line, std::size_t line_length);
}

namespace {

using line_cases::Case;
using line_cases::Left;

// Bytes around every buffer, which no call may touch.
constexpr std::size_t margin = 64;
constexpr std::uint8_t fence = 0xa5;

// A buffer of just so many bytes between two fences.
class Fenced {
public:
    Fenced(std::size_t length, std::uint8_t byte) : bytes(length + 2 * margin, fence), length(length) { std::memset(data(), byte, length); }

    std::uint8_t* data() { return bytes.data() + margin; }

    std::size_t size() const { return length; }

    judge::Bytes inside() { return judge::Bytes(data(), data() + length); }

    bool is_whole() const {
        for (std::size_t i = 0; i < margin; ++i) {
            if (bytes[i] != fence || bytes[margin + length + i] != fence) return false;
        }
        return true;
    }

private:
    std::vector<std::uint8_t> bytes;
    std::size_t length;
};

const std::uint8_t* bytes_of(const std::string& whole) { return reinterpret_cast<const std::uint8_t*>(whole.data()); }

// What the library leaves, and whether it kept within its buffers.
bool library_left(const Case& made, Left& left) {
    Fenced workspace(made.room, line_cases::untouched);
    Fenced buffer(made.buffer, line_cases::untouched);
    const std::string bytes = made.bytes;
    const std::uint8_t* text = bytes_of(bytes);
    left.length = made.call == 1
                      ? verdict_line(text, made.first, text + made.first, bytes.size() - made.first, workspace.data(), workspace.size(), buffer.data(), buffer.size())
                      : verdict_line_of_input(text, bytes.size(), workspace.data(), workspace.size(), buffer.data(), buffer.size());
    left.workspace = workspace.inside();
    left.buffer = buffer.inside();
    return workspace.is_whole() && buffer.is_whole() && bytes == made.bytes;
}

// ---- The stack ----

constexpr std::size_t stack_bytes = std::size_t{1} << 23;
constexpr std::uint8_t paint = 0x5c;

struct Call {
    const Case* made;
    std::uint8_t* workspace;
    std::uint8_t* buffer;
};

// Only the call itself runs on the painted stack.
void* run_call(void* given) {
    const Call& call = *static_cast<Call*>(given);
    const std::string& bytes = call.made->bytes;
    const std::uint8_t* text = bytes_of(bytes);
    if (call.made->call == 1) {
        verdict_line(text, call.made->first, text + call.made->first, bytes.size() - call.made->first, call.workspace, call.made->room, call.buffer, call.made->buffer);
    } else {
        verdict_line_of_input(text, bytes.size(), call.workspace, call.made->room, call.buffer, call.made->buffer);
    }
    return nullptr;
}

void* run_nothing(void*) { return nullptr; }

// How deep a thread went into its stack.
std::size_t depth_of(void* (*what)(void*), void* given) {
    void* stack = nullptr;
    if (posix_memalign(&stack, 4096, stack_bytes) != 0) std::exit(1);
    std::memset(stack, paint, stack_bytes);
    pthread_attr_t attributes;
    pthread_attr_init(&attributes);
    pthread_attr_setstack(&attributes, stack, stack_bytes);
    pthread_t thread;
    if (pthread_create(&thread, &attributes, what, given) != 0) std::exit(1);
    pthread_join(thread, nullptr);
    std::size_t untouched = 0;
    while (untouched < stack_bytes && static_cast<std::uint8_t*>(stack)[untouched] == paint) ++untouched;
    std::free(stack);
    return stack_bytes - untouched;
}

// The most that any of the set cases takes, without what a thread takes that does nothing.
std::size_t stack_of_calls() {
    const std::size_t idle = depth_of(run_nothing, nullptr);
    std::size_t most = idle;
    for (const std::string& line : line_cases::make(1, 200)) {
        const Case made = *line_cases::from_line(line);
        judge::Bytes workspace(made.room + 1);
        judge::Bytes buffer(made.buffer + 1);
        Call call{&made, workspace.data(), buffer.data()};
        most = std::max(most, depth_of(run_call, &call));
    }
    return most - idle;
}

// ---- All cases ----

int drive(std::uint64_t seed, std::size_t count) {
    std::size_t told[3] = {0, 0, 0};
    for (const std::string& line : line_cases::make(seed, count)) {
        const Case made = *line_cases::from_line(line);
        const Left expected = line_cases::left_by(made);
        Left got;
        if (!library_left(made, got) || !(got == expected)) {
            std::cout << "differs on " << line << "\nthe library: " << line_cases::answer(got) << "\nthe oracle:  " << line_cases::answer(expected) << '\n';
            return 1;
        }
        if (got.length > 0) ++told[got.buffer[0] == 'y' ? 0 : got.buffer[0] == 'n' ? 1 : 2];
    }
    std::cout << count << " cases agree: " << told[0] << " yes, " << told[1] << " no, " << told[2] << " refused, " << count - told[0] - told[1] - told[2]
              << " with a line buffer that is too short\n";
    std::cout << "the calls took at most " << stack_of_calls() << " bytes of stack\n";
    return 0;
}

}  // namespace

int main(int argc, char** argv) {
    if (argc != 3) {
        std::cerr << "drive SEED COUNT\n";
        return 2;
    }
    return drive(std::strtoull(argv[1], nullptr, 10), static_cast<std::size_t>(std::strtoull(argv[2], nullptr, 10)));
}
