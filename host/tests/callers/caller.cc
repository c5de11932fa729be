// A host in C++. It makes the same call on several threads at once, on one file
// and an area each, and prints the code and the bytes of the area, which have
// to be the same everywhere.
//
//     caller CALL FILE LENT PORT LIMIT BUDGET CARE.. VALUE..
//
// A CALL of version 2 ends in _v2, and takes eight words of care and of value.
// A FILE of no bytes and an area of none are handed over as NULL.
#include <mwishovala.h>

#include <algorithm>
#include <array>
#include <cstdio>
#include <cstdlib>
#include <fstream>
#include <functional>
#include <iostream>
#include <iterator>
#include <map>
#include <stdexcept>
#include <string>
#include <thread>
#include <tuple>
#include <vector>

namespace {

constexpr std::size_t threads = 4;

struct Answer {
    std::uint64_t code;
    std::vector<std::uint8_t> area;

    bool operator==(const Answer &other) const { return code == other.code && area == other.area; }
};

// A call on an area, with the numbers behind it.
using Call = std::function<std::uint64_t(const std::vector<std::uint8_t> &, std::uint8_t *,
                                         std::size_t, const std::vector<std::uint32_t> &)>;

// The call of either version, which takes so many numbers.
template <typename... Number>
Call taking(std::uint64_t (*call)(const std::uint8_t *, std::size_t, std::uint8_t *, std::size_t,
                                  Number...)) {
    return [call](const std::vector<std::uint8_t> &file, std::uint8_t *area, std::size_t lent,
                  const std::vector<std::uint32_t> &n) {
        if (n.size() != sizeof...(Number)) throw std::invalid_argument("other arguments are needed");
        std::array<std::uint32_t, sizeof...(Number)> numbers;
        std::copy(n.begin(), n.end(), numbers.begin());
        return std::apply(
            [&](Number... number) {
                return call(file.empty() ? nullptr : file.data(), file.size(), area, lent, number...);
            },
            numbers);
    };
}

const std::map<std::string, Call> calls = {
    {"verdict", taking(fabric_verdict)},       {"list", taking(fabric_list)},
    {"run", taking(fabric_run)},               {"verdict_v2", taking(fabric_verdict_v2)},
    {"list_v2", taking(fabric_list_v2)},       {"run_v2", taking(fabric_run_v2)}};

Answer make(const std::string &call, const std::vector<std::uint8_t> &file, std::size_t lent,
            const std::vector<std::uint32_t> &n) {
    Answer answer{0, std::vector<std::uint8_t>(lent)};
    for (std::size_t i = 0; i < lent; i++) answer.area[i] = static_cast<std::uint8_t>(i * 7 + 3);
    answer.code = calls.at(call)(file, lent ? answer.area.data() : nullptr, lent, n);
    return answer;
}

}  // namespace

int main(int count, char **given) {
    if (count < 4) {
        std::cerr << "caller.cc: other arguments are needed\n";
        return 1;
    }
    std::ifstream stream(given[2], std::ios::binary);
    const std::vector<std::uint8_t> file{std::istreambuf_iterator<char>(stream), {}};
    const std::size_t lent = std::stoul(given[3]);
    std::vector<std::uint32_t> asked;
    for (int i = 4; i < count; i++) {
        asked.push_back(static_cast<std::uint32_t>(std::stoul(given[i])));
    }
    std::vector<Answer> answers(threads);
    std::vector<std::thread> workers;
    for (Answer &answer : answers) {
        workers.emplace_back([&] { answer = make(given[1], file, lent, asked); });
    }
    for (std::thread &worker : workers) worker.join();
    for (const Answer &answer : answers) {
        if (!(answer == answers.front())) {
            std::cerr << "caller.cc: the threads' answers differ\n";
            return 1;
        }
    }
    const Answer &answer = answers.front();
    std::cout << FABRIC_NUMBER(answer.code) << " at " << FABRIC_PLACE(answer.code) << "\n";
    for (const std::uint8_t byte : answer.area) std::printf("%02x", byte);
    std::printf("\n");
    return 0;
}
