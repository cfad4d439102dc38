// A program that throws and catches all the time, from different depths.
#include <chrono>
#include <cstdio>
#include <stdexcept>
#include <string>
#include <vector>

static int thrown(int depth) {
    std::vector<std::string> words(static_cast<std::size_t>(depth) % 4, "some words that need memory of their own");
    if (depth == 0) throw std::runtime_error("the end");
    return thrown(depth - 1) + static_cast<int>(words.size());
}

int main() {
    const auto end = std::chrono::steady_clock::now() + std::chrono::seconds(3);
    long caught = 0;
    for (int i = 0; std::chrono::steady_clock::now() < end; i++) {
        try {
            caught += thrown(i % 20);
        } catch (const std::exception &error) {
            caught += static_cast<long>(std::string(error.what()).size() > 1);
        }
    }
    std::printf("%ld caught\n", caught);
}
