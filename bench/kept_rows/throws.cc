// Calls with C++'s frames: destructors and exceptions that are caught, thrown again and pass frames of C, functions of
// the standard library that call back. The stack is walked at each instruction (own.h).
//     throws CALLS STEPPED
#include "own.h"
#include <algorithm>
#include <cstdint>
#include <cstdlib>
#include <functional>
#include <map>
#include <memory>
#include <stdexcept>
#include <string>
#include <vector>

namespace {
bool is_stepped;
volatile int sink;

struct Noted {
    std::string name;
    explicit Noted(const char *of) : name(of) {}
    ~Noted() { sink = sink + static_cast<int>(name.size()); }
};

struct Base { virtual int go(int depth) = 0; virtual ~Base() = default; };
int next(int depth);

struct Plain : Base { int go(int depth) override { Noted noted("plain"); return next(depth) + static_cast<int>(noted.name.size()); } };

struct Catches : Base {
    int go(int depth) override {
        try {
            Noted noted("a name that is too long for the string itself to have it");
            return next(depth) + 1;
        } catch (const std::runtime_error &error) {
            if (!is_stepped) own_compare();
            return static_cast<int>(std::string(error.what()).size());
        }
    }
};

struct ThrowsAgain : Base {
    int go(int depth) override {
        auto one = std::make_unique<Noted>("one");
        try { return next(depth) + 2; } catch (...) { Noted two("two"); throw; }
    }
};

struct Sorts : Base {
    int go(int depth) override {
        std::vector<int> numbers = {3, 1, 2};
        int sum = 0;
        bool is_first = true;
        std::sort(numbers.begin(), numbers.end(), [&](int a, int b) {
            if (is_first) is_first = false, sum = next(depth);
            return a < b;
        });
        return sum + numbers[0];
    }
};

struct Calls : Base {
    int go(int depth) override {
        std::function<int(int)> f = [&](int x) { std::map<int, std::string> names; names[x] = "x"; return next(depth) + static_cast<int>(names.size()); };
        return f(depth) + 1;
    }
};

struct Aligned : Base {
    int go(int depth) override {
        alignas(64) volatile char bytes[128];
        bytes[depth] = 1;
        Noted noted("aligned");
        return next(depth) + bytes[depth];
    }
};

std::vector<std::unique_ptr<Base>> order;

int next(int depth) {
    if (depth > 0) return order[static_cast<size_t>(depth)]->go(depth - 1);
    if (!is_stepped) own_compare();
    if (rand() % 2) throw std::runtime_error("thrown at the innermost frame");
    return std::stoi("12") + static_cast<int>(std::to_string(3.5).size());
}

int try_one(bool stepped) {
    int depth = stepped ? 4 : 2 + rand() % 20;
    order.clear();
    for (int i = 0; i <= depth; i++) {
        switch (rand() % 6) {
        case 0: order.push_back(std::make_unique<Plain>()); break;
        case 1: order.push_back(std::make_unique<Catches>()); break;
        case 2: order.push_back(std::make_unique<ThrowsAgain>()); break;
        case 3: order.push_back(std::make_unique<Sorts>()); break;
        case 4: order.push_back(std::make_unique<Calls>()); break;
        default: order.push_back(std::make_unique<Aligned>());
        }
    }
    is_stepped = stepped;
    int sum = 0;
    if (stepped) own_begin();
    try { sum = order[static_cast<size_t>(depth)]->go(depth - 1); } catch (const std::exception &) { sum = 7; }
    if (stepped) own_end();
    return sum;
}
}

int main(int argc, char **argv) {
    if (argc < 3) return 2;
    srand(12);
    own_start();
    int sum = 0;
    for (int i = 0; i < atoi(argv[1]); i++) sum += try_one(false);
    for (int i = 0; i < atoi(argv[2]); i++) sum += try_one(true);
    sink = sum;
    return own_report(argv[0]);
}
