// A program that takes a C++ compiler some seconds, so that there is something to record. It isn't run.
#include <algorithm>
#include <functional>
#include <future>
#include <iostream>
#include <map>
#include <random>
#include <regex>
#include <sstream>
#include <string>
#include <unordered_map>
#include <vector>

int main(int argc, char **argv) {
    std::map<std::string, int> places;
    std::unordered_map<std::string, std::string> replaced;
    std::regex pattern("a+b*");
    for (int i = 0; i < argc; i++) {
        places[argv[i]] = i;
        replaced[argv[i]] = std::regex_replace(std::string(argv[i]), pattern, "x");
    }
    auto text = std::async([&] {
        std::ostringstream out;
        for (auto &[word, place] : places) out << word << place << replaced[word];
        return out.str();
    });
    std::mt19937_64 random;
    std::vector<int> numbers(100);
    std::shuffle(numbers.begin(), numbers.end(), random);
    std::stable_sort(numbers.begin(), numbers.end(), std::greater<int>());
    std::cout << text.get() << numbers[3];
}
