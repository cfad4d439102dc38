// Sells things, for bench/elf/containers.py, which stops it anywhere in the namespace `example`.
#include <deque>
#include <list>
#include <map>
#include <memory>
#include <optional>
#include <string>
#include <tuple>
#include <unordered_map>
#include <variant>
#include <vector>

namespace example {

struct Item {
    int price;
    std::string name;
    std::optional<std::string> note;
};

using Payment = std::variant<int, std::string, double>;

__attribute__((noinline)) std::optional<Item> find(const std::vector<std::shared_ptr<Item>> &stock, int price) {
    std::optional<Item> best;
    std::weak_ptr<Item> last;
    for (const std::shared_ptr<Item> &one : stock) {
        std::shared_ptr<Item> item = one;
        if (item->price <= price && (!best || best->price < item->price)) best = *item;
        last = item;
    }
    return best;
}

__attribute__((noinline)) Payment pay(int price) {
    Payment payment = price;
    if (price % 3 == 1) payment = std::string("on account of the house");
    if (price % 3 == 2) payment = price * 0.5;
    std::variant<double, int> rounded = price;
    std::optional<Payment> copy;
    copy = payment;
    return *copy;
}

__attribute__((noinline)) std::unique_ptr<Item> make(int price) {
    std::unique_ptr<Item> item;
    std::unique_ptr<int[]> digits(new int[3]{1, 2, 3});
    item = std::make_unique<Item>();
    item->price = price;
    item->name = std::string(static_cast<size_t>(price), 'x');
    if (price > 5) item->note = "expensive";
    std::shared_ptr<const char> text(new char[2]{'a', 0}, std::default_delete<const char[]>());
    return item;
}

__attribute__((noinline)) int queue(int price) {
    std::deque<Item> waiting;
    std::deque<short> numbers;
    std::list<std::string> names;
    std::list<int> none;
    std::tuple<int, std::string, double> first(price, "first", 0.5);
    for (int one = 0; one < 3 * price; one++) {
        waiting.push_back(Item{one, std::string(one % 20, 'y'), std::nullopt});
        numbers.push_front(one);
        names.push_front(waiting.back().name);
        if (one % 3 == 2) waiting.pop_front();
        if (one % 4 == 3) numbers.pop_back();
        std::get<0>(first) += one;
    }
    return waiting.size() + numbers.size() + names.size() + none.size() + std::get<0>(first);
}

__attribute__((noinline)) int run() {
    std::vector<std::shared_ptr<Item>> stock;
    std::map<std::string, std::unique_ptr<Item>> kept;
    std::unordered_map<int, Payment> payments;
    std::optional<int> total;
    for (int price = 1; price < 20; price += 3) {
        std::unique_ptr<Item> item = make(price);
        kept.emplace(item->name, std::make_unique<Item>(*item));
        stock.push_back(std::shared_ptr<Item>(std::move(item)));
        payments.emplace(price, pay(price));
        std::optional<Item> found = find(stock, price - 1);
        total = total.value_or(0) + (found ? found->price : 0) + queue(price);
    }
    return *total + static_cast<int>(kept.size() + payments.size());
}

} // namespace example

int main() { return example::run() == 0; }
