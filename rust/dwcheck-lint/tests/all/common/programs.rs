//! Programs in C and C++ that have frames of all sorts, and the levels at which they are compiled.

pub const C: &str = r#"
#include <alloca.h>
#include <setjmp.h>
#include <stdarg.h>
#include <stdio.h>
#include <stdlib.h>
#include <string.h>
#define KEPT __attribute__((noinline))
static jmp_buf place;
KEPT long many(long a, long b, long c, long d, long e, long f, long g, long h) {
    return a * b + c * d + e * f + g * h;
}
KEPT long grown(int count) {
    char *bytes = alloca(count);
    long other[count];
    memset(bytes, 1, count);
    for (int i = 0; i < count; i++) other[i] = many(i, count, bytes[i], 3, 4, 5, 6, i);
    return other[count - 1];
}
KEPT long aligned(long a) {
    _Alignas(64) long held[8];
    for (int i = 0; i < 8; i++) held[i] = many(a, i, a, i, a, i, a, i);
    return held[a & 7];
}
KEPT long large(long a) {
    char bytes[70000];
    memset(bytes, (int)a, sizeof bytes);
    return bytes[a] + grown(9);
}
KEPT int chosen(int x) {
    switch (x) {
    case 0: return puts("zero");
    case 1: return puts("one") + (int)aligned(x);
    case 2: return (int)large(x);
    case 3: return (int)grown(x);
    case 4: return printf("%d\n", x);
    case 5: abort();
    case 6: return (int)many(x, x, x, x, x, x, x, x);
    default: return x;
    }
}
KEPT int summed(int count, ...) {
    va_list list;
    int sum = 0;
    va_start(list, count);
    while (count--) sum += va_arg(list, int);
    va_end(list);
    return sum;
}
KEPT int jumped(int x) {
    if (setjmp(place)) return 1;
    if (x > 100) longjmp(place, x);
    return chosen(x);
}
KEPT int wrapped(int x) {
    if (__builtin_expect(x < 0, 0)) {
        printf("%ld %ld\n", many(x, 1, 2, 3, 4, 5, 6, 7), aligned(x));
        exit(x);
    }
    return x + 1;
}
int main(int argc, char **argv) {
    return jumped(argc) + summed(3, argc, 2, 3) + wrapped(argc) + argv[0][0];
}
"#;

pub const CXX: &str = r#"
#include <stdexcept>
#include <string>
#include <vector>
struct Noisy { std::string name; ~Noisy() { name.clear(); } };
__attribute__((noinline)) int thrown(int x, int a, int b, int c, int d, int e, int f, int g) {
    if (x > a + b + c + d + e + f + g) throw std::runtime_error(std::to_string(x));
    return x;
}
__attribute__((noinline)) int caught(int x) {
    Noisy noisy{std::to_string(x)};
    try {
        std::vector<int> all(x);
        return thrown(x, 1, 2, 3, 4, 5, 6, 7) + all.at(x);
    } catch (const std::out_of_range &) {
        return 1;
    } catch (...) {
        throw;
    }
}
int main(int argc, char **) { return caught(argc); }
"#;

pub const LEVELS: [&str; 5] = ["-O0", "-O1", "-O2", "-O3", "-Os"];
