// A program whose stacks are known, for profilers: it calls itself to different depths, from a library's callback too, and
// allocates, computes, or crashes there.
//   work allocate|compute|crash
#include <algorithm>
#include <cstdlib>
#include <cstring>
#include <string>
#include <vector>
#ifdef WITH_GLOG
#include <glog/logging.h>
#endif

static volatile unsigned sink;
static const char *what;

__attribute__((noinline)) static void compute() {
    for (unsigned i = 0; i < 200000; i++) sink = sink * 3 + i;
}

__attribute__((noinline)) static void at_the_bottom(unsigned depth) {
    if (!std::strcmp(what, "allocate")) sink = (unsigned)(size_t)std::malloc(100 + depth);
    else if (!std::strcmp(what, "compute")) compute();
    else if (depth == 7) *(volatile int *)nullptr = 1;
    sink = sink + 1;
}

__attribute__((noinline)) static void deeper(unsigned left, unsigned depth) {
    std::string text(50 + left, 'x');
    if (left) deeper(left - 1, depth);
    else at_the_bottom(depth);
    sink = sink + (unsigned)text.size();
}

__attribute__((noinline)) static void through_a_library(unsigned depth) {
    std::vector<unsigned> two = {depth, depth + 1};
    bool called = false;
    qsort(two.data(), 2, sizeof two[0], [](const void *a, const void *) {
        deeper(*(const unsigned *)a % 16, *(const unsigned *)a);
        return 0;
    });
    sink = sink + called;
}

int main(int argc, char **argv) {
    if (argc < 2) return 2;
    what = argv[1];
#ifdef WITH_GLOG
    google::InitGoogleLogging(argv[0]);
    google::InstallFailureSignalHandler();
#endif
    for (unsigned depth = 0; depth < 60; depth++) {
        deeper(depth, depth);
        through_a_library(depth);
    }
    return 0;
}
