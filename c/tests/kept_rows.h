/* For the tests of walks with kept rows: rows, a comparison that counts what is wrong, and random numbers. */
#include "dwcheck.h"
#include <stdio.h>
#include <stdlib.h>
#include <string.h>

static int wrong;
#define IS(what, want)                                                                                  \
    do {                                                                                                \
        long long is_ = (long long)(what), want_ = (long long)(want);                                   \
        if (is_ != want_) wrong++, printf("%d: %s is %lld, not %lld\n", __LINE__, #what, is_, want_);   \
    } while (0)

enum { ROOM = 400, SLOTS = 64, RBP = 6, RSP = 7, RIP = 16 };
static const uint64_t ALL = ~UINT64_C(0);
static dwcheck_rows rows;

static uint64_t random_state = 20261129;
static uint64_t any(void) { /* xorshift64* */
    random_state ^= random_state >> 12, random_state ^= random_state << 25, random_state ^= random_state >> 27;
    return random_state * UINT64_C(0x2545f4914f6cdd1d);
}
