/* What the program dwcheck needs of the system beside the C library: its arguments, and errno. The kit has these calls
   for x86-64 alone, so these are for other processors. */
#include <errno.h>
#include <stddef.h>
#include <stdint.h>

uint64_t rattle_arg_count(void);
int64_t rattle_arg(uint64_t number, uint8_t *bytes, uint64_t room);
int32_t rattle_errno(void);
void rattle_set_errno(int32_t number);

static char **words;
static uint64_t word_count;

/* glibc passes the arguments of main to constructors. */
__attribute__((constructor)) static void keep_arguments(int count, char **arguments) {
    word_count = (uint64_t)count;
    words = arguments;
}

uint64_t rattle_arg_count(void) { return word_count; }

/* Writes the bytes of an argument, without the NUL at its end. Returns their number; -1 if there is no such argument; or
   -2 if they don't fit, and then some have been written. */
int64_t rattle_arg(uint64_t number, uint8_t *bytes, uint64_t room) {
    uint64_t length = 0;
    if (number >= word_count || words[number] == NULL) return -1;
    for (; words[number][length] != 0; length++) {
        if (length == room) return -2;
        bytes[length] = (uint8_t)words[number][length];
    }
    return (int64_t)length;
}

int32_t rattle_errno(void) { return errno; }

void rattle_set_errno(int32_t number) { errno = number; }
