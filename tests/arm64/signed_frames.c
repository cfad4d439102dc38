/* Dies in a chain of calls, some of which sign their return addresses, for tests/arm64/signed_frames.py. For aarch64, compiled
   with -mbranch-protection=standard.
   usage: signed_frames LINK..
   Each link is a function that calls the next one in some way, and the last one dies. */
#define _GNU_SOURCE
#include <alloca.h>
#include <link.h>
#include <pthread.h>
#include <signal.h>
#include <stdio.h>
#include <stdlib.h>
#include <string.h>
#include <sys/syscall.h>
#include <unistd.h>
#include <unwind.h>

#define WITH(PROTECTION) __attribute__((noinline, target("branch-protection=" PROTECTION)))
typedef void link_function(void);
link_function *next(void);

/* ---- functions in assembler. hint #25 is `paciasp`, and hint #29 `autiasp`, for any assembler. */

#define FUNCTION(NAME, BODY)                                                                                             \
    link_function NAME;                                                                                                  \
    __asm__(".pushsection .text\n.balign 4\n.globl " #NAME "\n.type " #NAME ", %function\n" #NAME ":\n.cfi_startproc\n" \
            BODY "ret\n.cfi_endproc\n.size " #NAME ", . - " #NAME "\n.popsection")
#define SIGN "hint #25\n.cfi_negate_ra_state\n"
#define SAVE "stp x29, x30, [sp, #-16]!\n.cfi_def_cfa_offset 16\n.cfi_offset 29, -16\n.cfi_offset 30, -8\n"
#define LOAD "ldp x29, x30, [sp], #16\n.cfi_restore 29\n.cfi_restore 30\n.cfi_def_cfa_offset 0\n"
#define AUTHENTICATE "hint #29\n.cfi_negate_ra_state\n"
#define DIE "udf #0\n"

/* These die by SIGILL: before they sign their return address, or after, when it is saved, and so on. */
FUNCTION(when_entered, DIE SIGN SAVE LOAD AUTHENTICATE);
FUNCTION(when_signed, SIGN DIE SAVE LOAD AUTHENTICATE);
FUNCTION(when_saved, SIGN SAVE DIE LOAD AUTHENTICATE);
FUNCTION(when_loaded, SIGN SAVE LOAD DIE AUTHENTICATE);
FUNCTION(when_authenticated, SIGN SAVE LOAD AUTHENTICATE DIE);
FUNCTION(plain_when_entered, DIE SAVE LOAD);
FUNCTION(plain_when_saved, SAVE DIE LOAD);
FUNCTION(plain_when_loaded, SAVE LOAD DIE);

/* Its call of the next link comes after a way out, which has changed the rows, and so after DW_CFA_restore_state. */
FUNCTION(after_a_return, SIGN SAVE "bl next\ncbnz x0, 1f\n.cfi_remember_state\n" LOAD AUTHENTICATE
                         "ret\n1:\n.cfi_restore_state\nblr x0\n" LOAD AUTHENTICATE);

/* Where a handler of a signal returns to. gdb knows it by its instructions. Its page is in the program's file, while that of
   qemu is in no file, and qemu doesn't write it to core files. */
__asm__(".pushsection .text\n.balign 4\nnop\n.globl restore\n.type restore, %function\nrestore:\nmov x8, #139\nsvc #0\n"
        ".size restore, . - restore\n.popsection");
void restore(void);

/* ---- how they call the next one */

WITH("none") static void plain(void) { next()(); }
WITH("standard") static void is_signed(void) { next()(); }
WITH("pac-ret+b-key") static void by_key_b(void) { next()(); }

/* The stack pointer changes in it, so its frame is found by x29. */
static void with_frame_pointer(void) {
    char *bytes = alloca(16 + (size_t)getpid() % 64);
    next()();
    bytes[0] = 1;
    __asm__ volatile("" : : "r"(bytes) : "memory");
}

static int compare(const void *left, const void *right) {
    (void)left, (void)right;
    next()();
    return 0;
}
static void by_qsort(void) { qsort((int[]){1, 2, 3}, 3, sizeof(int), compare); }

WITH("none") static int compare_plainly(const void *left, const void *right) { return compare(left, right); }
WITH("none") static void by_bsearch(void) { bsearch((int[]){2}, (int[]){1, 2, 3}, 3, sizeof(int), compare_plainly); }

static void call_next(void) { next()(); }
static void by_once(void) {
    pthread_once_t once = PTHREAD_ONCE_INIT;
    pthread_once(&once, call_next);
}
static void by_exit(void) {
    atexit(call_next);
    exit(0);
}

WITH("none") static int call_for_library(struct dl_phdr_info *info, size_t size, void *data) {
    (void)info, (void)size, (void)data;
    next()();
    return 1;
}
static void by_libraries(void) { dl_iterate_phdr(call_for_library, NULL); }

static _Unwind_Reason_Code call_for_frame(struct _Unwind_Context *context, void *data) {
    (void)context, (void)data;
    next()();
    return _URC_NORMAL_STOP;
}
static void by_unwinder(void) { _Unwind_Backtrace(call_for_frame, NULL); }

WITH("none") static ssize_t call_for_bytes(void *cookie, const char *bytes, size_t size) {
    (void)cookie, (void)bytes;
    next()();
    return (ssize_t)size;
}
static void by_stream(void) {
    FILE *stream = fopencookie(NULL, "w", (cookie_io_functions_t){.write = call_for_bytes});
    if (fputs("bytes", stream) == EOF) abort();
    fclose(stream);
}

WITH("none") static void *call_in_thread(void *argument) {
    next()();
    return argument;
}
static void by_thread(void) {
    pthread_t thread;
    if (pthread_create(&thread, NULL, call_in_thread, NULL)) abort();
    pthread_join(thread, NULL);
}

/* What the kernel wants to know of a handler. The C library would leave out the place to which it returns. */
struct kernel_action { void (*handler)(int); unsigned long flags; void (*restorer)(void); unsigned long mask; };

static void on_signal(int number) {
    (void)number;
    next()();
}

/* The next link traps, and the handler calls the one after it, which may trap again. */
static void by_handler(void) {
    enum { RESTORER = 0x04000000 };
    const struct kernel_action action = {on_signal, RESTORER | SA_NODEFER, restore, 0};
    if (syscall(SYS_rt_sigaction, SIGILL, &action, NULL, sizeof action.mask)) abort();
    next()();
}

/* ---- how they die. The first two call nothing, and so the first doesn't sign its return address. */

static volatile int *volatile nowhere;
WITH("standard") static void in_leaf(void) { *nowhere = 1; }
WITH("pac-ret+leaf") static void in_signed_leaf(void) { *nowhere = 1; }
static void by_abort(void) { abort(); }

/* ---- links by their names */

#define LINK(NAME) {#NAME, NAME}
static const struct { const char *name; link_function *function; } links[] = {
    LINK(when_entered), LINK(when_signed), LINK(when_saved), LINK(when_loaded), LINK(when_authenticated),
    LINK(plain_when_entered), LINK(plain_when_saved), LINK(plain_when_loaded), LINK(plain), LINK(is_signed),
    LINK(by_key_b), LINK(with_frame_pointer), LINK(after_a_return), LINK(by_qsort), LINK(by_bsearch), LINK(by_once),
    LINK(by_exit), LINK(by_libraries), LINK(by_unwinder), LINK(by_stream), LINK(by_thread), LINK(by_handler),
    LINK(in_leaf), LINK(in_signed_leaf), LINK(by_abort)};
static char **words;

link_function *next(void) {
    const char *word = *words;
    for (size_t i = 0; word && i < sizeof links / sizeof *links; i++)
        if (!strcmp(links[i].name, word)) return words++, links[i].function;
    fprintf(stderr, "there is no link %s\n", word ? word : "after the last one");
    _exit(2);
}

int main(int count, char **arguments) {
    (void)count;
    words = arguments + 1;
    next()();
    return 1;
}
