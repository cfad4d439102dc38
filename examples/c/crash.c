/* An example program: it crashes in a thread, by a call of a null pointer, and prints the stack of that
   thread. The handler of SIGSEGV runs on an alternate stack of 8 KB, and makes only calls that a signal handler may
   make. Nothing of the library is called before. */
#define _GNU_SOURCE
#include <dwcheck-dl.h>
#include <pthread.h>
#include <signal.h>
#include <string.h>
#include <sys/mman.h>
#include <unistd.h>

enum { DEPTH = 10, FRAMES = 64, PART = 4096, ALTERNATE = 2 * PART };

/* ---- writing text: a line is put together here, and written by one call */

static char line[512];
static size_t line_length;

static void put_text(const char *text) {
    while (*text && line_length < sizeof line - 1) line[line_length++] = *text++;
}

static void put_decimal(size_t number) {
    if (number > 9) put_decimal(number / 10);
    put_text((const char[]){(char)('0' + number % 10), 0});
}

static void put_address(uint64_t address) {
    put_text("0x");
    for (int shift = 60; shift >= 0; shift -= 4) put_text((const char[]){"0123456789abcdef"[address >> shift & 15], 0});
}

static void write_line(void) {
    line[line_length++] = '\n';
    for (size_t done = 0; done < line_length;) {
        ssize_t written = write(STDERR_FILENO, line + done, line_length - done);
        if (written <= 0) break;
        done += (size_t)written;
    }
    line_length = 0;
}

/* ---- the handler. What is large is static, so as not to be on the alternate stack. SA_RESETHAND lets
   only one crash come here. When the handler returns, the program crashes again, and the signal ends
   it. */

static dwcheck_dl_frame frames[FRAMES];

/* Writes a frame. An address within its instruction is the frame's own address or, where that is a return
   address, the one before. The module's file and the address in the file are what addr2line needs. */
static void write_frame(size_t number, const dwcheck_dl_frame *frame) {
    const uint64_t inside = frame->place.key - 1;
    dwcheck_dl_loaded module;
    put_text("frame "), put_decimal(number), put_text(" "), put_address(frame->place.address);
    if (frame->cfa != 0) put_text(" cfa "), put_address(frame->cfa);
    if (dwcheck_dl_module_at(inside, &module) == DWCHECK_DONE)
        put_text(" "), put_text(module.name), put_text("+"), put_address(inside - module.load_address);
    write_line();
}

/* The first frame is that of the address 0, which was called, and the second one made the call. */
static void on_crash(int signal, siginfo_t *why, void *context) {
    (void)signal, (void)why;
    dwcheck_dl_request request = {.context = context};
    int count = dwcheck_dl_frames(&request, frames, FRAMES);
    for (int i = 0; i < count; i++) write_frame((size_t)i, &frames[i]);
}

/* Gives the calling thread an alternate stack for the handler, since its own stack may have no room
   left. Each thread needs one, and frees it before it ends: sigaltstack with SS_DISABLE, then munmap. If
   the stack overflows, it meets a page that can't be used, however large pages are. 8 KB are enough if the kernel
   needs at most half of them for what it saves. */
static int prepare_thread(void) {
    const size_t page = (size_t)sysconf(_SC_PAGESIZE), saved = (size_t)sysconf(_SC_MINSIGSTKSZ);
    const size_t size = ALTERNATE + (saved > PART ? saved / PART * PART : 0);
    char *bytes = mmap(NULL, page + size, PROT_READ | PROT_WRITE, MAP_PRIVATE | MAP_ANONYMOUS, -1, 0);
    if (bytes == MAP_FAILED || mprotect(bytes, page, PROT_NONE) != 0) return 0;
    return sigaltstack(&(stack_t){.ss_sp = bytes + page, .ss_size = size}, NULL) == 0;
}

/* ---- the code that crashes */

static int (*volatile missing)(int);

__attribute__((noinline)) static int deep(int depth) {
    if (depth == 0) return missing(depth) + 1;
    return deep(depth - 1) + 1;
}

static void *work(void *unused) {
    (void)unused;
    return (void *)(intptr_t)(prepare_thread() ? deep(DEPTH) : 0);
}

int main(void) {
    pthread_t worker;
    if (!prepare_thread()) return 1;
    struct sigaction action = {.sa_sigaction = on_crash, .sa_flags = SA_SIGINFO | SA_ONSTACK | SA_RESETHAND};
    if (sigaction(SIGSEGV, &action, NULL) != 0) return 1;
    if (pthread_create(&worker, NULL, work, NULL) != 0) return 1;
    pthread_join(worker, NULL);
    return 0;
}
