/* Tests that walks of dwcheck-dl from wherever a timer interrupts the program reach its start: in the library's own
   walks and look-ups, and in what they call. Prints a line for the first walks that are cut, and one with counts.
   usage: dl_interrupted COUNT */
#define _GNU_SOURCE
#include "dl.h"

#include <signal.h>
#include <sys/time.h>

enum { SHOWN = 5, MICROSECONDS = 700 };

static void *callers[FRAMES]; /* what the stack has above the function that makes the calls */
static int caller_count;
static volatile sig_atomic_t interruptions, cut, guessed;

/* Whether the last addresses of a walk are those of the stack above. */
static int is_whole(void **addresses, int count) {
    const int above = caller_count - 1; /* the first one is where the stack was read */
    return count > above && memcmp(addresses + count - above, callers + 1, (size_t)above * sizeof *callers) == 0;
}

static void show(uintptr_t address, int count, uint32_t stop) {
    dwcheck_dl_loaded module = {0, 0, 0, "?"};
    dwcheck_dl_module_at(address, &module);
    printf("cut after %d frames, from %s+%#llx: %s\n", count, module.name, (unsigned long long)(address - module.load_address),
           stop < DWCHECK_DL_STOP_REFUSED ? dwcheck_stop_text(stop) : "no row");
}

static void on_timer(int signal, siginfo_t *info, void *context) {
    (void)signal, (void)info;
    void *addresses[FRAMES];
    uint8_t marks[FRAMES];
    dwcheck_dl_request request = {.context = context, .marks = marks};
    const int count = dwcheck_dl_walk(&request, addresses, FRAMES);
    interruptions++;
    for (int i = 0; i < count; i++) guessed += marks[i] != DWCHECK_DL_BY_ROW;
    if (!is_whole(addresses, count) && cut++ < SHOWN) show((uintptr_t)addresses[0], count, request.stop);
}

/* A section of one CIE and one FDE: 0x1000 to 0x1010, with a row from its first address and one from 0x1001 on. */
static const uint8_t section[] = {12, 0, 0, 0, 255, 255, 255, 255, 4, 0, 8, 0, 1, 0x78, 16, 0, 26, 0, 0, 0, 0, 0, 0, 0, 0, 0x10, 0,
                                  0, 0, 0, 0, 0, 0x10, 0, 0, 0, 0, 0, 0, 0, 0x0c, 7, 8, 0x41, 0x0e, 16};

static void use_module(void) {
    dwcheck_process process = DWCHECK_CLOSED;
    dwcheck_module module = {.frame = section, .frame_length = sizeof section, .order = DWCHECK_LITTLE, .address_size = 8, .room = SIZE_MAX};
    dwcheck_fault fault;
    uint64_t id;
    IS(dwcheck_process_add(&process, &module, &id, &fault), DWCHECK_DONE);
    dwcheck_process_close(&process);
}

__attribute__((noinline)) static void work(int most) {
    const struct itimerval timer = {{0, MICROSECONDS}, {0, MICROSECONDS}}, none = {{0, 0}, {0, 0}};
    caller_count = backtrace(callers, FRAMES);
    setitimer(ITIMER_REAL, &timer, NULL);
    while (interruptions < most) {
        compare();
        use_module();
    }
    setitimer(ITIMER_REAL, &none, NULL);
}

static int most;
static void work_up_to_most(void) { work(most); }

int main(int count, char **arguments) {
    struct sigaction action = {.sa_sigaction = on_timer, .sa_flags = SA_SIGINFO | SA_RESTART};
    most = count > 1 ? atoi(arguments[1]) : 1000;
    sigaction(SIGALRM, &action, NULL);
    deep(DEPTH, work_up_to_most);
    printf("%d interruptions, %d walks cut, %d frames guessed\n", (int)interruptions, (int)cut, (int)guessed);
    IS(cut, 0);
    return report();
}
