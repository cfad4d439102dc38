/* An example program that prints its own stack from a deep call: a line for each frame, with the
   frame's address and canonical frame address. */
#include <dwcheck-dl.h>
#include <inttypes.h>
#include <stdio.h>

enum { DEPTH = 40, FRAMES = 100 };

static const char *const stops[] = {"limit", "not covered", "return undefined", "return unreadable",
                                    "return division by zero"};

/* Does nothing. It is called after all frames are printed, so that a debugger can stop here. */
__attribute__((noinline)) void printed(void) { __asm__ volatile(""); }

__attribute__((noinline)) static void print_stack(void) {
    dwcheck_dl_frame frames[FRAMES];
    dwcheck_dl_request request = {.context = NULL};
    const int count = dwcheck_dl_frames(&request, frames, FRAMES);
    for (int i = 0; i < count; i++) printf("frame %d 0x%016" PRIx64 " cfa 0x%016" PRIx64 "\n", i, frames[i].place.address, frames[i].cfa);
    printf("stop %s\n", request.stop < sizeof stops / sizeof *stops ? stops[request.stop] : "unknown");
    fflush(stdout);
    printed();
}

/* Calls itself `depth` times, and then prints the stack. */
__attribute__((noinline)) static int deep(int depth) {
    if (depth == 0) print_stack();
    else deep(depth - 1);
    return depth + 1;
}

int main(void) {
    deep(DEPTH);
    return 0;
}
