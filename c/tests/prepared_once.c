/* Tests of what dwcheck_dl_prepare has made of a library whose code was changed in memory: walks use it, also after other
   calls.
   usage: prepared_once LIBRARY [no-id]
   The function call_back(f) of the library calls f, and has rows in .debug_frame alone. With a second argument, the
   library has no build id, so these are used only once the code is that of the file. */
#include "dl_stop.h"

#include <sys/mman.h>
#include <unistd.h>

static void (*call_back)(void (*f)(void));

static void protect(int protection) {
    const uintptr_t size = (uintptr_t)sysconf(_SC_PAGESIZE);
    IS(mprotect((void *)((uintptr_t)call_back / size * size), size, protection), 0);
}

/* Changes the function's first byte, as a debugger does for a breakpoint, or back. */
static void change(void) {
    protect(PROT_READ | PROT_WRITE);
    char *code = (char *)(uintptr_t)call_back;
    *code ^= 1;
    __builtin___clear_cache(code, code + 1);
    protect(PROT_READ | PROT_EXEC);
}

static void prepare_and_walk(uint32_t wanted) {
    IS(dwcheck_dl_prepare(), DWCHECK_DONE);
    change();
    call_back(walk);
    IS(stop, wanted);
    change();
}

static void test_without_id(void) {
    prepare_and_walk(DWCHECK_STOP_NOT_COVERED);
    protect(PROT_NONE);
    IS(dwcheck_dl_prepare(), DWCHECK_DONE);
    change();
    call_back(walk);
    IS(stop, DWCHECK_STOP_NOT_COVERED);
}

int main(int count, char **arguments) {
    if (count < 2) return 2;
    void *library = dlopen(arguments[1], RTLD_NOW);
    if (library != NULL) *(void **)&call_back = dlsym(library, "call_back");
    if (call_back == NULL) abort();
    change();
    if (count > 2) test_without_id();
    else prepare_and_walk(DWCHECK_STOP_RETURN_UNDEFINED), change();
    IS(dwcheck_dl_prepare(), DWCHECK_DONE);
    call_back(walk);
    IS(stop, DWCHECK_STOP_RETURN_UNDEFINED);
    IS(dwcheck_dl_thread(), DWCHECK_DONE);
    call_back(walk);
    IS(stop, DWCHECK_STOP_RETURN_UNDEFINED);
    IS(dwcheck_dl_update(NULL), DWCHECK_DONE);
    call_back(walk);
    IS(stop, DWCHECK_STOP_RETURN_UNDEFINED);
    deep(DEPTH, compare); /* other stacks stay what they are */
    return report();
}
