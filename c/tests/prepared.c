/* Tests of dwcheck_dl_prepare with a library that comes and goes, and beside threads that walk.
   usage: prepared LIBRARY
   The function call_back(f) of the library calls f, and has rows in .debug_frame alone. */
#include "dl_stop.h"

#include <pthread.h>

enum { ROUNDS = 100, THREADS = 4 };

/* Loads the library, and walks through its function before and after it is prepared. */
static void come_and_go(const char *name) {
    void (*call_back)(void (*f)(void)) = NULL;
    void *library = dlopen(name, RTLD_NOW);
    if (library != NULL) *(void **)&call_back = dlsym(library, "call_back");
    if (call_back == NULL) abort();
    call_back(walk);
    IS(stop, DWCHECK_STOP_NOT_COVERED);
    IS(dwcheck_dl_prepare(), DWCHECK_DONE);
    call_back(walk);
    IS(stop, DWCHECK_STOP_RETURN_UNDEFINED);
    dlclose(library);
    deep(DEPTH, walk);
    IS(stop, DWCHECK_STOP_RETURN_UNDEFINED);
    IS(dwcheck_dl_prepare(), DWCHECK_DONE);
}

static atomic_bool is_done;

static void *walk_in_thread(void *unused) {
    while (!atomic_load(&is_done)) deep(DEPTH, compare);
    return unused;
}

int main(int count, char **arguments) {
    pthread_t threads[THREADS];
    if (count != 2) return 2;
    for (int i = 0; i < THREADS; i++) IS(pthread_create(&threads[i], NULL, walk_in_thread, NULL), 0);
    for (int i = 0; i < ROUNDS; i++) come_and_go(arguments[1]);
    atomic_store(&is_done, true);
    for (int i = 0; i < THREADS; i++) pthread_join(threads[i], NULL);
    return report();
}
