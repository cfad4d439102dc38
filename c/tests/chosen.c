/* A library for dl_first_call.c, whose functions are chosen when they are first called. */
void (*call_back)(void);

static int first(void) { return 1; }
static int second(void) { return 2; }

static int (*choose_first(void))(void) {
    if (call_back) call_back();
    return first;
}

static int (*choose_second(void))(void) {
    if (call_back) call_back();
    return second;
}

int chosen_first(void) __attribute__((ifunc("choose_first")));
int chosen_second(void) __attribute__((ifunc("choose_second")));
