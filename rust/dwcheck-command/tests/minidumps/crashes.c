/* A program without a C library, which crashes in the way that its first argument names, and has Chromium's
   chrome_crashpad_handler write a minidump of it in the folder that its second argument names: make.sh. */
typedef unsigned long word;
#ifdef __x86_64__
enum { SIGACTION = 13, SIGALTSTACK = 131, FORK = 57, EXECVE = 59, WAIT4 = 61, EXIT = 231, KILL = 62, GETPID = 39, PRCTL = 157 };
static long call(long n, long a, long b, long c, long d) {
    register long r10 asm("r10") = d;
    asm volatile("syscall" : "+a"(n) : "D"(a), "S"(b), "d"(c), "r"(r10) : "rcx", "r11", "memory");
    return n;
}
asm(".globl _start\n_start: .cfi_startproc\n.cfi_undefined rip\nmov %rsp, %rdi\nand $-16, %rsp\ncall begin\nhlt\n.cfi_endproc\n"
    "restore: mov $15, %rax\nsyscall\n");
static void add_thread_pointer(void) {}
#else
enum { SIGACTION = 174, SIGALTSTACK = 186, FORK = 2, EXECVE = 11, WAIT4 = 114, EXIT = 252, KILL = 37, GETPID = 20, PRCTL = 172 };
static long call(long n, long a, long b, long c, long d) {
    asm volatile("int $0x80" : "+a"(n) : "b"(a), "c"(b), "d"(c), "S"(d) : "memory");
    return n;
}
asm(".globl _start\n_start: .cfi_startproc\n.cfi_undefined eip\nmov %esp, %eax\nand $-16, %esp\nsub $12, %esp\npush %eax\ncall begin\nhlt\n.cfi_endproc\n"
    "restore: mov $173, %eax\nint $0x80\n");
/* Crashpad asks for it. */
static void add_thread_pointer(void) {
    static unsigned description[] = {-1, 0, 0xfffff, 0x51};
    call(243, (long)description, 0, 0, 0);
    asm volatile("mov %w0, %%gs" : : "r"(description[0] * 8 + 3));
}
#endif
enum { ALTERNATE = 0x0c000004 };
#pragma GCC visibility push(hidden)
extern char restore[];
/* Crashpad finds the modules by what the dynamic linker would have put here. */
extern struct dynamic { word tag, value; } _DYNAMIC[];
extern char __executable_start[];
#pragma GCC visibility pop
static struct map { word address; char *name; struct dynamic *dynamic; struct map *next, *before; } map;
static struct { int version; struct map *map; word update, state, linker; } loaded = {1, 0, 0, 0, 0};
static void add_modules(void) {
    map.name = "";
    map.address = (word)__executable_start;
    map.dynamic = _DYNAMIC;
    loaded.map = &map;
    for (struct dynamic *one = _DYNAMIC; one->tag; one++) if (one->tag == 21) one->value = (word)&loaded;
}
struct action { void *handler; word flags; void *restorer; unsigned mask[2]; };
struct stack { void *begin; int flags; word size; };
#pragma pack(push, 1)
static struct { unsigned long long siginfo, context; int thread; unsigned padding; } information;
#pragma pack(pop)
static char *folder, *handler, **environment, place[] = "--trace-parent-with-exception=0x0000000000000000", database[500] = "--database=";
static char alternate[32768];
static void at_crash(int number, void *info, void *context) {
    information.siginfo = (word)info;
    information.context = (word)context;
    information.thread = call(GETPID, 0, 0, 0, 0);
    call(PRCTL, 0x59616d61, -1, 0, 0);
    long child = call(FORK, 0, 0, 0, 0);
    if (child == 0) {
        char *end = place + sizeof place - 2;
        for (word left = (word)&information; left; left /= 16) *end-- = "0123456789abcdef"[left % 16];
        char *to = database + 11;
        for (char *from = folder; *from && to < database + sizeof database - 1;) *to++ = *from++;
        char *words[] = {handler, place, database, "--no-rate-limit", "--no-periodic-tasks", "--annotation=ver=1.2", 0};
        call(EXECVE, (word)handler, (word)words, (word)environment, 0);
        call(EXIT, 1, 0, 0, 0);
    }
    int status;
    call(WAIT4, child, (word)&status, 0, 0);
    call(EXIT, number, 0, 0, 0);
}
static void handle(int number, void *function, word flags) {
    struct action action = {function, flags, restore, {0, 0}};
    call(SIGACTION, number, (word)&action, 0, 8);
}
static int (*volatile callback)(int);
__attribute__((noinline)) int null_call(int n) { volatile int kept = n; return callback(n) + kept; }
__attribute__((noinline)) int fault(volatile int *p) { return *p + 1; }
__attribute__((noinline)) int deep(volatile char *p, int n) { volatile char b[4096]; b[n % 4096] = p[0]; return deep(b, n + 1) + b[0]; }
static void bad_handler(int n) { fault((int *)8L); }
__attribute__((noinline)) int crashes(char how) {
    volatile int local = 42;
    if (how == 'n') return null_call(3) + local;
    if (how == 'o') { volatile char c = 1; return deep(&c, 0) + local; }
    if (how == 'h') { handle(10, bad_handler, 0x04000004); return call(KILL, call(GETPID, 0, 0, 0, 0), 10, 0, 0) + local; }
    return fault((int *)8L) + local;
}
__attribute__((noinline, used)) void begin(word *stack) {
    char **arguments = (char **)(stack + 1);
    environment = arguments + stack[0] + 1;
    folder = arguments[2];
    handler = arguments[3];
    add_thread_pointer();
    add_modules();
    struct stack own = {alternate, 0, sizeof alternate};
    call(SIGALTSTACK, (word)&own, 0, 0, 0);
    if (folder) handle(11, at_crash, ALTERNATE);
    crashes(arguments[1][0]);
    call(EXIT, 0, 0, 0, 0);
}
