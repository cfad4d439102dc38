/* A program without a library, whose stacks are known: main calls middle, which calls leaf twice, once from a
   function that is inlined, and a child does the same in another program. */
volatile long sum;
__attribute__((noinline)) static void leaf(long count) {
    for (long i = 0; i < count; i++) sum += i ^ (sum >> 1);
}
static inline __attribute__((always_inline)) void twice(long count) {
    leaf(count);
    leaf(count / 2);
}
__attribute__((noinline)) static void middle(long count) {
    char room[64];
    __asm__ volatile("" : : "r"(room) : "memory");
    twice(count);
    sum++;
}
__attribute__((noinline, used)) int main(void) {
    for (int i = 0; i < 40; i++) middle(400000);
    return 0;
}
__asm__(".globl _start\n.type _start, @function\n_start:\n.cfi_startproc\n.cfi_undefined rip\n"
        "xor %ebp, %ebp\ncall main\nmov %eax, %edi\nmov $60, %eax\nsyscall\n.cfi_endproc\n.size _start, . - _start\n");
