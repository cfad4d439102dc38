#!/usr/bin/env python3
"""Runs programs that reach wrong rows of compilers and libraries, and says whether `dwcheck-elf trace` finds each kind.

    bench/elf/trace_kinds.py DWCHECK_ELF [--only WORD]

The kinds are those that docs/findings lists, as far as a small program comes to them: what clang, GCC and rustc
write, and assembly of glibc and OpenSSL. A line says `met` or `NOT MET`, the kinds that were found in the file, and
where. What can't be built here is `left out`. The programs are made in a temporary folder. The status is 1 if a kind
isn't met. Versions other than Debian 12's may have other rows.
"""
import argparse
import collections
import json
import os
import pathlib
import subprocess
import sys
import tempfile
import time

TESTS = pathlib.Path(__file__).resolve().parents[2] / "rust/dwcheck-command/tests/all"
HOIST_C = (TESTS / "hoist.c").read_text(encoding="utf-8")

HOIST_RS = r"""
use std::ffi::c_void;
extern "C" { fn free(p: *mut c_void); fn malloc(n: usize) -> *mut c_void; }
#[repr(C)] pub struct S { a: i64, b: i64, p: *mut c_void, inl: [u8; 64], n: i64, q: *mut *mut c_void }
#[inline(never)] #[no_mangle] pub extern "C" fn dealloc(p: *mut c_void, s: i64, a: i64) {
    unsafe { std::arch::asm!("/* {} {} {} */", in(reg) p, in(reg) s, in(reg) a) }
}
#[inline(never)] #[no_mangle] pub unsafe extern "C" fn f(s: *mut S) {
    let q = (*s).q; let n = (*s).n; let mut i = 0;
    while i < n { dealloc(*q.offset(i as isize), 7, 16); i += 1 }
    i = 0; while i < n { dealloc(*q.offset(i as isize), 4096, 16); i += 1 }
    if (*s).p != (*s).inl.as_mut_ptr() as *mut c_void { free((*s).p) }
}
fn main() { unsafe {
    let mut v = [std::ptr::null_mut::<c_void>(); 2];
    let mut s = S { a: 0, b: 0, p: std::ptr::null_mut(), inl: [0; 64], n: 2, q: v.as_mut_ptr() };
    s.p = s.inl.as_mut_ptr() as *mut c_void; f(&mut s); s.p = malloc(10); f(&mut s);
} }
"""

LATE = r"""
struct A { long a, b, c; };
extern long G[4];
long ext(long, long, long, long, long, long, long, long);
long f(struct A *p, long x, long y)
{
    long s = 0, i = x;
    while (ext(p->b, i, y, G[2], i * 7, G[1], G[1] ^ x, p->a)) s += p->a + x;
    return s + y;
}
"""

LATE_MAIN = r"""
struct A { long a, b, c; };
long f(struct A *, long, long);
long G[4] = {1, 2, 3, 4};
long ext(long a, long b, long c, long d, long e, long f, long g, long h) {
    static int calls;
    return a + b + c + d + e + f + g + h > 0 && calls++ < 3;
}
int main(void) { struct A a = {1, 2, 3}; return f(&a, 1, 2) > 99; }
"""

DRAP = r"""
typedef double v4 __attribute__((vector_size(32)));
__attribute__((noinline)) void use(void *p) { __asm__ volatile("" :: "r"(p) : "memory", "r10"); }
__attribute__((noinline)) double f(long a, long b, long c, long d, long e, long g, double *x, long n) {
    char vla[n * 16]; use(vla);
    v4 acc[4] = {{0}};
    for (long i = 0; i < n; i++) { use(acc); acc[i & 3] += (v4){ x[i], a, b, c }; x[i] += d + e + g; }
    use(acc); return acc[0][0] + acc[1][1] + acc[2][2] + acc[3][3];
}
int main(void) { double x[8] = { 1 }; return f(1, 2, 3, 4, 5, 6, x, 8) == 3.5; }
"""

RENAMED = r"""
void use(void *, void *);
void f(long n) { char grown[n]; _Alignas(32) long held[4]; use(grown, held); }
"""

RENAMED_MAIN = r"""
void f(long);
void use(void *p, void *q) { __asm__ volatile("mov $1, %%r10" :: "r"(p), "r"(q) : "memory", "r10"); }
int main(void) { f(10); return 0; }
"""

FLOATS = r"""
#include <stdio.h>
#include <stdlib.h>
#include <string.h>
int main(void) {
    char text[6000];
    snprintf(text, sizeof text, "%.300Lf %.900f %a", 1e4000L, 3e-300, 1.5);
    double d = strtod("1.23456789012345678901234567890123456789012345678901234567890123456789e-290", 0);
    long double l = strtold("9.87654321987654321987654321987654321987654321987654321987654321e+2000", 0);
    printf("%zu %g %Lg\n", strlen(text), d, l);
    return 0;
}
"""

CONTEXTS = r"""
#include <stdio.h>
#include <ucontext.h>
static ucontext_t one, other;
static char stack[1 << 16];
static volatile int sum;
static void turns(void) { for (int i = 0; i < 3; i++) { sum += i; swapcontext(&other, &one); } }
int main(void) {
    getcontext(&other);
    other.uc_stack.ss_sp = stack;
    other.uc_stack.ss_size = sizeof stack;
    other.uc_link = &one;
    makecontext(&other, turns, 0);
    for (int i = 0; i < 4; i++) swapcontext(&one, &other);
    printf("%d\n", sum);
    return 0;
}
"""

XTS = r"""
#include <string.h>
typedef struct evp_cipher_st EVP_CIPHER; typedef struct evp_cipher_ctx_st EVP_CIPHER_CTX; typedef struct engine_st ENGINE;
const EVP_CIPHER *EVP_aes_128_xts(void);
EVP_CIPHER_CTX *EVP_CIPHER_CTX_new(void);
int EVP_CipherInit_ex(EVP_CIPHER_CTX *, const EVP_CIPHER *, ENGINE *, const unsigned char *, const unsigned char *, int);
int EVP_CipherUpdate(EVP_CIPHER_CTX *, unsigned char *, int *, const unsigned char *, int);
int main(void) {
    unsigned char key[32], iv[16] = {0}, text[512] = {0}, back[512];
    for (int i = 0; i < 32; i++) key[i] = (unsigned char)(i * 7 + 1);
    EVP_CIPHER_CTX *c = EVP_CIPHER_CTX_new();
    int n;
    for (int encrypts = 1; encrypts >= 0; encrypts--) {
        EVP_CipherInit_ex(c, EVP_aes_128_xts(), NULL, key, iv, encrypts);
        EVP_CipherUpdate(c, back, &n, text, sizeof text);
        memcpy(text, back, sizeof text);
    }
    return text[100] != 0;
}
"""

CAMELLIA = r"""
int Camellia_set_key(const unsigned char *, int, void *);
void Camellia_cbc_encrypt(const unsigned char *, unsigned char *, unsigned long, const void *, unsigned char *, int);
int main(void) {
    static unsigned char key[16] = "0123456789abcdef", text[64] = "some text", out[64], vector[16];
    static long schedule[128];
    Camellia_set_key(key, 128, schedule);
    Camellia_cbc_encrypt(text, out, 20, schedule, vector, 1);
    return out[0] == out[1];
}
"""

VECTORS = r"""
#include <immintrin.h>
#include <stdio.h>
void _ZGVcN4vvv_sincos(__m256d, __m128i, __m128i, __m128i, __m128i);
static double sines[4], cosines[4];
static __m128i pair(double *at) { return _mm_set_epi64x((long)(at + 1), (long)at); }
int main(void) {
    _ZGVcN4vvv_sincos(_mm256_set1_pd(0.5), pair(sines), pair(sines + 2), pair(cosines), pair(cosines + 2));
    printf("%.3f %.3f\n", sines[3], cosines[0]);
    return 0;
}
"""

CPUID = r"""
#include <cpuid.h>
__attribute__((noinline)) void leaf(unsigned level, unsigned *out) { __cpuid(level, out[0], out[1], out[2], out[3]); }
int main(void) { unsigned out[4]; leaf(0, out); return out[0] == 0; }
"""

SOURCES = {"hoist.c": HOIST_C, "hoist.rs": HOIST_RS, "late.c": LATE, "drap.c": DRAP, "renamed.c": RENAMED,
           "late_main.c": LATE_MAIN, "renamed_main.c": RENAMED_MAIN, "floats.c": FLOATS, "contexts.c": CONTEXTS, "xts.c": XTS, "camellia.c": CAMELLIA, "vectors.c": VECTORS, "cpuid.c": CPUID}

Case = collections.namedtuple("Case", "name build options line file kind")

# What is built, the options of trace, the command line, and the kind that is expected in a file.
CASES = [Case(*case) for case in [
    ("clang: moved epilogue", "clang -O2 hoist.c -o hoist", "--calls 2 --module hoist", "./hoist", "hoist", "moved epilogue"),
    ("rustc: moved epilogue", "rustc -O hoist.rs -o hoist-rs", "--calls 2 --module hoist-rs", "./hoist-rs", "hoist-rs",
     "moved epilogue"),
    ("clang: late push", "clang -O2 late.c late_main.c -o late", "--module late", "./late", "late", "late push"),
    ("clang: cpuid", "clang -O2 cpuid.c -o cpuid", "--module cpuid", "./cpuid", "cpuid", "register overwritten"),
    ("GCC: DRAP epilogue", "gcc -O2 -mavx2 drap.c -o drap", "--module drap", "./drap", "drap", "DRAP epilogue"),
    ("GCC: renamed registers", "gcc -O2 -frename-registers renamed.c renamed_main.c -o renamed", "--module renamed",
     "./renamed", "renamed", "CFA register overwritten"),
    ("LLVM 14: moved epilogue", "true", "--module 'libLLVM*'", "clang -S -O1 hoist.c -o -", "libLLVM", "moved epilogue"),
    ("LLVM 14: late push", "true", "--module 'libLLVM*'", "clang -S -O2 late.c -o -", "libLLVM", "late push"),
    ("glibc: __mpn_addmul_1", "gcc floats.c -o floats", "--module 'libc.so*'", "./floats", "libc.so", "push without row"),
    ("glibc: swapcontext", "gcc contexts.c -o contexts", "--calls 9 --module 'libc.so*'", "./contexts", "libc.so",
     "register overwritten"),
    ("glibc: sincos of libmvec", "gcc -O2 -mavx vectors.c -lmvec -o vectors", "--module 'libmvec*'", "./vectors", "libmvec",
     "push without row"),
    ("OpenSSL: bn_gather5", "openssl genrsa -out rsa.pem 3072", "--module 'libcrypto*'",
     "openssl dgst -sha256 -sign rsa.pem -out signature hoist.c", "libcrypto", "subtraction without row"),
    ("OpenSSL: bsaes_xts_decrypt", "gcc xts.c -l:libcrypto.so.3 -o xts",
     "--module 'libcrypto*'", "env OPENSSL_ia32cap=~0x200000000000000 ./xts", "libcrypto", "moved stack pointer"),
    ("OpenSSL: Camellia_cbc_encrypt", "gcc camellia.c -l:libcrypto.so.3 -o camellia", "--module 'libcrypto*'", "./camellia",
     "libcrypto", "CFA register overwritten"),
    ("OpenSSL: x25519", "openssl genpkey -algorithm X25519 -out one.pem && openssl pkey -in one.pem -pubout -out two.pem",
     "--module 'libcrypto*'", "openssl pkeyutl -derive -inkey one.pem -peerkey two.pem -out shared", "libcrypto",
     "moved epilogue"),
    ("OpenSSL: private helpers", "true", "--private --idle 100000 --module 'libcrypto*'", "openssl dgst -sha3-256 hoist.c", "libcrypto",
     "private"),
]]


def run(line, folder, limit=600):
    return subprocess.run(["bash", "-c", line], cwd=folder, stdin=subprocess.DEVNULL, capture_output=True, timeout=limit,
                          check=False)


def findings_of(path):
    with open(path) as file:
        objects = [json.loads(line) for line in file]
    os.remove(path)
    return [one for one in objects if "kind" in one]


def meets(elf, folder, case):
    """Whether the kind is found in the file. None if the program can't be built."""
    if run(case.build, folder).returncode != 0:
        print(f"left out: {case.name}: {case.build}")
        return None
    begin = time.monotonic()
    done = run(f"{elf} trace {case.options} --json --output trace.json -- {case.line}", folder)
    path = os.path.join(folder, "trace.json")
    if not os.path.exists(path):
        print(f"left out: {case.name}: {done.stderr[-200:]}")
        return None
    there = [one for one in findings_of(path) if os.path.basename(one["file"]).startswith(case.file)]
    is_met = any(one["kind"] == case.kind for one in there)
    counts = collections.Counter(one["kind"] for one in there)
    places = [one.get("function", hex(one["address"])) for one in there if one["kind"] == case.kind]
    said = ", ".join(f"{kind} {count}" for kind, count in sorted(counts.items()))
    print(f"{'met' if is_met else 'NOT MET'}: {case.name}: {said or 'nothing'} in {case.file}, {case.kind} at "
          f"{' '.join(places[:3]) or 'no place'}; {time.monotonic() - begin:.1f} s, status {done.returncode}", flush=True)
    return is_met


def main():
    parser = argparse.ArgumentParser(description=__doc__.splitlines()[0])
    parser.add_argument("elf")
    parser.add_argument("--only", help="only cases with this word in their name")
    options = parser.parse_args()
    elf = os.path.abspath(options.elf)
    with tempfile.TemporaryDirectory() as folder:
        for name, text in SOURCES.items():
            with open(os.path.join(folder, name), "w") as file:
                file.write(text)
        cases = [case for case in CASES if options.only is None or options.only in case.name]
        results = [meets(elf, folder, case) for case in cases]
    print(f"met {results.count(True)}, not met {results.count(False)}, left out {results.count(None)}")
    return False in results


if __name__ == "__main__":
    sys.exit(main())
