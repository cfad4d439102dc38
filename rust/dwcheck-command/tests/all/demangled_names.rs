//! Names of functions that no symbol table has as they are shown. The expected ones are those that
//! objdump, nm and gdb show.

use crate::common::run::dwcheck_elf;
use crate::common::{has, hex, Folder};
use dwcheck_elf::program::Program;

/// Calls functions of the C library, one of them by a pointer too, so that its stub is in `.plt.got`.
const CALLS: &str = "
#include <stdio.h>
#include <stdlib.h>
int main(int argc, char **argv) {
    void (*volatile freed)(void *) = free;
    char *text = malloc(9);
    freed(text);
    free(NULL);
    return puts(argv[argc - 1]) + atoi(argv[0]);
}
";

/// The stubs of procedure linkage tables by objdump: lines such as `0000000000001030 <puts@plt>:`.
fn stubs_by(objdump: &str, folder: &Folder) -> Vec<(u64, String)> {
    let shown = folder.run(&format!("{} -d linked | grep -E '^[0-9a-f]+ <[a-zA-Z_]+@plt>:$'", objdump));
    let stub = |line: &str| {
        let (address, name) = line.split_once(" <").unwrap();
        (hex(address), name.trim_end_matches(">:").to_string())
    };
    shown.lines().map(stub).collect()
}

fn stubs(folder: &Folder) -> Vec<(u64, String)> {
    let bytes = folder.bytes("linked");
    let functions = Program::read(&bytes).unwrap().functions();
    let stubs = functions.all().iter().filter(|function| function.name.ends_with("@plt"));
    stubs.map(|function| (function.begin, function.name.to_string())).collect()
}

#[test]
fn stubs_have_the_names_that_objdump_shows() {
    let folder = Folder::new("names-stubs");
    folder.write("a.c", CALLS);
    let x86 = ["", "-Wl,-z,now", "-fcf-protection -Wl,-z,ibtplt", "-no-pie", "-fuse-ld=lld"].map(|flags| ("", flags));
    let aarch64 = ["", "-Wl,-z,force-bti", "-Wl,-z,pac-plt", "-Wl,-z,force-bti,-z,pac-plt", "-no-pie"];
    let aarch64 = aarch64.map(|flags| ("aarch64-linux-gnu-", flags));
    for (prefix, flags) in x86.into_iter().chain(aarch64) {
        if !has(&format!("{}gcc", prefix)) || flags.contains("lld") && !has("ld.lld") {
            continue;
        }
        folder.run(&format!("{}gcc -O1 {} a.c -o linked 2> log", prefix, flags));
        let expected = stubs_by(&format!("{}objdump", prefix), &folder);
        assert!(expected.len() >= 3, "{}{}: {:?}", prefix, flags, expected);
        assert_eq!(stubs(&folder), expected, "{}{}", prefix, flags);
    }
}

const LOCALS: &str = "
#include <stdlib.h>
__attribute__((noinline)) static int inner(volatile int *address) { return *address + 1; }
__attribute__((noinline)) static int outer(volatile int *address) { return inner(address) + 1; }
int main(int argc, char **argv) { return outer((volatile int *)(long)argc) + 1; }
";

/// Strips `program` as distributions do: the symbols of local functions are compressed in
/// `.gnu_debugdata` (gdb's manual, MiniDebugInfo).
const STRIP: &str = "
nm -D program --format=posix --defined-only | awk '{ print $1 }' | sort > dynamic
nm program --format=posix --defined-only | awk '{ if ($2 == \"T\" || $2 == \"t\") print $1 }' | sort > functions
comm -13 dynamic functions > kept
objcopy --only-keep-debug program debug
objcopy -S --remove-section .gdb_index --remove-section .comment --keep-symbols=kept debug small
strip --strip-all -R .comment program
xz -f small
objcopy --add-section .gnu_debugdata=small.xz program
";

#[test]
fn local_functions_of_gnu_debugdata() {
    let folder = Folder::new("names-packed");
    if !has("xz") {
        return;
    }
    folder.write("a.c", LOCALS);
    folder.run("gcc -O1 a.c -o program");
    let symbols = folder.run("nm program --defined-only | sed -n 's/ [tT] \\(inner\\|outer\\|main\\)$/ \\1/p'");
    folder.run(STRIP);
    let bytes = folder.bytes("program");
    let functions = Program::read(&bytes).unwrap().functions();
    assert_eq!(symbols.lines().count(), 3);
    for line in symbols.lines() {
        let (address, name) = line.split_once(' ').unwrap();
        let found = functions.at(hex(address)).map(|(function, offset)| (&*function.name, offset));
        assert_eq!(found, Some((name, 0)));
    }
    if !has("gdb") {
        return;
    }
    folder.make_core("./program");
    let shown = folder
        .run("gdb --batch -ex bt program core 2> /dev/null | sed -n 's/^#[0-9] .* in \\(.*\\) ().*/\\1/p' | tail -3");
    assert_eq!(shown.lines().collect::<Vec<_>>(), ["inner", "outer", "main"]);
    let ran = dwcheck_elf(&folder, "stack core");
    let at = |name: &str| ran.out.find(&format!(" {}+0x", name));
    assert!(at("outer").is_some() && at("outer") < at("main"), "{}", ran.out);
    assert!(ran.out.contains(" inner (") || at("inner").is_some(), "{}", ran.out);
}

/// A section that can't be decompressed is named, and costs only its names.
#[test]
fn a_gnu_debugdata_that_is_damaged() {
    let folder = Folder::new("names-damaged");
    if !has("xz") || !has("gdb") {
        return;
    }
    folder.write("a.c", LOCALS);
    folder.run("gcc -O1 a.c -o program");
    folder.run(&STRIP.replace("xz -f small", "xz -f small; truncate -s -40 small.xz"));
    folder.make_core("./program");
    let ran = dwcheck_elf(&folder, "stack core");
    let expected = format!("dwcheck-elf: {}: .gnu_debugdata: ", folder.file("program").display());
    assert!(ran.status == 0 && ran.error.starts_with(&expected), "{}", ran.error);
    assert!(!ran.out.contains("outer") && ran.out.contains(" __libc_start_main"), "{}", ran.out);
}

const CXX: &str = "
namespace tree {
struct Leaf { int fall(volatile int *address) const; };
__attribute__((noinline)) int Leaf::fall(volatile int *address) const { return *address + 1; }
inline int shaken(const Leaf &leaf, volatile int *address) { return leaf.fall(address) + 1; }
}
int main(int argc, char **) { return tree::shaken(tree::Leaf(), (volatile int *)(long)argc) + 1; }
";

#[test]
fn raw_names_are_those_of_the_file() {
    let folder = Folder::new("names-raw");
    if !has("gdb") {
        return;
    }
    folder.write("a.cc", CXX);
    folder.run("g++ -O1 -g a.cc -o program");
    folder.make_core("./program");
    let ran = dwcheck_elf(&folder, "stack core");
    for name in [" tree::Leaf::fall(int volatile*) const", " tree::shaken(tree::Leaf const&, int volatile*) inlined"] {
        assert!(ran.out.contains(name), "{}{}", name, ran.out);
    }
    let raw = dwcheck_elf(&folder, "stack --raw-names core");
    for name in [" _ZNK4tree4Leaf4fallEPVi", " _ZN4tree6shakenERKNS_4LeafEPVi inlined"] {
        assert!(raw.out.contains(name), "{}{}", name, raw.out);
    }
}

/// A fault in the stub of a function: its slot holds an address where no code is.
#[test]
fn a_fault_in_a_stub() {
    let folder = Folder::new("names-in-stub");
    if !has("gdb") {
        return;
    }
    folder.write("a.c", CALLS);
    folder.run("gcc -O1 -no-pie -Wl,-z,lazy a.c -o program");
    let program = folder.bytes("program");
    let slot = folder.run("readelf -rW program | awk '$3 ~ /JUMP_SLO/ && $5 ~ /^puts/ { print $1 }'");
    let stub = folder.run("objdump -d program | sed -n 's/ <puts@plt>:$//p'");
    assert!(!program.is_empty());
    let lines = format!(
        "set startup-with-shell off\nbreak *0x{}\nrun\nset {{long}}0x{} = 0x8000000000000001\ncontinue\ngcore core\n",
        stub.trim(),
        slot.trim()
    );
    folder.write("crash.gdb", lines);
    folder.run("gdb --batch -x crash.gdb ./program < /dev/null > gdb.log 2>&1");
    let ran = dwcheck_elf(&folder, "stack core");
    let first = ran.out.lines().find(|line| line.starts_with("#0 ")).unwrap_or("");
    assert!(first.ends_with(&format!(" puts@plt ({})", folder.file("program").display())), "{}", ran.out);
    assert!(ran.out.lines().any(|line| line.starts_with("#1 ") && line.contains(" main+")), "{}", ran.out);
}

/// Names that cpp_demangle writes in another way than c++filt, or doesn't read.
const CXX_NAMES: [&str; 8] = [
    "_ZThn8_N12LIRGenerator8block_doEP10BlockBegin",
    "_ZTv0_n24_N1A1fEv",
    "_ZN4llvm11PassManagerINS_6ModuleENS_15AnalysisManagerIS1_JEEEJEE3runERS1_RS3_",
    "_ZN11SmallVectorIiLm16ESaIiEE4pushEi",
    "_Z1fILln5ELj3ELx1ELy2ELc65EEvv.isra.0.cold",
    "_ZN1A1gB5cxx11Ei",
    "_ZSt14__relocate_a_1IiiENSt9enable_ifIXsrSt24__is_bitwise_relocatableIT_vE5valueEPS2_E4typeES4_S4_S4_RSaIT0_E",
    "_ZN2wi6bit_orI16generic_wide_intI16wide_int_storageES3_EENS_13binary_traitsIT_T0_XsrNS_10int_traitsIS5_EE14\
     precision_typeEXsrNS7_IS6_EE14precision_typeEE11result_typeERKS5_RKS6_",
];

/// Of the last two, whose types aren't read, the names are shown without these.
#[test]
fn names_of_cxx_are_those_of_cxxfilt() {
    let folder = Folder::new("names-cxx");
    folder.write("names", CXX_NAMES.join("\n"));
    let expected = |words: &str| folder.run(&format!("c++filt {} < names", words));
    let (whole, short) = (expected(""), expected("-p"));
    let shown: Vec<_> = CXX_NAMES.iter().map(|name| dwcheck_elf::names::demangled(name)).collect();
    let read = CXX_NAMES.len() - 2;
    assert_eq!(shown[..read], whole.lines().take(read).collect::<Vec<_>>());
    assert_eq!(shown[read..], short.lines().skip(read).collect::<Vec<_>>());
}
