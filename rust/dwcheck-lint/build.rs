//! Compiles the small piece of C through which this crate calls Zydis, and links Zydis.

fn main() {
    println!("cargo:rerun-if-changed=src/zydis.c");
    cc::Build::new().file("src/zydis.c").warnings(true).compile("dwcheck_lint_zydis");
    println!("cargo:rustc-link-lib=dylib=Zydis");
}
