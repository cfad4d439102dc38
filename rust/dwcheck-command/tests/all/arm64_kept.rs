//! A core file that Linux for arm64 has written, of bench/arm64/kept.c: the handler of a signal has read at a null
//! pointer. The program's return addresses are signed, and the handler returns to the kernel's vDSO.
//! `KEEP=.. bench/arm64/vm.sh` makes it again.

use crate::common::cores::{addresses, by_gdb_of, frames, stop};
use crate::common::run::dwcheck_elf;
use crate::common::{has, Folder};

const GDB: &str = "gdb-multiarch";

/// A folder with the core file and its program.
fn unpacked(name: &str) -> Folder {
    let (folder, tests) = (Folder::new(name), concat!(env!("CARGO_MANIFEST_DIR"), "/tests"));
    folder.run(&format!("gunzip -c {}/cores/arm64.core.gz > core; cp {}/recordings/test/kept program", tests, tests));
    folder
}

#[test]
fn its_frames_are_those_of_gdb() {
    let folder = unpacked("arm64-kept-stack");
    let ran = dwcheck_elf(&folder, "stack --strict --no-source program core");
    assert_eq!((ran.status, ran.error.as_str()), (0, ""), "{}", ran.out);
    let (ours, names) =
        (frames(&ran.out), ["reads+", "handles+", "[vdso]", "raises+", "raises+", "raises+", "main_of+", "_start+"]);
    assert!(
        ours.len() == names.len() && ours.iter().zip(names).all(|(frame, name)| frame.contains(name)),
        "{}",
        ran.out
    );
    assert_eq!(stop(&ran.out), "stop: return undefined");
    if has(GDB) {
        assert_eq!(addresses(&ours), by_gdb_of(GDB, &folder, "program"));
    }
}

#[test]
fn its_variables_are_those_of_gdb() {
    let folder = unpacked("arm64-kept-variables");
    if !has(GDB) {
        return;
    }
    let ran = dwcheck_elf(&folder, "stack --vars program core");
    for (frame, shown) in
        [(0, "sum = 107"), (1, "point = {x = 10, name = \"abc\"}"), (3, "square = 9"), (4, "square = 4")]
    {
        let words = format!("{} --batch -nx -ex 'frame {}' -ex 'info locals' program core 2> /dev/null", GDB, frame);
        assert!(folder.run(&words).lines().any(|line| line == shown), "{}", shown);
        let begin = format!("\n#{} ", frame);
        let of_frame = ran.out.split(&begin).nth(1).unwrap_or("").split("\n#").next().unwrap_or("");
        let (name, value) = shown.split_once(" = ").unwrap();
        let is_shown =
            |line: &str| line.contains(&format!(" {}: ", name)) && line.contains(&format!(" = {} (at ", value));
        assert!(of_frame.lines().any(is_shown), "{}: {}", shown, ran.out);
    }
}
