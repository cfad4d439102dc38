//! Packages of Debian as input: what is found in them is what is found in the files that dpkg-deb unpacks, and names come
//! from the -dbgsym package beside them.

use crate::common::run::dwcheck_elf;
use crate::common::Folder;

/// A function whose row follows its push too late: the lint finds that.
const LATE: &str =
    "late: .cfi_startproc\n push %rbx\n nop\n nop\n .cfi_def_cfa_offset 16\n .cfi_offset 3, -16\n nop\n \
                    pop %rbx\n .cfi_def_cfa_offset 8\n ret\n .cfi_endproc\n.type late, @function\n.size late, .-late\n";

/// A folder `all` with the packages `user` and `user-dbgsym` of a library with a finding in a function that only the
/// latter names.
fn folder(name: &str) -> Folder {
    let folder = Folder::new(name);
    folder.write("late.s", LATE);
    folder.run("gcc -shared -nostdlib -Wl,--build-id late.s -o whole.so && mkdir -p all user/usr/lib user/DEBIAN");
    folder.run("strip -o user/usr/lib/libuser.so whole.so && echo text > user/usr/lib/text");
    folder.run("ln -s /bin/ls user/usr/link && cp user/usr/lib/libuser.so user/usr/lib/other.so");
    folder.run(
        "id=$(readelf -n whole.so | sed -n 's/.*Build ID: //p') && to=debug/usr/lib/debug/.build-id/${id:0:2} && \
         mkdir -p $to debug/DEBIAN && objcopy --only-keep-debug whole.so $to/${id:2}.debug",
    );
    control(&folder, "user", "user", "1.0");
    control(&folder, "debug", "user-dbgsym", "1.0");
    folder.run("dpkg-deb --root-owner-group -Zxz -b user all/user_1.0_amd64.deb");
    folder
}

fn control(folder: &Folder, tree: &str, name: &str, version: &str) {
    let fields = "Package: {}\nSource: users\nVersion: {}\nArchitecture: amd64\nMaintainer: a <a@b>\nDescription: a\n";
    let text = fields.replacen("{}", name, 1).replacen("{}", version, 1);
    folder.write(&format!("{}/DEBIAN/control", tree), text);
}

#[test]
fn what_is_in_a_package_is_what_is_unpacked() {
    let folder = folder("packages");
    folder.run("dpkg-deb -x all/user_1.0_amd64.deb unpacked");
    let unpacked = dwcheck_elf(&folder, "lint unpacked/usr/lib");
    let expected = unpacked.out.replace("unpacked/", "all/user_1.0_amd64.deb/");
    let lint = dwcheck_elf(&folder, "lint --jobs 1 all");
    assert_eq!((lint.status, lint.out.as_str(), lint.error.as_str()), (1, expected.as_str(), ""));
    assert!(lint.out.contains("libuser.so: late push at a function without a name"), "{}", lint.out);
    let survey = dwcheck_elf(&folder, "survey all/user_1.0_amd64.deb");
    assert_eq!((survey.status, survey.lines()[0]), (0, "files 1 repeated 1 unread 0"), "{}", survey.out);
    for words in ["lint --json", "survey --json", "compare"] {
        let without = dwcheck_elf(&folder, &format!("{} all", words));
        let with = || dwcheck_elf(&folder, &format!("{} --store kept all", words));
        assert_eq!((&with().out, &with().out), (&without.out, &without.out));
    }
    let package = "SELECT name, version, architecture, source, member FROM package, place ORDER BY member";
    let rows = "user|1.0|amd64|users|usr/lib/libuser.so\nuser|1.0|amd64|users|usr/lib/other.so\n";
    assert_eq!(folder.run(&format!("sqlite3 kept '{}'", package)), rows);
}

#[test]
fn the_package_beside_it_gives_names() {
    let folder = folder("packages-names");
    folder.run("dpkg-deb --root-owner-group -Zzstd -b debug all/user-dbgsym_1.0_amd64.deb");
    for _ in 0..2 {
        let lint = dwcheck_elf(&folder, "lint --store kept all");
        assert!(lint.out.starts_with("all/user_1.0_amd64.deb/usr/lib/libuser.so: late push at late"), "{}", lint.out);
        assert!(!lint.out.contains("dbgsym"), "{}", lint.out);
    }
    // A new version of the package: the same findings, by the package's name, have moved or stay.
    control(&folder, "user", "user", "1.1");
    folder.run("mv user/usr/lib/libuser.so user/usr/lib/libuser.so.2 && rm -r all user/usr/lib/other.so && mkdir all");
    folder.run("dpkg-deb --root-owner-group -b user all/user_1.1_amd64.deb");
    folder.run("dpkg-deb --root-owner-group -b debug all/user-dbgsym_1.1_amd64.deb");
    dwcheck_elf(&folder, "lint --store new all");
    let diff = dwcheck_elf(&folder, "store diff kept new");
    assert_eq!((diff.status, *diff.lines().last().unwrap()), (0, "new 0 gone 1 moved 1"), "{}", diff.out);
    assert!(diff.lines()[0].starts_with("moved user:amd64: usr/lib/libuser.so.2: late push at late"), "{}", diff.out);
}

#[test]
fn a_package_that_cannot_be_read_is_said_and_others_are_read() {
    let folder = folder("packages-damaged");
    folder.run("head -c 600 all/user_1.0_amd64.deb > all/cut.deb && printf '!<arch>\\ndebian-binary' > all/head.deb");
    for words in ["survey all", "survey --store kept all", "survey --store kept all"] {
        let ran = dwcheck_elf(&folder, words);
        assert_eq!((ran.status, ran.lines()[0]), (3, "files 3 repeated 1 unread 2"), "{} {}", ran.out, ran.error);
        let errors: Vec<_> = ran.error.lines().collect();
        assert_eq!(errors.len(), 2, "{}", ran.error);
        assert!(errors[0].starts_with("dwcheck-elf: all/cut.deb: the package "), "{}", ran.error);
    }
}
