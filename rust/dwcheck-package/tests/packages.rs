//! Packages that dpkg-deb makes are read as it unpacks them, and those that lie are bounded.

use dwcheck_package::{Control, Member, Package, PackageError};
use std::fs::{self, File};
use std::path::{Path, PathBuf};
use std::process::Command;
use std::sync::atomic::{AtomicUsize, Ordering};

static FOLDERS: AtomicUsize = AtomicUsize::new(0);

/// A temporary folder, which is removed at the end.
struct Folder(PathBuf);

impl Folder {
    fn new() -> Folder {
        let name = format!("dwcheck-package-{}-{}", std::process::id(), FOLDERS.fetch_add(1, Ordering::Relaxed));
        let folder = std::env::temp_dir().join(name);
        fs::create_dir_all(&folder).unwrap();
        Folder(folder)
    }

    fn run(&self, line: &str) -> String {
        let output = Command::new("bash").args(["-c", line]).current_dir(&self.0).output().unwrap();
        assert!(output.status.success(), "{}\n{}", line, String::from_utf8_lossy(&output.stderr));
        String::from_utf8(output.stdout).unwrap()
    }

    /// A folder `tree` with a description and files, one of which has a long name, and links.
    fn tree() -> Folder {
        let folder = Folder::new();
        folder.run(
            "mkdir -p tree/DEBIAN tree/usr/lib && cd tree && seq 20000 > usr/lib/numbers && : > usr/empty && \
             echo long > usr/$(printf 'n%.0s' {1..150}) && ln -s /etc/passwd usr/link && \
             printf 'Package: libuser2\\nSource: user (1.0)\\nVersion: 1:1.0-2\\nArchitecture: amd64\\n\
             Maintainer: a <a@b>\\nDescription: Package: no\\n' > DEBIAN/control",
        );
        folder
    }

    fn open(&self, name: &str) -> Result<Package, PackageError> {
        Package::open(File::open(self.0.join(name)).unwrap())
    }
}

impl Drop for Folder {
    fn drop(&mut self) {
        let _ = fs::remove_dir_all(&self.0);
    }
}

/// The regular files of a package: their paths and contents.
fn files(package: &Package) -> Result<Vec<(String, Vec<u8>)>, PackageError> {
    let mut files = Vec::new();
    package.each_file(|member: Member<'_>| {
        let mut bytes = Vec::new();
        member.bytes.read_to_end(&mut bytes)?;
        files.push((member.path, bytes));
        Ok::<_, PackageError>(())
    })?;
    files.sort();
    Ok(files)
}

/// The regular files in a folder.
fn files_in(folder: &Path) -> Vec<(String, Vec<u8>)> {
    let names = Command::new("bash").args(["-c", "find usr -type f | sort"]).current_dir(folder).output();
    let names = String::from_utf8(names.unwrap().stdout).unwrap();
    names.lines().map(|name| (name.to_string(), fs::read(folder.join(name)).unwrap())).collect()
}

#[test]
fn packages_of_each_compression_are_read_as_dpkg_unpacks_them() {
    let folder = Folder::tree();
    for compression in ["gzip", "xz", "zstd", "none"] {
        folder.run(&format!(
            "rm -rf out && dpkg-deb --root-owner-group -Z{} -b tree a.deb && dpkg-deb -x a.deb out",
            compression
        ));
        let package = folder.open("a.deb").unwrap();
        let words = ["libuser2", "1:1.0-2", "amd64", "user"].map(str::to_string);
        let [name, version, architecture, source] = words;
        assert_eq!(*package.control(), Control { name, version, architecture, source });
        assert!(files(&package).unwrap() == files_in(&folder.0.join("out")), "{}", compression);
    }
}

/// Makes `lies.deb` with these members of `data.tar`, each a line of Python.
fn lies(folder: &Folder, members: &str) -> Result<Vec<(String, Vec<u8>)>, PackageError> {
    let script = format!(
        "import io, tarfile\nout = tarfile.open('data.tar', 'w', format=tarfile.PAX_FORMAT)\n\
         def add(name, data=b'', **more):\n    one = tarfile.TarInfo(name)\n    one.size = len(data)\n    \
         for key, value in more.items(): setattr(one, key, value)\n    out.addfile(one, io.BytesIO(data))\n{}\nout.close()\n",
        members
    );
    fs::write(folder.0.join("make.py"), script).unwrap();
    folder.run("python3 make.py && tar -cf control.tar -C tree/DEBIAN ./control && echo 2.0 > debian-binary");
    folder.run("rm -f lies.deb && ar rc lies.deb debian-binary control.tar data.tar");
    files(&folder.open("lies.deb")?)
}

#[test]
fn packages_that_lie_are_told_or_bounded() {
    let folder = Folder::tree();
    let mut out = Vec::new();
    lies(&folder, "add('./../../etc/cron.d/x', b'x')\nadd('/etc/y', b'y')").unwrap();
    folder
        .open("lies.deb")
        .unwrap()
        .each_file(|member| {
            out.push((member.path, member.leads_out));
            Ok::<_, PackageError>(())
        })
        .unwrap();
    assert_eq!(out, [("../../etc/cron.d/x".to_string(), true), ("etc/y".to_string(), false)]);
    // Links to anywhere, and devices, are no files.
    let links =
        "add('a', type=tarfile.SYMTYPE, linkname='/etc/passwd')\nadd('b', type=tarfile.LNKTYPE, linkname='../b')\n\
                 add('c', type=tarfile.CHRTYPE, devmajor=1, devminor=5)\nadd('d', b'd')";
    assert_eq!(lies(&folder, links).unwrap(), [("d".to_string(), b"d".to_vec())]);
    // A long path, and a member that claims terabytes.
    let long = lies(&folder, "add('p' * 300, b'1')").unwrap();
    assert_eq!(long, [("p".repeat(300), b"1".to_vec())]);
    let size = lies(&folder, "add('big')\nout.fileobj.seek(124)\nout.fileobj.write(b'7' * 11)\nout.fileobj.seek(0, 2)");
    assert!(size.is_ok() || size.unwrap_err().to_string().lines().count() == 1);
    assert_eq!(lies(&folder, "for number in range(20000): add(f'{number}', type=tarfile.DIRTYPE)").unwrap(), []);
}

/// Of a package in which bytes are changed, or whose end is missing, the files are read or an error of one line is given.
#[test]
fn damaged_packages_give_files_or_errors() {
    let folder = Folder::tree();
    for compression in ["gzip", "xz", "zstd", "none"] {
        folder.run(&format!("dpkg-deb --root-owner-group -Z{} -b tree a.deb", compression));
        let whole = fs::read(folder.0.join("a.deb")).unwrap();
        for number in 0..60 {
            let (mut bytes, at) = (whole.clone(), whole.len() * number / 60);
            match number % 3 {
                0 => bytes.truncate(at),
                1 => bytes[at] ^= 0x55,
                _ => bytes[at..].iter_mut().take(12).for_each(|byte| *byte = b'9'),
            }
            fs::write(folder.0.join("damaged.deb"), bytes).unwrap();
            if let Err(error) = folder.open("damaged.deb").and_then(|package| files(&package)) {
                assert_eq!(error.to_string().lines().count(), 1, "{}", error);
            }
        }
    }
}

/// The head of a part says that it has more bytes than there are, or names a table of names that isn't there.
#[test]
fn archives_that_lie_are_refused_in_a_line() {
    let folder = Folder::new();
    let head = |name: &str, size: &str| format!("{:<16}{:<12}{:<6}{:<6}{:<8}{:<10}`\n", name, 0, 0, 0, 644, size);
    for text in [
        "!<arch>\n".to_string(),
        format!("!<arch>\n{}", head("control.tar", "9999999999")),
        format!("!<arch>\n{}x", head("/123456", "1")),
        format!("!<arch>\n{}", head("//", "9999999999")),
        format!("!<arch>\n{}", head("control.tar", "many")),
        "no archive".to_string(),
        String::new(),
    ] {
        fs::write(folder.0.join("a.deb"), &text).unwrap();
        let error = folder.open("a.deb").unwrap_err().to_string();
        assert!(error.starts_with("the package ") && error.lines().count() == 1, "{}", error);
    }
}
