//! Runs `dwcheck-elf survey`, and checks which files it takes and what it writes.

use crate::common::run::dwcheck_elf;
use crate::common::{Folder, C};

/// A folder with programs that are accepted, one that is refused, and files that aren't ELF files.
fn folder(name: &str) -> Folder {
    let folder = Folder::new(name);
    folder.write("a.c", C);
    folder.run("mkdir -p all/below all/empty && gcc -O2 a.c -o all/good && gcc -O2 -c a.c -o all/object.o");
    folder.write(
        "bad.s",
        ".globl _start\n.type _start, @function\n_start: .cfi_startproc\n nop\n .cfi_remember_state\n nop\n .cfi_endproc\n\
         .globl other\n.type other, @function\nother: .cfi_startproc\n nop\n .cfi_escape 0x0b\n nop\n .cfi_endproc\n",
    );
    folder.run("as bad.s -o bad.o && ld bad.o -o all/below/bad");
    folder
        .run("cp all/good all/below/copy && ln all/good all/link && ln -s .. all/below/loop && ln -s good all/pointer");
    folder.run("printf 'no ELF file' > all/text && : > all/nothing && ln -s nowhere all/broken && mkfifo all/pipe");
    folder
}

#[test]
fn each_file_is_taken_once() {
    let folder = folder("survey");
    let ran = dwcheck_elf(&folder, "survey all");
    assert_eq!((ran.status, ran.error.as_str()), (1, ""));
    let lines = ran.lines();
    assert!(lines[0].starts_with("all/below/bad: .eh_frame+0x"), "{}", ran.out);
    assert!(lines[0].contains(": Unrestored: the end of the program, FDE 0x") && lines[0].ends_with(" (_start)"));
    assert_eq!((lines[2], lines.len()), ("files 3 repeated 2 unread 0", 5), "{}", ran.out);
    assert!(lines[3].starts_with("sections 3 accepted 2 refused 1 "), "{}", ran.out);
    let all = dwcheck_elf(&folder, "survey --all --jobs 1 all all/good");
    assert!(all.lines()[2].contains(": RestoreWithoutRemember: restore_state, FDE 0x"), "{}", all.out);
    assert_eq!(dwcheck_elf(&folder, "survey all/good all/object.o").status, 0);
}

/// With gimli's rows beside the library's, and with notes, for which the records are read, the same is found as without.
#[test]
fn the_counts_are_those_of_the_compared_rows() {
    let folder = folder("survey-compare");
    let counts = dwcheck_elf(&folder, "survey all").out;
    let compared = dwcheck_elf(&folder, "survey --compare all");
    assert_eq!((compared.status, compared.error.as_str(), &compared.out), (1, "", &counts));
    let noted = dwcheck_elf(&folder, "survey --notes all");
    assert!(noted.out.starts_with(&counts) && noted.lines().len() == 6, "{}", noted.out);
    let check = dwcheck_elf(&folder, "check --compare all/good");
    assert_eq!((check.status, &check.out), (0, &dwcheck_elf(&folder, "check all/good").out));
}

#[test]
fn a_line_of_json_each() {
    let folder = folder("survey-json");
    let ran = dwcheck_elf(&folder, "survey --json all");
    let script = "import json, sys\nfor line in sys.stdin: one = json.loads(line); print(sorted(one), \
                  [s['accepted'] for s in one.get('sections', [])])";
    folder.write("lines", &ran.out);
    folder.write("show.py", script);
    let shown = folder.run("python3 show.py < lines");
    let file = |accepted: &str| format!("['file', 'machine', 'sections'] [{}]\n", accepted);
    assert_eq!(shown, file("False") + &file("True") + &file("True") + "['totals'] []\n");
    assert!(ran.out.contains("\"fault\":\"Unrestored\"") && ran.out.contains("\"function\":\"_start\""), "{}", ran.out);
}

/// SARIF: the fault of a program with line tables is at the line of its FDE's first address, and that of one without
/// at its address.
#[test]
fn faults_as_sarif() {
    let folder = folder("survey-sarif");
    folder.run("as -g bad.s -o lined.o && ld lined.o -o all/lined");
    folder.write(
        "show.py",
        "import json, sys\nrun, = json.load(sys.stdin)['runs']\nfor one in run['results']:\n\
         \x20place = one['locations'][0]\n\
         \x20found = place['physicalLocation']\n\
         \x20print(one['ruleId'], one['level'], found['artifactLocation']['uri'], found['region']['startLine'],\n\
         \x20 'address' in found, place['logicalLocations'][0]['fullyQualifiedName'])\n\
         print([rule['id'] for rule in run['tool']['driver']['rules']], run['properties']['totals']['refused'])\n",
    );
    let ran = dwcheck_elf(&folder, "survey --sarif all");
    folder.write("document", &ran.out);
    let shown = folder.run("python3 show.py < document");
    let expected =
        "Unrestored error all/below/bad 1 True _start\nUnrestored error bad.s 4 False _start\n['Unrestored'] 2\n";
    assert_eq!((ran.status, shown.as_str()), (1, expected));
    assert_eq!(dwcheck_elf(&folder, "survey --sarif --json all").status, 2);
}

#[test]
fn what_cannot_be_read_is_said() {
    let folder = folder("survey-unread");
    folder.run("head -c 5000 all/good > all/cut");
    let ran = dwcheck_elf(&folder, "survey all nowhere");
    assert_eq!(ran.status, 3);
    assert!(
        ran.error.contains("cannot read nowhere: ") && ran.error.contains("all/cut: not an ELF file"),
        "{}",
        ran.error
    );
    assert!(ran.out.contains(" unread 2\n"), "{}", ran.out);
}

/// In a folder they are passed over, but who names a file wants to know of it.
#[test]
fn a_file_that_is_named_and_is_not_an_elf_file_is_said() {
    let folder = folder("survey-named");
    folder.run("ar rc lib.a all/object.o && ar rcT thin.a all/object.o");
    for (path, why) in [
        ("all/text", "not an ELF file"),
        ("all/nothing", "not an ELF file"),
        ("all/pipe", "neither a regular file nor a folder"),
        ("lib.a", "an archive, not an ELF file; take its objects out by ar x"),
        ("thin.a", "an archive, not an ELF file; take its objects out by ar x"),
    ] {
        let ran = dwcheck_elf(&folder, &format!("survey all/good {}", path));
        assert_eq!((ran.status, ran.lines()[0]), (3, "files 1 repeated 0 unread 1"));
        assert_eq!(ran.error, format!("dwcheck-elf: cannot read {}: {}\n", path, why));
        let ran = dwcheck_elf(&folder, &format!("survey --json {}", path));
        assert!(ran.status == 3 && ran.out.contains(&format!("\"error\":\"{}\"", why)), "{}", ran.out);
    }
}
