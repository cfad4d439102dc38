//! The page of `report`, by the data in it.

use crate::common::run::{dwcheck_elf, dwcheck_elf_words};
use crate::common::{hex, place_of, Folder, C};
use serde_json::Value;

/// The data of a page that a run wrote into `page.html`.
fn data(folder: &Folder) -> Value {
    let page = String::from_utf8(folder.bytes("page.html")).unwrap();
    let (_, rest) = page.split_once("<script id=\"data\" type=\"application/json\">").unwrap();
    serde_json::from_str(rest.split_once("</script>").unwrap().0).unwrap()
}

fn list(value: &Value) -> &[Value] {
    value.as_array().unwrap()
}

/// The index of the function with this name.
fn function(program: &Value, name: &str) -> usize {
    list(&program["functions"]).iter().position(|one| one[3] == name).unwrap()
}

/// The rows of a function: the first address, the CFA and the rules of each.
fn rows(program: &Value, name: &str) -> Vec<(u64, String, Vec<String>)> {
    let index = function(program, name);
    let begin = hex(program["functions"][index][0].as_str().unwrap());
    let text = |table: &str, number: &str| {
        let texts = &program["head"][table];
        texts[number.parse::<usize>().unwrap()].as_str().unwrap().to_string()
    };
    let row = |one: &str| {
        let numbers: Vec<_> = one.split(' ').collect();
        let rules = text("rules", numbers[2]).split(' ').map(str::to_string).collect();
        (begin + numbers[0].parse::<u64>().unwrap(), text("cfas", numbers[1]), rules)
    };
    program["rows"][index].as_str().unwrap().split_terminator(';').map(row).collect()
}

/// The same rows by readelf, which calls the register of the return address `ra`.
fn by_readelf(folder: &Folder, begin: u64) -> Vec<(u64, String, Vec<String>)> {
    let numbers = [("rax", 0), ("rbx", 3), ("rbp", 6), ("rsp", 7), ("r12", 12), ("r13", 13), ("r14", 14), ("r15", 15)];
    let number = |name: &str| numbers.iter().find(|(one, _)| *one == name).map_or(16, |(_, number)| *number);
    let shown = folder.run("readelf --wide --debug-dump=frames-interp program");
    let mut lines = shown.lines().skip_while(|line| !line.contains(&format!("pc={:016x}..", begin)));
    let heads: Vec<_> = lines.nth(1).unwrap().split_whitespace().skip(2).collect();
    let row = |line: &str| {
        let words: Vec<_> = line.split_whitespace().collect();
        let (register, offset) = words[1].split_once('+').unwrap();
        let rules = heads.iter().zip(&words[2..]).filter(|(_, rule)| **rule != "u");
        let mut rules: Vec<_> =
            rules.map(|(name, rule)| (number(name), format!("r{}=[{}]", number(name), rule))).collect();
        rules.sort();
        let rules = rules.into_iter().map(|(_, rule)| rule).collect();
        (hex(words[0]), format!("r{}+{}", number(register), offset), rules)
    };
    lines.take_while(|line| !line.is_empty()).map(row).collect()
}

/// A function with an FDE, one without, and one whose FDE is refused: it restores a state that it didn't remember.
const ASSEMBLY: &str = ".globl kept, bare, broken
.type kept, @function\nkept: .cfi_startproc\n push %rbx\n .cfi_def_cfa_offset 16\n .cfi_offset %rbx, -16\n pop %rbx\n
 .cfi_def_cfa_offset 8\n ret\n .cfi_endproc\n .size kept, . - kept
.type bare, @function\nbare: xor %eax, %eax\n ret\n .size bare, . - bare
.type broken, @function\nbroken: .cfi_startproc\n push %rbp\n .cfi_escape 0x0b\n pop %rbp\n ret\n .cfi_endproc
 .size broken, . - broken\n";

#[test]
fn rows_are_those_of_readelf_and_are_beside_instructions() {
    let folder = Folder::new("report-rows");
    folder.write("a.c", C);
    folder.run("gcc -O2 a.c -o program");
    let ran = dwcheck_elf(&folder, "report program -o page.html");
    assert_eq!((ran.status, ran.out.as_str(), ran.error.as_str()), (0, "", ""));
    let data = data(&folder);
    let program = &data["programs"][0];
    let section = &program["head"]["sections"][0];
    let counted = dwcheck_elf(&folder, "check program");
    let held = &section["held"];
    let (cies, fdes, rows_held) = (&held["cies"], &held["fdes"], &held["rows"]);
    let counts = format!("cies {} fdes {} rows {} expressions {}\n", cies, fdes, rows_held, held["expressions"]);
    assert!(section["name"] == ".eh_frame" && section["standing"] == "accepted" && counted.out.contains(&counts));
    let ours = rows(program, "mixed");
    assert!(ours.len() > 4, "{:?}", ours);
    assert_eq!(ours, by_readelf(&folder, ours[0].0));
    let first = program["instructions"][function(program, "mixed")].as_str().unwrap().lines().next().unwrap();
    let objdump = folder.run("objdump -d --no-show-raw-insn --disassemble=mixed program");
    let (_, theirs) = objdump.lines().find_map(|line| line.split_once(":\t")).unwrap();
    assert_eq!(first[1..].split_whitespace().collect::<Vec<_>>(), theirs.split_whitespace().collect::<Vec<_>>());
}

#[test]
fn what_is_refused_has_its_bytes_and_code_without_rows_has_its_function() {
    let folder = Folder::new("report-refused");
    folder.assemble("gcc", ASSEMBLY);
    assert_eq!(dwcheck_elf(&folder, "report a.so -o page.html").status, 1);
    let data = data(&folder);
    let program = &data["programs"][0];
    let refusal = &program["head"]["refusals"][0];
    assert!(refusal["text"].as_str().unwrap().ends_with("(broken)"), "{}", refusal);
    let bytes = refusal["bytes"].as_str().unwrap();
    let bytes: Vec<_> = (0..bytes.len() / 2).map(|at| hex(&bytes[2 * at..2 * at + 2]) as u8).collect();
    let record = place_of(&folder.section("a.so", ".eh_frame"), &bytes) as u64;
    assert_eq!((refusal["record"].as_u64(), bytes[4 + bytes[0] as usize..].len()), (Some(record), 0));
    assert_eq!(refusal["listing"], "1push %rbp\n1pop %rbp\n1ret\n");
    let of_kind = |kind: i32| list(&program["gaps"]).iter().filter(move |gap| gap[2] == kind).collect::<Vec<_>>();
    let symbol = |name: &str| hex(folder.run(&format!("nm a.so | grep ' {}$'", name)).split(' ').next().unwrap());
    let bare = (format!("{:x}", symbol("bare")), format!("{:x}", symbol("bare") + 3));
    assert!(matches!(of_kind(0).as_slice(), [gap] if (&gap[0], &gap[1]) == (&bare.0.into(), &bare.1.into())));
    assert!(of_kind(0)[0][3] == "bare" && of_kind(2)[0][3] == "broken");
}

#[test]
fn a_comparison_names_the_functions_whose_rows_differ() {
    let folder = Folder::new("report-compare");
    // Both builds have `same` as it is; the second one has another `changed`, and `added` in place of `removed`.
    let build = |name: &str, words: &str| folder.run(&format!("gcc -O1 -shared -fPIC {} a.c -o {}", words, name));
    folder.write(
        "a.c",
        "int g(int); int same(int x) { return g(x) + 1; }\n#ifdef NEW\nint changed(int x) { return g(x) + g(x + 1); }\n\
         int added(int x) { return x; }\n#else\nint changed(int x) { return g(x); }\nint removed(int x) { return x; }\n#endif\n",
    );
    build("old", "");
    build("new", "-DNEW");
    assert_eq!(dwcheck_elf(&folder, "report --compare old new -o page.html").status, 0);
    let data = data(&folder);
    let (old, new) = (&data["programs"][0], &data["programs"][1]);
    let name = |program: &Value, index: &Value| program["functions"][index.as_u64().unwrap() as usize][3].clone();
    let difference = &data["difference"];
    let changed = &difference["changed"][0];
    assert_eq!((name(old, &changed[0]), name(new, &changed[1])), ("changed".into(), "changed".into()));
    assert_eq!((list(&difference["changed"]).len(), name(new, &difference["added"][0])), (1, "added".into()));
    assert_eq!(name(old, &difference["removed"][0]), "removed");
    assert_eq!(rows(old, "same").len(), rows(new, "same").len());
    assert_eq!(dwcheck_elf(&folder, "report --compare old").status, 2);
}

#[test]
fn names_stay_data_and_only_the_functions_that_are_named_have_rows() {
    let folder = Folder::new("report-names");
    let name = "</script><script>alert(1)</script>";
    let text = ASSEMBLY.replace("kept", "hostile").replace("broken", "other").replace(" .cfi_escape 0x0b\n", "");
    folder.assemble("gcc", text.replace("hostile", &format!("\"{}\"", name)));
    let words = ["report", "a.so", "--function", name, "-o", "page.html"];
    assert_eq!(dwcheck_elf_words(&folder, &words).status, 0);
    let data = data(&folder);
    let program = &data["programs"][0];
    let hostile = function(program, name);
    assert!(program["rows"][hostile].is_string() && program["instructions"][hostile].is_string());
    assert!(program["rows"][function(program, "other")].is_null());
    assert_eq!(program["head"]["leftOut"]["rows"].as_u64(), Some(list(&program["functions"]).len() as u64 - 1));
    assert!(!String::from_utf8(folder.bytes("page.html")).unwrap().contains("<script>alert"));
    // A page that can't be made leaves the one that is there.
    let before = folder.bytes("page.html");
    assert_eq!(dwcheck_elf(&folder, "report a.so --function none -o page.html").status, 2);
    assert_eq!(
        (dwcheck_elf(&folder, "report a.s -o page.html").status, folder.bytes("page.html") == before),
        (3, true)
    );
}

#[test]
fn a_program_is_never_overwritten_by_its_page() {
    let folder = Folder::new("report-overwrite");
    folder.write("a.c", C);
    folder.run("gcc a.c -o program && ln program other");
    let before = folder.bytes("program");
    let ran = dwcheck_elf(&folder, "report program -o other");
    assert!(ran.status == 2 && ran.error.contains("--output other would overwrite program, "), "{}", ran.error);
    assert_eq!(folder.bytes("program"), before);
}
