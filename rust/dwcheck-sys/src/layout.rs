//! Tests that the structures and constants are those of `dwcheck.h`, and of `dwcheck-dl.h`: a C program that
//! includes the headers prints sizes, offsets and numbers, which are compared with Rust's.

use std::env;
use std::fs;
use std::mem::{align_of, size_of, MaybeUninit};
use std::path::{Path, PathBuf};
use std::process::Command;
use std::ptr::addr_of;

/// Takes the name of a structure in Rust, its name in C, and the names of its fields. Gives two
/// strings. The first has lines with the structure's size and alignment, and with the offset and
/// size of each field. The second has C statements that print these lines as the C compiler sees
/// them.
macro_rules! layout {
    ($rust:ident, $c:literal: $($field:ident)*) => {{
        let whole = MaybeUninit::<crate::$rust>::uninit();
        let at = whole.as_ptr();
        let mut lines = format!("{} {} {}\n", $c, size_of::<crate::$rust>(), align_of::<crate::$rust>());
        let mut statements = format!(
            "printf(\"{0} %zu %zu\\n\", sizeof({0}), _Alignof({0}));\n", $c
        );
        $(
            // SAFETY: the address is within `whole`, and nothing is read.
            let place = unsafe { addr_of!((*at).$field) };
            let offset = place as usize - at as usize;
            lines += &format!("{}.{} {} {}\n", $c, stringify!($field), offset, size_at(place));
            statements += &format!(
                "printf(\"{0}.{1} %zu %zu\\n\", offsetof({0}, {1}), sizeof((({0} *)0)->{1}));\n",
                $c, stringify!($field)
            );
        )*
        (lines, statements)
    }};
}

fn size_at<T>(_: *const T) -> usize {
    size_of::<T>()
}

fn layouts() -> (String, String) {
    let all = [
        layout!(Fault, "dwcheck_fault": number offset within reserved),
        layout!(Counts, "dwcheck_counts": cies fdes rows frame_expressions tables lists list_expressions),
        layout!(LeftOut, "dwcheck_left_out": offset fault),
        layout!(Record, "dwcheck_record": next program cie start end code_alignment_factor data_alignment_factor
            kind version return_reg is_signal_frame),
        layout!(Expression, "dwcheck_expression": offset length within kind operations depth),
        layout!(Process, "dwcheck_process": opaque opaque_open),
        layout!(Module, "dwcheck_module": frame frame_length load_address first last cookie room
            order address_size has_range kind section_address text_start data_start),
        layout!(Loaded, "dwcheck_loaded": id cookie load_address first last),
        layout!(Rule, "dwcheck_rule": offset length reg source kind),
        layout!(Row, "dwcheck_row": id cookie load_address start end cfa return_reg count),
        layout!(Block, "dwcheck_block": base bytes length),
        layout!(State, "dwcheck_state": contents contents_length known known_length blocks blocks_length
            kept kept_length stack_pointer has_stack_pointer reserved signed_bits),
        layout!(Answer, "dwcheck_answer": value kind reserved),
        layout!(Register, "dwcheck_register": value kind number),
        layout!(Caller, "dwcheck_caller": cfa return_address count),
        layout!(Frame, "dwcheck_frame": address cfa),
        layout!(Cache, "dwcheck_cache": hints),
        layout!(Cursor, "dwcheck_cursor": contents known address stage reserved),
        layout!(Reader, "dwcheck_reader": read data order address_size),
        layout!(Header, "dwcheck_header": bytes length address),
        layout!(Rows, "dwcheck_rows": words),
        layout!(Place, "dwcheck_place": address key stack_pointer frame_pointer is_saved reserved),
        layout!(RegisterPlace, "dwcheck_register_place": address key stack_pointer rbx rbp r12 r13 r14 r15),
        layout!(RegisterFrame, "dwcheck_register_frame": place cfa),
        layout!(Context, "dwcheck_context": cfa frame_base object has_cfa has_frame_base has_object
            reserved),
        layout!(Value, "dwcheck_value": value kind offset steps count),
        layout!(Piece, "dwcheck_piece": value kind size bit_offset is_bits),
        layout!(Lookup, "dwcheck_lookup": base address list reserved),
        layout!(Location, "dwcheck_location": offset length),
        #[cfg(feature = "dl")]
        layout!(DlRequest, "dwcheck_dl_request": context marks options stop reserved),
    ];
    all.into_iter().unzip()
}

/// Pairs of a constant's name in the header and its value in `ffi`. The arguments alternate between
/// the names in `ffi` and the names in the header, the latter without `DWCHECK_`.
macro_rules! numbers {
    ($($rust:ident $c:literal)*) => {
        [$((concat!("DWCHECK_", $c), crate::$rust as u64)),*]
    };
}

fn constants() -> (String, String) {
    let all = numbers! {
        DONE "DONE" REFUSED "REFUSED" NO_MEMORY "NO_MEMORY" NO_ROOM "NO_ROOM" TOO_LONG "TOO_LONG"
        NONE "NONE" OVERLAPS "OVERLAPS" BAD_RANGE "BAD_RANGE" NO_PLACE "NO_PLACE" NO_TABLE "NO_TABLE" LITTLE "LITTLE" BIG "BIG"
        IN_FRAME "IN_FRAME" IN_LISTS "IN_LISTS" IN_EXPRESSION "IN_EXPRESSION" IN_ABI "IN_ABI"
        IN_EH_FRAME "IN_EH_FRAME"
        DEBUG_FRAME "DEBUG_FRAME" EH_FRAME "EH_FRAME" EH_FRAME_AARCH64 "EH_FRAME_AARCH64" LEAVE_OUT "LEAVE_OUT"
        RECORD_CIE "RECORD_CIE" RECORD_FDE "RECORD_FDE" RECORD_EMPTY "RECORD_EMPTY"
        CFA_RULE "CFA_RULE" RULE_UNDEFINED "RULE_UNDEFINED"
        RULE_SAME_VALUE "RULE_SAME_VALUE" RULE_OFFSET "RULE_OFFSET"
        RULE_VAL_OFFSET "RULE_VAL_OFFSET" RULE_REGISTER "RULE_REGISTER"
        RULE_EXPRESSION "RULE_EXPRESSION" RULE_VAL_EXPRESSION "RULE_VAL_EXPRESSION"
        MAX_RULES "MAX_RULES" ANSWER_NOT_COVERED "ANSWER_NOT_COVERED" ANSWER_VALUE "ANSWER_VALUE" ANSWER_UNDEFINED "ANSWER_UNDEFINED"
        ANSWER_UNREADABLE "ANSWER_UNREADABLE" ANSWER_DIVISION_BY_ZERO "ANSWER_DIVISION_BY_ZERO"
        MAX_REGISTERS "MAX_REGISTERS" STOP_LIMIT "STOP_LIMIT" STOP_NOT_COVERED "STOP_NOT_COVERED"
        STOP_RETURN_UNDEFINED "STOP_RETURN_UNDEFINED"
        STOP_RETURN_UNREADABLE "STOP_RETURN_UNREADABLE"
        STOP_RETURN_DIVISION_BY_ZERO "STOP_RETURN_DIVISION_BY_ZERO"
        STOP_MISSING "STOP_MISSING" STOP_OTHER "STOP_OTHER"
        CURSOR_EXACT "CURSOR_EXACT" CURSOR_CALLER "CURSOR_CALLER"
        EXPRESSION_CFA "EXPRESSION_CFA" EXPRESSION_REGISTER "EXPRESSION_REGISTER" EXPRESSION_LOCATION "EXPRESSION_LOCATION"
        OUTCOME_VALUE "OUTCOME_VALUE" OUTCOME_UNREADABLE "OUTCOME_UNREADABLE"
        OUTCOME_DIVISION_BY_ZERO "OUTCOME_DIVISION_BY_ZERO" LOCATION_NOWHERE "LOCATION_NOWHERE"
        LOCATION_ADDRESS "LOCATION_ADDRESS" LOCATION_REGISTER "LOCATION_REGISTER"
        LOCATION_VALUE "LOCATION_VALUE" LOCATION_BYTES "LOCATION_BYTES"
        LOCATION_PIECES "LOCATION_PIECES" MAX_PIECES "MAX_PIECES"
    };
    #[cfg(feature = "dl")]
    let of_dl = numbers! {
        DL_BY_ROW "DL_BY_ROW" DL_BY_CALL "DL_BY_CALL" DL_BY_FRAME_POINTER "DL_BY_FRAME_POINTER"
        DL_FRAME_POINTERS "DL_FRAME_POINTERS" DL_STOP_REFUSED "DL_STOP_REFUSED" DL_STOP_STACK "DL_STOP_STACK"
    };
    #[cfg(not(feature = "dl"))]
    let of_dl: [(&str, u64); 0] = [];
    all.iter()
        .chain(of_dl.iter())
        .map(|(name, number)| {
            let line = format!("{} {}\n", name, number);
            let statement = format!("printf(\"{0} %d\\n\", (int){0});\n", name);
            (line, statement)
        })
        .unzip()
}

/// The folder of the header: the value of `DWCHECK_INCLUDE_DIR`, or else `c/include` in the
/// repository. `None` if the folder has no `dwcheck.h`.
fn include_folder() -> Option<PathBuf> {
    let folder = match env::var_os("DWCHECK_INCLUDE_DIR") {
        Some(folder) => PathBuf::from(folder),
        None => Path::new(env!("CARGO_MANIFEST_DIR")).join("../../c/include"),
    };
    folder.join("dwcheck.h").is_file().then_some(folder)
}

/// Compiles a C program that includes the header and whose `main` has these statements, and returns
/// what it prints. `None` if there is no C compiler.
fn run_c(include: &Path, statements: &str) -> Option<String> {
    let folder = env::temp_dir().join(format!("dwcheck-layout-{}", std::process::id()));
    fs::create_dir_all(&folder).unwrap();
    let (source, program) = (folder.join("layout.c"), folder.join("layout"));
    let text = format!(
        "#include <stdio.h>\n#include \"dwcheck-dl.h\"\nint main(void) {{\n{}return 0;\n}}\n",
        statements
    );
    fs::write(&source, text).unwrap();
    let compiler = env::var_os("CC").unwrap_or_else(|| "cc".into());
    let compiled = Command::new(compiler)
        .arg("-std=c11")
        .arg("-I")
        .arg(include)
        .arg(&source)
        .arg("-o")
        .arg(&program)
        .status();
    let printed = match compiled {
        Ok(status) => {
            assert!(status.success(), "the header or a name doesn't compile");
            let output = Command::new(&program).output().unwrap();
            Some(String::from_utf8(output.stdout).unwrap())
        }
        Err(_) => None,
    };
    fs::remove_dir_all(&folder).unwrap();
    printed
}

#[test]
fn c_has_the_same_layouts_and_numbers() {
    let include = match include_folder() {
        Some(folder) => folder,
        None => return eprintln!("dwcheck.h isn't there: nothing is compared"),
    };
    let (layout_lines, layout_statements) = layouts();
    let (mut number_lines, mut number_statements) = constants();
    // the version of the library that is linked has to be the header's
    // SAFETY: the call has no preconditions.
    let version = unsafe { crate::dwcheck_version() };
    number_lines += &format!("version {}.{}\n", version >> 16, version & 0xffff);
    number_statements +=
        "printf(\"version %d.%d\\n\", DWCHECK_VERSION >> 16, DWCHECK_VERSION & 0xffff);\n";
    match run_c(&include, &(layout_statements + &number_statements)) {
        Some(printed) => assert_eq!(printed, layout_lines + &number_lines),
        None => eprintln!("no C compiler is there: nothing is compared"),
    }
}
