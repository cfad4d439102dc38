//! The frames of core files, as `dwcheck-elf`, gdb and eu-stack show them.

use crate::common::Folder;

/// Says the addresses of all frames that gdb finds by unwinding.
const FRAMES: &str = "set backtrace past-main on
python
frame = gdb.newest_frame()
width = 10 if frame.architecture().name() == 'i386' else 18
while frame is not None:
    if frame.type() not in (gdb.INLINE_FRAME, gdb.TAILCALL_FRAME):
        print('frame', '%#0*x' % (width, frame.pc()))
    frame = frame.older()
end
";

/// The lines of frames that `dwcheck-elf stack` writes, without the numbers, and without functions that ended with a
/// jump.
pub fn frames(out: &str) -> Vec<&str> {
    let mut found: Vec<&str> = Vec::new();
    for (_, frame) in out.lines().filter_map(|line| line.strip_prefix('#')?.split_once(' ')) {
        if frame.ends_with(" tail call") {
            let inlined = found.iter().rev().take_while(|frame| frame.contains(" inlined")).count();
            found.truncate(found.len() - inlined);
        } else {
            found.push(frame);
        }
    }
    found
}

/// The addresses of lines of frames.
pub fn addresses<'a>(frames: &[&'a str]) -> Vec<&'a str> {
    frames.iter().map(|frame| frame.split(' ').next().unwrap()).collect()
}

/// The last line, which says why there are no more frames.
pub fn stop(out: &str) -> &str {
    out.lines().last().unwrap()
}

/// The addresses of the frames of the core file `core` that gdb finds by unwinding.
pub fn by_gdb(folder: &Folder, program: &str) -> Vec<String> {
    by_gdb_of("gdb", folder, program)
}

/// The same by a gdb of this name, for core files of other machines.
pub fn by_gdb_of(gdb: &str, folder: &Folder, program: &str) -> Vec<String> {
    folder.write("frames.gdb", FRAMES);
    let shown = folder.run(&format!("{} --batch -x frames.gdb {} core | sed -n 's/^frame //p'", gdb, program));
    shown.lines().map(str::to_string).collect()
}

/// The same by eu-stack.
pub fn by_eu_stack(folder: &Folder, program: &str) -> Vec<String> {
    let shown = folder.run(&format!("eu-stack --core core -e {} 2> /dev/null || true", program));
    let frames = shown.lines().filter(|line| line.starts_with('#'));
    frames.map(|line| line.split_whitespace().nth(1).unwrap().to_string()).collect()
}
