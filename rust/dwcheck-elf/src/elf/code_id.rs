//! The id that Breakpad gives to a file without a build id.

use object::read::{Object, ObjectSection};

/// The id (`HashElfTextSection` of Breakpad's `file_id.cc`): the beginning of `.text`, of which each 16 bytes are taken
/// together by exclusive or. The last 16 may reach past the section.
pub(crate) fn build_id_of_code(bytes: &[u8]) -> Option<[u8; 16]> {
    const TAKEN: u64 = 4096;
    let mut id = [0; 16];
    let file = object::File::parse(bytes).ok()?;
    let (begin, size) = file.section_by_name(".text")?.file_range()?;
    let code = bytes.get(usize::try_from(begin).ok()?..)?;
    let taken = (size.min(TAKEN) as usize + id.len() - 1) / id.len() * id.len();
    for part in code.get(..taken).unwrap_or(code).chunks(id.len()) {
        id.iter_mut().zip(part).for_each(|(byte, one)| *byte ^= one);
    }
    Some(id)
}
