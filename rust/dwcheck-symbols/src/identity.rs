//! What a symbol file is for: the `MODULE` record, and the file's place in a store.

use std::borrow::Cow;
use std::fmt;
use std::path::PathBuf;

/// The bytes of a GUID.
const GUID: usize = 16;

/// The program or library that a symbol file is for.
#[derive(Clone, Debug, PartialEq, Eq)]
pub struct Identity<'t> {
    /// The system, such as `Linux`.
    pub system: Cow<'t, str>,
    /// The machine, such as `x86_64`.
    pub machine: Cow<'t, str>,
    /// The id: a GUID in hex digits, followed by an age, which is `0`.
    pub id: Cow<'t, str>,
    /// The name of the program's file, without its folder.
    pub name: Cow<'t, str>,
}

impl<'t> Identity<'t> {
    /// Reads a `MODULE` record.
    pub(crate) fn parse(line: &'t [u8]) -> Option<Self> {
        let text = line.strip_prefix(b"MODULE ")?;
        let mut words = text.splitn(4, |byte| *byte == b' ').map(String::from_utf8_lossy);
        let mut word = || words.next().filter(|word| !word.is_empty());
        let (system, machine, id, name) = (word()?, word()?, word()?, word()?);
        let is_id = !id.is_empty() && id.bytes().all(|byte| byte.is_ascii_hexdigit());
        is_id.then_some(Identity { system, machine, id, name })
    }

    /// Where a store has the symbol file: `NAME/ID/NAME.sym`. `None` if the name isn't that of a file.
    pub fn path_in_store(&self) -> Option<PathBuf> {
        path_in_store(&self.name, &self.id)
    }

    /// Whether the id is that of this build id.
    pub fn is_of(&self, build_id: &[u8]) -> bool {
        self.id.eq_ignore_ascii_case(&debug_id(build_id))
    }
}

/// The place of a symbol file in a store, by the name of the program and the id.
fn path_in_store(name: &str, id: &str) -> Option<PathBuf> {
    let is_plain = !name.is_empty() && !matches!(name, "." | "..") && !name.contains(&['/', '\0'][..]);
    is_plain.then(|| PathBuf::from(name).join(id).join(format!("{}.sym", name)))
}

/// The id that symbol files have for a build id: its first 16 bytes as a GUID, whose first three numbers have the other
/// byte order, and the age 0.
pub fn debug_id(build_id: &[u8]) -> String {
    let mut guid = [0; GUID];
    let size = build_id.len().min(GUID);
    guid[..size].copy_from_slice(&build_id[..size]);
    guid[..4].reverse();
    guid[4..6].reverse();
    guid[6..8].reverse();
    guid.iter().map(|byte| format!("{:02X}", byte)).chain(["0".to_string()]).collect()
}

impl fmt::Display for Identity<'_> {
    fn fmt(&self, f: &mut fmt::Formatter<'_>) -> fmt::Result {
        write!(f, "MODULE {} {} {} {}", self.system, self.machine, self.id, self.name)
    }
}

#[cfg(test)]
mod tests {
    use super::*;

    /// The GUID that Crashpad's dumps have for the build id 00112233445566778899aabbccddeeff01020304.
    #[test]
    fn an_id_is_the_beginning_of_the_build_id_as_a_guid() {
        let id: Vec<u8> = (0..16).map(|byte| byte * 0x11).chain([1, 2, 3, 4]).collect();
        assert_eq!(debug_id(&id), "33221100554477668899AABBCCDDEEFF0");
        assert_eq!(debug_id(&[0xab]), "000000AB0000000000000000000000000");
    }

    #[test]
    fn a_module_and_its_place_in_a_store() {
        let line = b"MODULE Linux x86_64 33221100554477668899AABBCCDDEEFF0 a program";
        let identity = Identity::parse(line).unwrap();
        assert_eq!(identity.to_string().as_bytes(), line);
        let path = PathBuf::from("a program/33221100554477668899AABBCCDDEEFF0/a program.sym");
        assert_eq!(identity.path_in_store(), Some(path));
        assert!(Identity::parse(b"MODULE Linux x86_64 xyz program").is_none());
        assert!(Identity::parse(b"MODULE Linux x86_64 00").is_none());
        let named = |name: &str| Identity { name: Cow::from(name.to_string()), ..identity.clone() }.path_in_store();
        assert_eq!([named(".."), named("../etc"), named("")], [None, None, None]);
    }
}
