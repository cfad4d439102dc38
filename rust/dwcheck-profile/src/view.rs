//! What walks without rows have to know of the process of a sample.

use super::objects::{ObjectId, Objects};
use super::space::{Mapping, Space};
use super::task::Task;
use dwcheck::Error;
use dwcheck_elf::internal::without_row::View;
use dwcheck_types::abi::Abi;
use dwcheck_types::target::Target;

/// The process of a sample: its stack and registers, what it has mapped, and the files of that.
pub(super) struct Sampled<'v> {
    pub task: &'v Task<'v>,
    pub space: &'v Space,
    pub objects: &'v Objects,
    /// How often stacks were walked together before.
    pub round: u32,
}

impl<'v> Sampled<'v> {
    /// The mapping that has code at an address.
    pub fn code(&self, address: u64) -> Option<&'v Mapping> {
        self.space.find(address).filter(|mapping| mapping.is_executable)
    }

    /// The bytes of code from an address on, up to the end of its mapping, if a file has them.
    fn code_from(&self, address: u64) -> Option<&'v [u8]> {
        let mapping = self.code(address)?;
        let bytes = self.objects.loaded(mapping.object)?.bytes.as_ref()?;
        let rest = bytes.get(usize::try_from(mapping.file_offset(address)).ok()?..)?;
        let most = usize::try_from(mapping.last - address).map_or(usize::MAX, |past| past.saturating_add(1));
        rest.get(..most).or(Some(rest))
    }

    /// The file that has the code at an address, and the address as linked.
    fn linked(&self, address: u64) -> Option<(ObjectId, u64)> {
        let mapping = self.code(address)?;
        let linked = self.objects.loaded(mapping.object)?.linked(mapping, address)?;
        Some((mapping.object, linked))
    }
}

impl View for Sampled<'_> {
    fn target(&self) -> Target {
        self.task.target
    }

    fn abi(&self) -> &'static Abi {
        self.task.abi
    }

    fn signed_bits(&self) -> u64 {
        self.task.signed_bits()
    }

    fn read(&self, address: u64, bytes: &mut [u8]) -> usize {
        let held = self.task.stack_from(address).or_else(|| self.code_from(address)).unwrap_or(&[]);
        let count = held.len().min(bytes.len());
        bytes.iter_mut().zip(held).for_each(|(byte, held)| *byte = *held);
        count
    }

    fn is_executable(&self, address: u64) -> bool {
        self.code(address).is_some()
    }

    fn file_at(&self, address: u64) -> Option<usize> {
        self.linked(address).map(|(object, _)| object as usize)
    }

    fn has_row(&self, address: u64) -> Result<bool, Error> {
        let found = self.linked(address).and_then(|(object, linked)| {
            let loaded = self.objects.loaded(object)?;
            loaded.tables.find(linked, self.round)
        });
        Ok(found.is_some())
    }
}
