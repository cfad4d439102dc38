//! What walks without rows have to know of the process of a core file.

use super::Stacks;
use crate::process::without_row::View;
use dwcheck::Error;
use dwcheck_types::abi::Abi;
use dwcheck_types::target::Target;

/// Below this address no process has code: Linux maps nothing there (`vm.mmap_min_addr`).
const LOWEST: u64 = 1 << 16;

impl View for Stacks<'_> {
    fn target(&self) -> Target {
        self.core.target()
    }

    fn abi(&self) -> &'static Abi {
        self.core.abi()
    }

    fn signed_bits(&self) -> u64 {
        self.core.signed_bits()
    }

    fn read(&self, address: u64, bytes: &mut [u8]) -> usize {
        self.memory.read_some(address, bytes)
    }

    fn is_executable(&self, address: u64) -> bool {
        let is_executable = self.core.is_executable(address);
        if !self.core.lacks_maps() {
            return is_executable;
        }
        // The files of modules say which of their addresses are code.
        let tables = self.tables.borrow();
        tables.module_at(address).is_some() || is_executable && !tables.is_in_module(address)
    }

    fn may_be_code(&self, address: u64) -> bool {
        let is_known = || self.memory.from(address).is_some() || self.core.is_executable(address);
        self.core.lacks_maps() && address >= LOWEST && !is_known() && !self.tables.borrow().is_in_module(address)
    }

    fn file_at(&self, address: u64) -> Option<usize> {
        let with_symbols = || self.symbol_module_at(address).map(|place| usize::MAX - place);
        self.tables.borrow().module_at(address).or_else(with_symbols)
    }

    fn has_row(&self, address: u64) -> Result<bool, Error> {
        Ok(self.tables.borrow_mut().covers(address)? || self.has_symbol_row(address))
    }
}
