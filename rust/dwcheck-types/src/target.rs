//! Targets: the byte order and the address size of the machine that a file or a section is for.

/// A byte order.
#[derive(Clone, Copy, Debug, PartialEq, Eq, Hash)]
pub enum Order {
    /// The least significant byte first.
    Little,
    /// The most significant byte first.
    Big,
}

/// The size of an address.
#[derive(Clone, Copy, Debug, PartialEq, Eq, Hash)]
pub enum AddressSize {
    /// Four bytes, 32 bits.
    Four,
    /// Eight bytes, 64 bits.
    Eight,
}

/// The machine that a section is for: a byte order and an address size.
///
/// In the documentation, w is the address size in bits. Arithmetic on addresses is modulo 2^w.
///
/// ```
/// use dwcheck_types::target::{AddressSize, Order, Target};
///
/// let powerpc = Target { order: Order::Big, address_size: AddressSize::Four };
/// assert_eq!(powerpc, Target::BIG_32);
/// ```
#[derive(Clone, Copy, Debug, PartialEq, Eq, Hash)]
pub struct Target {
    /// The order of a number's bytes.
    pub order: Order,
    /// The size of an address.
    pub address_size: AddressSize,
}

impl AddressSize {
    /// The size in bytes.
    pub const fn bytes(self) -> u8 {
        match self {
            AddressSize::Four => 4,
            AddressSize::Eight => 8,
        }
    }

    /// The highest address.
    pub const fn highest(self) -> u64 {
        match self {
            AddressSize::Four => u32::MAX as u64,
            AddressSize::Eight => u64::MAX,
        }
    }
}

impl Target {
    /// Little-endian with 64-bit addresses: x86-64, and nearly always aarch64 and riscv64.
    pub const LITTLE_64: Target = Target { order: Order::Little, address_size: AddressSize::Eight };

    /// Little-endian with 32-bit addresses: i386, and nearly always arm and riscv32.
    pub const LITTLE_32: Target = Target { order: Order::Little, address_size: AddressSize::Four };

    /// Big-endian with 64-bit addresses, such as s390x.
    pub const BIG_64: Target = Target { order: Order::Big, address_size: AddressSize::Eight };

    /// Big-endian with 32-bit addresses, such as powerpc.
    pub const BIG_32: Target = Target { order: Order::Big, address_size: AddressSize::Four };

    /// `address` modulo 2^w.
    pub const fn wrap(self, address: u64) -> u64 {
        address & self.address_size.highest()
    }

    /// Appends the low `size` bytes of `number`.
    pub fn push(self, bytes: &mut Vec<u8>, number: u64, size: u8) {
        let size = usize::from(size.min(8));
        match self.order {
            Order::Little => bytes.extend(number.to_le_bytes().iter().take(size)),
            Order::Big => bytes.extend(number.to_be_bytes().iter().skip(8 - size)),
        }
    }

    /// The unsigned number that up to 8 bytes hold.
    pub fn number(self, bytes: &[u8]) -> u64 {
        let add = |number: u64, byte: &u8| number << 8 | u64::from(*byte);
        match self.order {
            Order::Little => bytes.iter().rev().fold(0, add),
            Order::Big => bytes.iter().fold(0, add),
        }
    }

    /// The byte order, as gimli takes it.
    #[cfg(feature = "gimli")]
    pub fn gimli_order(self) -> gimli::RunTimeEndian {
        match self.order {
            Order::Little => gimli::RunTimeEndian::Little,
            Order::Big => gimli::RunTimeEndian::Big,
        }
    }
}
