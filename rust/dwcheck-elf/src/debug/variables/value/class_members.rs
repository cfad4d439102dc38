//! Reads pointers to members of classes of C++, as the Itanium C++ ABI has them (section 2.3).

use super::numbers::{signed_number, unsigned_number};
use super::{is_member_entry, Part, Value};
use crate::debug::debug_info::Die;
use crate::debug::variables::functions::begin_of;
use crate::debug::variables::location::Locator;
use crate::debug::variables::types::{is_function_type, number_attribute, type_of, type_size, unqualified_type};
use crate::debug::variables::value_location::Missing;
use crate::elf::demangle::demangled;
use gimli::AttributeValue;
use object::elf;

/// How deep base classes are searched. In a hostile file, a class can have itself as one.
const MAX_BASES: usize = 16;

/// `DW_OP_constu`, with which the place of a method in the virtual table begins.
const CONSTU: u8 = 0x10;

/// A pointer to a function of a class, as it is stored.
#[derive(Clone, Copy)]
enum Function {
    /// The address of the function.
    At(u64),
    /// A place in the virtual table.
    Virtual(u64),
}

/// A class, and an offset in it.
struct InClass<'v, 'a> {
    class: Die<'v, 'a>,
    offset: u64,
}

impl<'v, 'a> Locator<'v, 'a> {
    /// A pointer to a member of a class: the member's name, or what is stored.
    pub(super) fn pointer_to_member(&self, kind: &Die<'v, 'a>, part: Part<'_>) -> Result<Value, Missing> {
        let class = kind.referred_entry(gimli::DW_AT_containing_type).and_then(|class| unqualified_type(&class));
        let target = type_of(kind).and_then(|target| unqualified_type(&target));
        let bytes = self.number_bytes(kind, part)?;
        Ok(Value::Scalar(if target.map_or(false, |target| is_function_type(&target)) {
            self.pointer_to_method(class, &bytes)
        } else {
            pointer_to_data(class, signed_number(&self.least_significant_first(bytes)))
        }))
    }

    /// A pointer to a function, as gdb shows it: where it is, its name, and what is added to `this`.
    fn pointer_to_method(&self, class: Option<Die<'v, 'a>>, bytes: &[u8]) -> String {
        let (first, second) = bytes.split_at(bytes.len() / 2);
        let (first, second) = (
            unsigned_number(&self.least_significant_first(first.to_vec())),
            signed_number(&self.least_significant_first(second.to_vec())),
        );
        let (function, adjustment) = self.method_of_pointer(first as u64, second as i64);
        let shown = match function {
            Function::At(0) => "NULL".to_string(),
            Function::At(address) => match self.function_at(address) {
                Some(name) => format!("{:#x} <{}>", address, name),
                None => format!("{:#x}", address),
            },
            Function::Virtual(place) => {
                let index = place / u64::from(self.machine.target.address_size.bytes());
                let spot = class.zip(u64::try_from(adjustment).ok()).map(|(class, offset)| InClass { class, offset });
                match spot.and_then(|spot| spot.virtual_method(index, MAX_BASES)) {
                    Some(name) => return format!("&virtual {}", name),
                    None => format!("&virtual table offset {}", place),
                }
            }
        };
        match adjustment {
            0 => shown,
            _ => format!("{}, this adjustment {}", shown, adjustment),
        }
    }

    /// The function for which two words stand, and what is added to `this`. The bit that says whether a function is
    /// virtual is in the first word, but on Arm in the second one, because there it is a part of addresses.
    fn method_of_pointer(&self, first: u64, second: i64) -> (Function, i64) {
        match self.variables.machine {
            elf::EM_ARM | elf::EM_AARCH64 if second & 1 == 1 => (Function::Virtual(first), second >> 1),
            elf::EM_ARM | elf::EM_AARCH64 => (Function::At(first), second >> 1),
            _ if first & 1 == 1 => (Function::Virtual(first - 1), second),
            _ => (Function::At(first), second),
        }
    }

    /// The name of the function that begins at an address.
    fn function_at(&self, address: u64) -> Option<String> {
        let linked = self.machine.target.wrap(address.wrapping_sub(self.frame.load));
        let function = self.variables.functions.function(&self.variables.units, linked)?;
        Some(function)
            .filter(|function| begin_of(function) == Some(linked))
            .and_then(|function| function_with_class(&function))
    }
}

/// A pointer to data of a class, as gdb shows it: the name of the member at this offset, or the offset.
fn pointer_to_data(class: Option<Die<'_, '_>>, stored: i128) -> String {
    let spot = |offset| class.map(|class| InClass { class, offset });
    match u64::try_from(stored) {
        Ok(offset) => spot(offset).and_then(|spot| spot.member(MAX_BASES)).unwrap_or_else(|| offset.to_string()),
        Err(_) if stored == -1 => "NULL".to_string(),
        Err(_) => stored.to_string(),
    }
}

impl<'v, 'a> InClass<'v, 'a> {
    /// The name of the member there, with that of its class.
    fn member(&self, left: usize) -> Option<String> {
        let members = self.class.children();
        let is_here = |member: &&Die<'_, '_>| {
            let is_data = member.tag() == Some(gimli::DW_TAG_member) && is_member_entry(member);
            is_data && number_attribute(member, gimli::DW_AT_data_member_location).unwrap_or(0) == self.offset
        };
        let name = members.iter().find(is_here).and_then(|member| member.name());
        let own = name.and_then(|name| Some(format!("&{}::{}", self.class.name()?, name)));
        own.or_else(|| self.in_base()?.member(left.checked_sub(1)?))
    }

    /// The name of the virtual function at a place in the table of the class there.
    fn virtual_method(&self, index: u64, left: usize) -> Option<String> {
        let methods = self.class.children();
        let is_wanted = |method: &&Die<'_, '_>| virtual_table_index(method) == Some(index);
        let own = methods.iter().filter(|_| self.offset == 0).find(is_wanted).and_then(function_with_class);
        own.or_else(|| self.in_base()?.virtual_method(index, left.checked_sub(1)?))
    }

    /// The same place in the base class that has it.
    fn in_base(&self) -> Option<InClass<'v, 'a>> {
        let bases = self.class.children().into_iter().filter(|base| base.tag() == Some(gimli::DW_TAG_inheritance));
        let mut places = bases.filter_map(|base| {
            let class = unqualified_type(&type_of(&base)?)?;
            let offset = self.offset.checked_sub(number_attribute(&base, gimli::DW_AT_data_member_location)?)?;
            (offset < type_size(&class)?).then_some(InClass { class, offset })
        });
        places.next()
    }
}

/// The place of a method in the virtual table, if it is a constant.
fn virtual_table_index(method: &Die<'_, '_>) -> Option<u64> {
    method.tag().filter(|tag| *tag == gimli::DW_TAG_subprogram)?;
    let expression = match method.attribute(gimli::DW_AT_vtable_elem_location)? {
        AttributeValue::Exprloc(expression) => expression.0,
        AttributeValue::Block(block) => block,
        _ => return None,
    };
    let (code, operand) = expression.slice().split_first()?;
    let mut operand = gimli::EndianSlice::new(operand, gimli::LittleEndian);
    gimli::Reader::read_uleb128(&mut operand).ok().filter(|_| *code == CONSTU)
}

/// The name of a function with its class and its parameters, or else as in the source code.
fn function_with_class(function: &Die<'_, '_>) -> Option<String> {
    let linked = function.inherited(gimli::DW_AT_linkage_name).and_then(|(die, name)| die.string(name));
    linked.map(|name| demangled(&name).into_owned()).or_else(|| function.name())
}
