//! Call frame information: the records and instructions of frame sections, their rows, and FDEs that are used alone.
//!
//! It uses `elf`.

pub mod defect;
pub mod eh_frame_hdr;
pub mod fde_ranges;
pub mod frames;
pub mod instructions;
pub mod one_by_one;
pub mod row;
pub mod section_table;
pub mod sframe;
mod signal_return;
pub mod stack_cfi;
pub mod table;
pub mod table_row;
pub mod text;
pub mod validate;
