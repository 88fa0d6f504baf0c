//! A plain, field by field reader and writer of GMTI packets and their sheet.
//!
//! `tables` holds the names, widths, text sets and ranges of the document in its
//! order, `mask` what announces a field and where it then stands, `dwell` and
//! `hrr` the segments that have a mask, `positions` the arithmetic of latitude and
//! longitude, `packet` the reading and the segments, `read` the rows 1 to 16, 21
//! and 22, `sheet` the records, `write` the rows 17 to 20, `editions` what tells
//! the two readings of a version 3 packet apart, `longest` how long a sheet can
//! get, and `modes` the lookup of a radar mode's system.

mod dwell;
mod editions;
mod hrr;
mod longest;
mod mask;
mod modes;
mod packet;
mod positions;
mod read;
mod sheet;
mod tables;
mod write;

#[cfg(test)]
mod trials;

pub use editions::{fill_in, first_new};
pub use longest::{longest_output, longest_packet, sheet_bound};
pub use modes::{is_new_mode, mode_system, system_name};
pub use read::read;
pub use write::write;
