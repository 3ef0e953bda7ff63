//! Distelhut written a second time, from the papers alone, for comparison.
//!
//! Every function takes an input slice and an output buffer. It answers a value
//! with its count, or an error with its code and position. After an error the
//! buffer is as it was, and after success it is so from the count on. With marks
//! the input or the output is two rows, and the same holds of each.

pub mod altdude;
pub mod brace;
pub mod c_interface;
pub mod compare;
pub mod error;
pub mod functions;
pub mod generate;
pub mod host_name;
pub mod lace;
pub mod marks;
pub mod nametable;
pub mod papers;
pub mod point;
#[cfg(feature = "proved")]
pub mod proved;
pub mod receiver;
pub mod scheme;
pub mod short_table;
pub mod table_diff;
pub mod utf16;
