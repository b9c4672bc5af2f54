//! What the binaries share: random sound fields, faults in a smoke's numbers, and field files sound and damaged.
//!
//! - `calls`: pages at the edges and random lists of calls on the library and on the reference, compared after each call.
//! - `doubles`: any 64 bits as a number of a wind record, through the library and by the reference.
//! - `hostile`: damaged and random files through the two programs, compared with the reference's output.
//! - `samples`: the sample files and what the reference prints for them.

pub mod content;
pub mod damage;
pub mod files;
pub mod unsound;
