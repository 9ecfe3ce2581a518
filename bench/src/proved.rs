//! The proved reader, behind the C interface of the crate `capi`.

use crate::Outcome;

/// How many words of a report `noderun_read` writes: nodes, layer, node and place.
pub const REPORT_WORDS: usize = 4;
/// The number that a set which does not exist gets.
pub const UNKNOWN_SET: u32 = 255;
/// The layer that finds the faults of reading.
const READING: u32 = 1;

mod c {
    // Nothing checks this declaration against `crates/capi/src/lib.rt`: keep the two alike.
    extern "C" {
        pub fn noderun_read(
            set: u8,
            words: *const u32,
            length: usize,
            report: *mut u32,
            report_length: usize,
        ) -> u32;
    }
}

/// The call as it is: the number that comes back, and what it writes into the report.
pub fn call(set: u8, words: &[u32], report: &mut [u32]) -> u32 {
    // SAFETY: the function asks nothing but two slices, each passed as its pointer and its length. They do not overlap,
    // since one of them is borrowed mutably.
    unsafe {
        c::noderun_read(
            set,
            words.as_ptr(),
            words.len(),
            report.as_mut_ptr(),
            report.len(),
        )
    }
}

/// What the proved reader says of a table for set 1 or 2.
///
/// # Errors
///
/// A number or a report that no table for such a set can have.
pub fn read(set: u8, words: &[u32]) -> Result<Outcome, String> {
    let mut report = [u32::MAX; REPORT_WORDS];
    let number = call(set, words, &mut report);
    match (number, report) {
        (0, [nodes, 0, 0, 0]) => Ok(Outcome::Nodes(nodes)),
        (1..=6, [0, READING, node, place]) => Ok(Outcome::Refused {
            number,
            node,
            place,
        }),
        _ => Err(format!("number {number} with the report {report:?}")),
    }
}
