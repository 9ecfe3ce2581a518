//! Two readers of the same tables: the proved one, linked as a static library, and one in plain Rust.

pub mod generate;
pub mod proved;
pub mod reader;

/// What a reader says of a table, in the numbers that both readers have.
#[derive(Clone, Copy, Debug, PartialEq, Eq)]
pub enum Outcome {
    /// A table of so many nodes.
    Nodes(u32),
    /// No table: the fault's number, 1 to 6, its node and its place.
    Refused { number: u32, node: u32, place: u32 },
}

impl Outcome {
    /// The number of the outcome: 0 for a table.
    pub fn number(self) -> u32 {
        match self {
            Outcome::Nodes(_) => 0,
            Outcome::Refused { number, .. } => number,
        }
    }
}

/// What the plain Rust reader says.
pub fn plain(set: u8, words: &[u32]) -> Outcome {
    match reader::read(set, words) {
        Ok(outline) => Outcome::Nodes(outline.count as u32),
        Err(refusal) => Outcome::Refused {
            number: refusal.number,
            node: refusal.node,
            place: refusal.place,
        },
    }
}
