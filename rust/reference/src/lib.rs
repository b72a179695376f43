//! The planner of document 01, *Modes, cores and the plan: exact rules*, in plain safe Rust.
//!
//! It is written from that document alone and shares nothing with the proved planner, so that an
//! answer on which the two agree has been worked out twice. Beside the plan by cells stands
//! [`plan_by_listing`], the plan by its definition: over all selections, with no workspace in it.
//!
//! Behind the feature `same-loops` there is a copy with the proved planner's own loops, for times alone.
#![forbid(unsafe_code)]
#![warn(missing_docs)]

mod cells;
mod listing;
pub mod random;
mod rules;
#[cfg(feature = "same-loops")]
pub mod same_loops;
mod table;
mod taking;
#[cfg(test)]
mod tests;
mod writer;

pub use cells::{ask_choice, choices_of, portion, workspace_length, Choice, Seen};
pub use cells::{COST_CEILING, MARK};
pub use listing::plan_by_listing;
pub use rules::cores;
pub use table::{ask_mode, ask_task, block_check, check, BLOCK};
pub use taking::{plan_whole, take};
pub use writer::{write_header, write_task};

/// Why a call was refused: a number of document 01's table, and the block it was found in.
#[derive(Debug, Clone, Copy, PartialEq, Eq)]
pub struct Refusal {
    /// The refusal number, 1 to 19.
    pub number: u8,
    /// The block, counted from 0; 0 where the refusal is about no block.
    pub at: u32,
}

impl Refusal {
    /// A refusal of a block of the table.
    fn at(number: u8, block: usize) -> Self {
        // A table has at most 33 blocks by the time one of them is named.
        let at = block as u32;
        Refusal { number, at }
    }

    /// A refusal that names no block, which is written as block 0.
    fn new(number: u8) -> Self {
        Refusal { number, at: 0 }
    }
}

/// What a table's header says.
#[derive(Debug, Clone, Copy, PartialEq, Eq)]
pub struct Header {
    /// How many tasks there are, n.
    pub tasks: u16,
    /// How many cores there are, m.
    pub cores: u16,
    /// The common period H in ticks.
    pub common_period: u32,
}

/// What a task's block says of the task itself.
#[derive(Debug, Clone, Copy, PartialEq, Eq)]
pub struct Task {
    /// The elasticity E.
    pub elasticity: u8,
    /// How many modes there are.
    pub modes: u8,
    /// Bit j allows mode j.
    pub permitted: u16,
}

/// A mode as the table lists it, in ticks.
#[derive(Debug, Clone, Copy, PartialEq, Eq)]
pub struct Figures {
    /// The work C.
    pub work: u32,
    /// The span L.
    pub span: u32,
    /// The period T.
    pub period: u32,
}

/// What a plan uses; its modes are in the lent output, one byte per task.
#[derive(Debug, Clone, Copy, PartialEq, Eq)]
pub struct Plan {
    /// The cores used.
    pub cores: u32,
    /// The total cost.
    pub cost: u64,
}
