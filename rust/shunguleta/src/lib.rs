//! The proved planner, for Rust.
//!
//! A *table* lists analysis tasks and their modes: for each mode its work, its span (the longest
//! chain of work) and its period, all in ticks; every period divides the table's *common period*.
//! The planner picks one permitted mode per task so that their cores add up to no more than the
//! table has and the weighted compression, the *cost*, is least; then the fewest cores are used;
//! then the mode numbers are the lowest. The exact rules are in the repository's `docs/RULES.md`,
//! and the planner behind these functions is proved to keep them, for all inputs.
//!
//! No call asks anything of its caller. Any bytes may be lent as a table, any numbers as a
//! workspace, and buffers of any length: what can't be used is [refused](Refusal), for a [`Reason`]
//! that has a number, and then no lent buffer is changed. No call allocates or keeps anything, and
//! the package needs `core` alone.
//!
//! # Writing a table
//!
//! A table is blocks of 512 bytes: a header, then one block per task.
//!
//! ```
//! use shunguleta::{Figures, Task, BLOCK};
//!
//! # fn main() -> Result<(), shunguleta::Refusal> {
//! let mut table = [0; 3 * BLOCK];
//! let (header, tasks) = table.split_at_mut(BLOCK);
//! let (first, second) = tasks.split_at_mut(BLOCK);
//! // 2 tasks, 4 cores, and a common period of 1000 ticks.
//! shunguleta::write_header(2, 4, 1000, header)?;
//! // Elasticity 1 and 2 modes, both of them permitted; then work, span and period of each.
//! let modes = [Figures::new(1800, 200, 1000), Figures::new(900, 200, 1000)];
//! shunguleta::write_task(1000, 0, Task::new(1, 2, 0b11), &modes, first)?;
//! let modes = [
//!     Figures::new(1400, 200, 500),
//!     Figures::new(1400, 200, 1000),
//!     Figures::new(700, 100, 500),
//! ];
//! shunguleta::write_task(1000, 1, Task::new(2, 3, 0b111), &modes, second)?;
//! assert_eq!(shunguleta::check(&table)?.cores, 4);
//! # Ok(())
//! # }
//! ```
//!
//! # Planning it
//!
//! The planner works in a lent workspace of at least [`Header::cells`] cells, whatever they hold,
//! and writes one mode per task. [`MOST_CELLS`] and [`MOST_TASKS`] are enough for every table.
//!
//! ```
//! # use shunguleta::{Figures, Task, BLOCK};
//! # fn main() -> Result<(), shunguleta::Refusal> {
//! # let mut table = [0; 3 * BLOCK];
//! # shunguleta::write_header(2, 4, 1000, &mut table)?;
//! # let modes = [Figures::new(1800, 200, 1000), Figures::new(900, 200, 1000)];
//! # shunguleta::write_task(1000, 0, Task::new(1, 2, 0b11), &modes, &mut table[BLOCK..])?;
//! # let modes = [(1400, 200, 500), (1400, 200, 1000), (700, 100, 500)];
//! # let modes = modes.map(|(work, span, period)| Figures::new(work, span, period));
//! # shunguleta::write_task(1000, 1, Task::new(2, 3, 0b111), &modes, &mut table[2 * BLOCK..])?;
//! let header = shunguleta::check(&table)?;
//! let mut cells = vec![0; header.cells()];
//! let mut modes = vec![0; header.tasks.into()];
//! let plan = shunguleta::plan_whole(&table, &mut cells, &mut modes)?;
//! println!("{} of {} cores, cost {}", plan.cores, header.cores, plan.cost);
//! for (task, &mode) in (0..).zip(&modes) {
//!     let choice = shunguleta::ask_choice(&table, task, mode.into())?;
//!     println!("task {task}: mode {mode} on {} cores", choice.cores);
//! #   assert_eq!((choice.permitted, choice.cores), (true, 2));
//! }
//! # assert_eq!((plan.cores, plan.cost), (4, 2_469_600_000));
//! assert_eq!(modes, [0, 1]);
//! # Ok(())
//! # }
//! ```
//!
//! # Planning it a portion at a time
//!
//! Where time is short, each call of [`portion`] fills at most a budget of cells, and the plan is
//! [taken](take) once all that the table needs are filled. A workspace may be longer: the rest of
//! it isn't touched.
//!
//! ```
//! use shunguleta::{Progress, MOST_CELLS, MOST_TASKS};
//!
//! # use shunguleta::{Figures, Task, BLOCK};
//! # fn main() -> Result<(), shunguleta::Refusal> {
//! # let mut table = [0; 2 * BLOCK];
//! # shunguleta::write_header(1, 4, 1000, &mut table)?;
//! # let modes = [Figures::new(1200, 900, 1000), Figures::new(1200, 200, 1000)];
//! # shunguleta::write_task(1000, 0, Task::new(1, 2, 0b11), &modes, &mut table[BLOCK..])?;
//! let mut cells = [0; MOST_CELLS];
//! let mut modes = [0; MOST_TASKS];
//! let header = shunguleta::check(&table)?;
//! let mut progress = Progress::default();
//! while progress.filled() < header.cells() {
//!     progress = shunguleta::portion(&table, &mut cells, progress, 7)?;
//!     // Other work goes here.
//! }
//! let plan = shunguleta::take(&table, &cells, progress, &mut modes)?;
//! # assert_eq!((plan.cores, plan.cost, modes[0]), (2, 0, 1));
//! # Ok(())
//! # }
//! ```
#![no_std]
#![deny(unsafe_code)]
#![warn(missing_docs)]

#[cfg(test)]
extern crate std;

#[allow(unsafe_code)]
mod raw;
mod refusal;
#[cfg(test)]
#[allow(unsafe_code)]
mod tests;

pub use refusal::{Reason, Refusal};

/// The bytes of one block of a table.
pub const BLOCK: usize = 512;
/// The most tasks that a table has.
pub const MOST_TASKS: usize = 32;
/// The most cores that a table has.
pub const MOST_CORES: usize = 64;
/// The most modes that a task has.
pub const MOST_MODES: usize = 16;
/// The most cells that a table needs.
pub const MOST_CELLS: usize = (MOST_TASKS + 1) * (MOST_CORES + 1);

/// What a table's header says.
#[derive(Debug, Clone, Copy, PartialEq, Eq)]
#[non_exhaustive]
pub struct Header {
    /// How many tasks there are, 1 to 32.
    pub tasks: u16,
    /// How many cores there are, 1 to 64.
    pub cores: u16,
    /// The common period in ticks, 1 to 100,000.
    pub common_period: u32,
}

impl Header {
    /// How many cells a plan of the table needs, (tasks + 1)(cores + 1).
    pub const fn cells(&self) -> usize {
        (self.tasks as usize + 1) * (self.cores as usize + 1)
    }
}

/// What a table says of a task itself.
#[derive(Debug, Clone, Copy, PartialEq, Eq)]
#[non_exhaustive]
pub struct Task {
    /// The elasticity, 1 to 10.
    pub elasticity: u8,
    /// How many modes there are, 1 to 16.
    pub modes: u8,
    /// Bit j permits mode j.
    pub permitted: u16,
}

impl Task {
    /// A task with these numbers.
    pub const fn new(elasticity: u8, modes: u8, permitted: u16) -> Self {
        Task { elasticity, modes, permitted }
    }
}

/// A mode as the table lists it, in ticks.
#[derive(Debug, Clone, Copy, PartialEq, Eq)]
#[repr(C)]
pub struct Figures {
    /// The work of a job.
    pub work: u32,
    /// The longest chain of work in a job.
    pub span: u32,
    /// The time from one job to the next.
    pub period: u32,
}

impl Figures {
    /// A mode with these figures.
    pub const fn new(work: u32, span: u32, period: u32) -> Self {
        Figures { work, span, period }
    }
}

/// A mode as the planner sees it.
#[derive(Debug, Clone, Copy, PartialEq, Eq)]
pub struct Choice {
    /// Whether a plan may have the mode.
    pub permitted: bool,
    /// The cores that it needs, which may be more than the table has.
    pub cores: u32,
    /// What it costs.
    pub cost: u64,
}

/// How far portions have filled a workspace; nothing of it by default.
#[derive(Debug, Clone, Copy, PartialEq, Eq, Default)]
pub struct Progress {
    filled: u32,
}

impl Progress {
    /// The progress with so many cells filled.
    pub const fn new(filled: u32) -> Self {
        Progress { filled }
    }

    /// How many cells are filled.
    pub const fn filled(self) -> usize {
        self.filled as usize
    }
}

/// What a plan uses; its modes are in the lent output, one byte per task.
#[derive(Debug, Clone, Copy, PartialEq, Eq)]
pub struct Plan {
    /// The cores used.
    pub cores: u32,
    /// The total cost.
    pub cost: u64,
}

/// Checks a whole table and answers what its header says.
///
/// Refusals 1 to 13. Every call that is lent a table makes these checks first.
pub fn check(table: &[u8]) -> Result<Header, Refusal> {
    let [tasks, cores, common_period] = raw::check(table)?;
    Ok(Header { tasks: tasks as u16, cores: cores as u16, common_period: common_period as u32 })
}

/// Asks a table for one task's numbers; tasks count from 0.
///
/// Refusals as for [`check`], then 19 if there is no such task.
pub fn ask_task(table: &[u8], task: u32) -> Result<Task, Refusal> {
    let [elasticity, modes, permitted] = raw::ask_task(table, task)?;
    Ok(Task { elasticity: elasticity as u8, modes: modes as u8, permitted: permitted as u16 })
}

/// Asks a table for the figures of one mode; tasks and modes count from 0.
///
/// Refusals as for [`check`], then 19 if there is no such task or mode.
pub fn ask_mode(table: &[u8], task: u32, mode: u32) -> Result<Figures, Refusal> {
    let [work, span, period] = raw::ask_mode(table, task, mode)?;
    Ok(Figures { work: work as u32, span: span as u32, period: period as u32 })
}

/// Asks a table for one mode as the planner sees it: whether it is permitted, its cores and its
/// cost; tasks and modes count from 0.
///
/// Refusals as for [`ask_mode`].
pub fn ask_choice(table: &[u8], task: u32, mode: u32) -> Result<Choice, Refusal> {
    let [permitted, cores, cost] = raw::ask_choice(table, task, mode)?;
    Ok(Choice { permitted: permitted != 0, cores: cores as u32, cost })
}

/// Fills at most `budget` cells of the workspace from `progress` on, and answers the new progress.
///
/// All other cells keep their values. The first portion starts with nothing filled, each further
/// one where the last ended, and [`Header::cells`] is the end.
///
/// Refusals as for [`check`], then 15 for a workspace that is too short and 16 for progress past
/// the end.
pub fn portion(
    table: &[u8],
    cells: &mut [u64],
    progress: Progress,
    budget: u32,
) -> Result<Progress, Refusal> {
    let [filled, ..] = raw::portion(table, cells, progress.filled, budget)?;
    Ok(Progress { filled: filled as u32 })
}

/// Takes the plan from a workspace whose cells are all filled, and writes one mode per task to the
/// start of `out`.
///
/// Refusals as for [`check`], then 15 for a workspace or an output that is too short, 16 for
/// progress past the end and 17 for progress before it, 14 if no selection of modes fits, and 18 if
/// the workspace isn't as portions over this table left it.
pub fn take(
    table: &[u8],
    cells: &[u64],
    progress: Progress,
    out: &mut [u8],
) -> Result<Plan, Refusal> {
    let [cores, cost, _] = raw::take(table, cells, progress.filled, out)?;
    Ok(Plan { cores: cores as u32, cost })
}

/// Writes a header block over the first 512 bytes of `out`.
///
/// Refusal 5 for numbers beyond the limits, then 15 for an output that is too short.
pub fn write_header(
    tasks: u16,
    cores: u16,
    common_period: u32,
    out: &mut [u8],
) -> Result<(), Refusal> {
    raw::write_header(tasks, cores, common_period, out)?;
    Ok(())
}

/// Writes a task's block over the first 512 bytes of `out`.
///
/// `common_period` is the table's, `number` the task's place in the table, and `figures` has each
/// mode in turn.
///
/// Refusal 5 for the common period, 8 for the number, 9 for elasticity, mode count or figures of
/// another number of modes, 10 for the permitted modes, 11 to 13 for a mode's figures, 15 for an
/// output that is too short; in this order.
pub fn write_task(
    common_period: u32,
    number: u16,
    task: Task,
    figures: &[Figures],
    out: &mut [u8],
) -> Result<(), Refusal> {
    write_task_flat(common_period, number, task, raw::flat(figures), out)
}

/// [`write_task`] with the figures as C lends them, three numbers for each mode in turn: for trials
/// with counts that are no multiple of three.
#[doc(hidden)]
pub fn write_task_flat(
    common_period: u32,
    number: u16,
    task: Task,
    figures: &[u32],
    out: &mut [u8],
) -> Result<(), Refusal> {
    raw::write_task(common_period, number, task, figures, out)?;
    Ok(())
}

/// Fills the whole workspace and takes the plan, with one check of the table for both.
///
/// Refusals as for [`check`], then 15 for a workspace, then for an output, that is too short, and
/// 14 where no plan fits. Under any of them the workspace too is as it was.
pub fn plan_whole(table: &[u8], cells: &mut [u64], out: &mut [u8]) -> Result<Plan, Refusal> {
    let [cores, cost, _] = raw::plan_whole(table, cells, out)?;
    Ok(Plan { cores: cores as u32, cost })
}
