//! The workspace: what its cells hold, and filling them a portion at a time.

use crate::table::{ask_mode, check, read_figures, read_task, task_block};
use crate::{rules, Header, Refusal};

/// A plan costs at most this much.
pub const COST_CEILING: u64 = 3_303_014_400_000_000_000;
/// What a cell holds where nothing fits.
pub const MARK: u64 = u64::MAX;

/// A permitted mode as the planner sees it.
#[derive(Debug, Clone, Copy, PartialEq, Eq)]
pub struct Choice {
    /// The mode's number.
    pub mode: u8,
    /// The cores that it needs.
    pub need: usize,
    /// Its cost.
    pub cost: u64,
}

/// The permitted modes of each task in turn.
pub fn choices_of(table: &[u8]) -> Result<Vec<Vec<Choice>>, Refusal> {
    let header = check(table)?;
    let tasks = 0..usize::from(header.tasks);
    Ok(tasks.map(|task| choices(table, &header, task)).collect())
}

/// The permitted modes of one task of a checked table, the lowest first.
pub(crate) fn choices(table: &[u8], header: &Header, task: usize) -> Vec<Choice> {
    let block = task_block(table, task);
    let task = read_task(block);
    let nominal = demand(block, header, 0);
    (0..task.modes)
        .filter(|&mode| rules::allows(task.permitted, mode))
        .filter_map(|mode| {
            let Seen { cores, cost, .. } = seen(block, header, mode, nominal)?;
            Some(Choice { mode, need: cores as usize, cost })
        })
        .collect()
}

/// A mode as the planner sees it, permitted or not.
#[derive(Debug, Clone, Copy, PartialEq, Eq)]
pub struct Seen {
    /// Whether a plan may have the mode.
    pub permitted: bool,
    /// The cores that it needs.
    pub cores: u32,
    /// Its cost.
    pub cost: u64,
}

/// Asks a table for one mode as the planner sees it.
pub fn ask_choice(table: &[u8], task: u32, mode: u32) -> Result<Seen, Refusal> {
    // That there is such a mode.
    ask_mode(table, task, mode)?;
    let header = check(table)?;
    let task = task as usize;
    let block = task_block(table, task);
    let nominal = demand(block, &header, 0);
    // No checked table lists a mode that can't meet its period.
    seen(block, &header, mode as u8, nominal).ok_or(Refusal::at(13, task + 1))
}

/// A mode of a task's block whose mode 0 has the demand `nominal`; none where it can't meet its
/// period.
fn seen(block: &[u8], header: &Header, mode: u8, nominal: u64) -> Option<Seen> {
    let task = read_task(block);
    Some(Seen {
        permitted: rules::allows(task.permitted, mode),
        cores: rules::cores(read_figures(block, mode))?,
        cost: rules::cost(task.elasticity, nominal, demand(block, header, mode)),
    })
}

fn demand(block: &[u8], header: &Header, mode: u8) -> u64 {
    rules::demand(read_figures(block, mode), header.common_period)
}

/// The number W of cells that a table needs.
pub fn workspace_length(header: &Header) -> usize {
    (usize::from(header.tasks) + 1) * stretch(header)
}

/// The cells of one row.
fn stretch(header: &Header) -> usize {
    usize::from(header.cores) + 1
}

/// The cells of one row of a workspace that is long enough.
pub(crate) fn row<'a>(cells: &'a [u64], header: &Header, row: usize) -> &'a [u64] {
    let width = stretch(header);
    &cells[(usize::from(header.tasks) - row) * width..][..width]
}

/// A number as it reads: above the ceiling, the mark.
pub(crate) fn reads(number: u64) -> u64 {
    if number > COST_CEILING {
        MARK
    } else {
        number
    }
}

/// A mode's cost plus a cell: above the ceiling, the mark.
pub(crate) fn plus(cost: u64, cell: u64) -> u64 {
    reads(cost.saturating_add(reads(cell)))
}

/// Fills cells from `progress` on, at most `budget` of them, and answers the new progress.
pub fn portion(
    table: &[u8],
    cells: &mut [u64],
    progress: u32,
    budget: u32,
) -> Result<u32, Refusal> {
    let header = check(table)?;
    let all = workspace_length(&header);
    if cells.len() < all {
        return Err(Refusal::new(15));
    }
    // W is at most 2145.
    let all = all as u32;
    if progress > all {
        return Err(Refusal::new(16));
    }
    let end = progress.saturating_add(budget).min(all);
    fill(table, &header, cells, progress as usize, end as usize);
    Ok(end)
}

fn fill(table: &[u8], header: &Header, cells: &mut [u64], start: usize, end: usize) {
    let tasks = usize::from(header.tasks);
    let width = stretch(header);
    let mut place = start;
    while place < end {
        let row = tasks - place / width;
        let row_start = place - place % width;
        let row_end = end.min(row_start + width);
        let (before, this) = cells.split_at_mut(row_start);
        let first = place - row_start;
        let this = &mut this[first..row_end - row_start];
        if row == tasks {
            this.fill(0);
        } else {
            // The next row stands right before this one.
            let next = &before[row_start - width..];
            let choices = choices(table, header, row);
            for (column, cell) in (first..).zip(this) {
                *cell = least(&choices, next, column);
            }
        }
        place = row_end;
    }
}

/// The least cost of a task and those after it, given the row after it and a number of cores.
fn least(choices: &[Choice], next: &[u64], column: usize) -> u64 {
    choices
        .iter()
        .filter(|choice| choice.need <= column)
        .map(|choice| plus(choice.cost, next[column - choice.need]))
        .min()
        .unwrap_or(MARK)
}
