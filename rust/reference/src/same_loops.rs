//! The planner's own loops in plain safe Rust, to hold its times against like for like.
//!
//! Answers and refusals are the plain reference's; only the way to them is the planner's. A number is
//! read a byte at a time, 0 past the end of its block. The weights of a block's check have 16 bits.
//! Unused bytes are joined and looked at once. A task's modes are loaded before its row is filled, and
//! the row after it is held as its cells count in sums; a mode that needs more cores than a column's
//! number offers nothing there. The whole plan has one check, and knows from the least needs whether
//! anything fits.

use crate::cells::reads;
use crate::table::{BLOCK, CHECK, EDITION, HEADER_KIND, MODE, MODES, TASK_KIND};
use crate::{rules, workspace_length, Figures, Task, COST_CEILING, MARK};

// The other calls are the plain reference's own.
pub use crate::{ask_choice, ask_mode, ask_task, write_header, write_task, Header, Plan, Refusal};

const MOST_TASKS: usize = 32;
const MOST_MODES: usize = 16;
/// The cells of the widest row.
const WIDEST: usize = 65;
/// What a number above the ceiling counts as in a sum.
const BEYOND: u64 = COST_CEILING + 1;
/// The need of a mode that may not be chosen: above every column.
const NEVER: u64 = u64::MAX;

fn get8(block: &[u8], at: usize) -> u8 {
    if at < block.len() {
        block[at]
    } else {
        0
    }
}

fn get16(block: &[u8], at: usize) -> u16 {
    u16::from_le_bytes([get8(block, at), get8(block, at + 1)])
}

fn get32(block: &[u8], at: usize) -> u32 {
    let byte = |more| get8(block, at + more);
    u32::from_le_bytes([byte(0), byte(1), byte(2), byte(3)])
}

/// The bytes from one offset up to another, or to the end of a block that ends before.
fn part(block: &[u8], from: usize, to: usize) -> &[u8] {
    let to = to.min(block.len());
    &block[from.min(to)..to]
}

// Where it knows the block's length the compiler makes the weights wider again.
#[inline(never)]
fn check_of(block: &[u8]) -> u32 {
    let end = block.len().min(CHECK);
    let mut sum = 0;
    let mut i = 0;
    while i < end {
        let weight = i as u16 + 1;
        sum += u32::from(weight) * u32::from(block[i]);
        i += 1;
    }
    sum
}

fn is_zero(block: &[u8], from: usize, to: usize) -> bool {
    let mut seen = 0;
    for &byte in part(block, from, to) {
        seen |= byte;
    }
    seen == 0
}

fn permits(permitted: u16, mode: u8) -> bool {
    usize::from(mode) < MOST_MODES && rules::allows(permitted, mode)
}

fn any_permitted(permitted: u16, from: u8) -> bool {
    (from..MOST_MODES as u8).any(|mode| permits(permitted, mode))
}

fn wrong_check(block: &[u8]) -> bool {
    check_of(block) != get32(block, CHECK)
}

fn read_header(block: &[u8]) -> Result<Header, u8> {
    let (tasks, cores, common_period) = (get16(block, 2), get16(block, 4), get32(block, 8));
    if wrong_check(block) {
        return Err(2);
    }
    if get8(block, 0) != HEADER_KIND {
        return Err(3);
    }
    if get8(block, 1) != EDITION {
        return Err(4);
    }
    if !rules::is_header(tasks, cores, common_period) {
        return Err(5);
    }
    if !is_zero(block, 6, 8) | !is_zero(block, 12, CHECK) {
        return Err(6);
    }
    Ok(Header { tasks, cores, common_period })
}

fn read_task(block: &[u8], number: u16) -> Result<Task, u8> {
    let (elasticity, modes, permitted) = (get8(block, 1), get8(block, 2), get16(block, 4));
    if wrong_check(block) {
        return Err(2);
    }
    if get8(block, 0) != TASK_KIND {
        return Err(3);
    }
    if get16(block, 6) != number {
        return Err(8);
    }
    if !rules::is_task(elasticity, modes) {
        return Err(9);
    }
    if !any_permitted(permitted, 0) | any_permitted(permitted, modes) {
        return Err(10);
    }
    let end = MODES + MODE * usize::from(modes);
    if !is_zero(block, 3, 4) | !is_zero(block, end, CHECK) {
        return Err(6);
    }
    Ok(Task { elasticity, modes, permitted })
}

fn figures(block: &[u8], mode: u8) -> Figures {
    let from = MODES + MODE * usize::from(mode);
    Figures {
        work: get32(block, from),
        span: get32(block, from + 4),
        period: get32(block, from + 8),
    }
}

fn check_task(block: &[u8], common: u32, number: u16) -> Result<(), u8> {
    let task = read_task(block, number)?;
    for mode in 0..task.modes {
        rules::check_mode(figures(block, mode), common)?;
    }
    Ok(())
}

fn block_from(table: &[u8], start: usize) -> &[u8] {
    part(table, start, start + BLOCK)
}

fn task_block(table: &[u8], task: usize) -> &[u8] {
    block_from(table, BLOCK * (task + 1))
}

/// Checks a whole table.
pub fn check(table: &[u8]) -> Result<Header, Refusal> {
    if table.is_empty() | !table.len().is_multiple_of(BLOCK) {
        return Err(Refusal::new(1));
    }
    let header = read_header(block_from(table, 0)).map_err(Refusal::new)?;
    if table.len() != BLOCK * (usize::from(header.tasks) + 1) {
        return Err(Refusal::new(7));
    }
    for number in 0..header.tasks {
        let task = usize::from(number);
        check_task(task_block(table, task), header.common_period, number)
            .map_err(|refused| Refusal::at(refused, task + 1))?;
    }
    Ok(header)
}

fn need_of(block: &[u8], mode: u8) -> u64 {
    if !permits(get16(block, 4), mode) {
        return NEVER;
    }
    rules::cores(figures(block, mode)).map_or(NEVER, u64::from)
}

fn least_need(block: &[u8]) -> u64 {
    (0..get8(block, 2)).fold(NEVER, |least, mode| least.min(need_of(block, mode)))
}

/// A mode as a row is filled by it.
#[derive(Clone, Copy)]
struct Mode {
    need: u64,
    cost: u64,
}

const NO_MODES: [Mode; MOST_MODES] = [Mode { need: NEVER, cost: 0 }; MOST_MODES];

/// The modes of a task in turn.
fn load_modes<'a>(block: &[u8], common: u32, modes: &'a mut [Mode; MOST_MODES]) -> &'a [Mode] {
    let demand = |mode| rules::demand(figures(block, mode), common);
    let elasticity = get8(block, 1);
    let nominal = demand(0);
    let count = get8(block, 2);
    for mode in 0..count {
        modes[usize::from(mode)] = Mode {
            need: need_of(block, mode),
            cost: rules::cost(elasticity, nominal, demand(mode)),
        };
    }
    &modes[..usize::from(count)]
}

/// A number as it counts in a sum.
fn count_of(number: u64) -> u64 {
    number.min(BEYOND)
}

fn hold_row(next: &[u64], row: &mut [u64; WIDEST]) {
    for (held, &cell) in row.iter_mut().zip(next) {
        *held = count_of(cell);
    }
}

fn offer(mode: &Mode, row: &[u64], column: usize) -> Option<u64> {
    if column < mode.need as usize {
        return None;
    }
    Some(mode.cost + row[column - mode.need as usize])
}

fn least(modes: &[Mode], row: &[u64], column: usize) -> u64 {
    // Cut off at the column, so that the compiler need not ask whether a cell is there.
    let row = &row[..=column];
    let mut best = BEYOND;
    for mode in modes {
        if let Some(offer) = offer(mode, row, column) {
            best = best.min(offer);
        }
    }
    reads(best)
}

/// Fills cells of a task's row, which starts at `start`; the next row stands right before it.
fn task_run(
    block: &[u8],
    header: &Header,
    cells: &mut [u64],
    start: usize,
    from: usize,
    to: usize,
) {
    let mut held = NO_MODES;
    let modes = load_modes(block, header.common_period, &mut held);
    let next = start - width(header);
    let mut row = [0; WIDEST];
    hold_row(&cells[next..next + (to - start)], &mut row);
    for (column, cell) in (from - start..).zip(&mut cells[from..to]) {
        *cell = least(modes, &row, column);
    }
}

fn width(header: &Header) -> usize {
    usize::from(header.cores) + 1
}

fn row_run(table: &[u8], header: &Header, cells: &mut [u64], from: usize, to: usize) {
    let stretch = from / width(header);
    if stretch == 0 {
        cells[from..to].fill(0);
        return;
    }
    let start = from - from % width(header);
    let block = task_block(table, usize::from(header.tasks) - stretch);
    task_run(block, header, cells, start, from, to);
}

fn fill_rows(table: &[u8], header: &Header, cells: &mut [u64], from: usize, to: usize) {
    let mut place = from;
    while place < to {
        let left = width(header) - place % width(header);
        let stop = to.min(place + left);
        row_run(table, header, cells, place, stop);
        place = stop;
    }
}

/// Fills cells from `progress` on, at most `budget` of them, and answers the new progress.
pub fn portion(
    table: &[u8],
    cells: &mut [u64],
    progress: u32,
    budget: u32,
) -> Result<u32, Refusal> {
    let header = check(table)?;
    let count = workspace_length(&header);
    if cells.len() < count {
        return Err(Refusal::new(15));
    }
    // W is at most 2145.
    let count = count as u32;
    if count < progress {
        return Err(Refusal::new(16));
    }
    let to = progress + budget.min(count - progress);
    fill_rows(table, &header, cells, progress as usize, to as usize);
    Ok(to)
}

/// Whether a mode keeps the cost of a cell in this column of the row before `next`.
fn keeps(mode: &Mode, next: &[u64], column: usize, cell: u64) -> bool {
    if column < mode.need as usize {
        return false;
    }
    reads(mode.cost + count_of(next[column - mode.need as usize])) == cell
}

/// The lowest mode of each task in turn that keeps its cell's cost, from column `used` of row 0; none
/// where a task has no such mode.
fn trace(table: &[u8], header: &Header, cells: &[u64], used: usize) -> Option<[u8; MOST_TASKS]> {
    let mut chosen = [0; MOST_TASKS];
    let mut held = NO_MODES;
    let mut column = used;
    let (rows, mut row) = cells.split_at(usize::from(header.tasks) * width(header));
    for (task, next) in rows.rchunks_exact(width(header)).enumerate() {
        let cell = reads(row[column]);
        let block = task_block(table, task);
        let modes = load_modes(block, header.common_period, &mut held);
        let mode = modes.iter().position(|mode| keeps(mode, next, column, cell))?;
        chosen[task] = mode as u8;
        column -= modes[mode].need as usize;
        row = next;
    }
    Some(chosen)
}

fn take_from(
    table: &[u8],
    header: &Header,
    cells: &[u64],
    out: &mut [u8],
) -> Result<Plan, Refusal> {
    let tasks = usize::from(header.tasks);
    let first = &cells[tasks * width(header)..][..width(header)];
    let cost = reads(first[usize::from(header.cores)]);
    if cost == MARK {
        return Err(Refusal::new(14));
    }
    let mut used = 0;
    while reads(first[used]) != cost {
        used += 1;
    }
    let Some(modes) = trace(table, header, cells, used) else {
        return Err(Refusal::new(18));
    };
    out[..tasks].copy_from_slice(&modes[..tasks]);
    Ok(Plan { cores: used as u32, cost })
}

fn check_lent(table: &[u8], cells: usize, out: usize) -> Result<Header, Refusal> {
    let header = check(table)?;
    if cells < workspace_length(&header) || out < usize::from(header.tasks) {
        return Err(Refusal::new(15));
    }
    Ok(header)
}

/// Takes the plan from a workspace whose cells are all filled, and writes one mode per task.
pub fn take(table: &[u8], cells: &[u64], progress: u32, out: &mut [u8]) -> Result<Plan, Refusal> {
    let header = check_lent(table, cells.len(), out.len())?;
    let count = workspace_length(&header) as u32;
    if count < progress {
        return Err(Refusal::new(16));
    }
    if progress < count {
        return Err(Refusal::new(17));
    }
    take_from(table, &header, cells, out)
}

/// Whether a selection fits: the least needs of the tasks add up to at most the cores.
fn fits(table: &[u8], header: &Header) -> bool {
    let mut left = u64::from(header.cores);
    for task in 0..usize::from(header.tasks) {
        let need = least_need(task_block(table, task));
        if left < need {
            return false;
        }
        left -= need;
    }
    true
}

/// Fills the whole workspace and takes the plan, with one check of the table. Whether a selection fits
/// is known before a cell is touched, so nothing has to be put back.
pub fn plan_whole(table: &[u8], cells: &mut [u64], out: &mut [u8]) -> Result<Plan, Refusal> {
    let header = check_lent(table, cells.len(), out.len())?;
    if !fits(table, &header) {
        return Err(Refusal::new(14));
    }
    fill_rows(table, &header, cells, 0, workspace_length(&header));
    take_from(table, &header, cells, out)
}
