//! Taking the plan from a filled workspace, and the whole of it in one call.

use crate::cells::{choices, plus, portion, reads, row, workspace_length, MARK};
use crate::table::check;
use crate::{Header, Plan, Refusal};

/// Takes the plan from a workspace whose cells are all filled, and writes one mode per task.
pub fn take(table: &[u8], cells: &[u64], progress: u32, out: &mut [u8]) -> Result<Plan, Refusal> {
    let header = check(table)?;
    let all = workspace_length(&header);
    let tasks = usize::from(header.tasks);
    if cells.len() < all || out.len() < tasks {
        return Err(Refusal::new(15));
    }
    // W is at most 2145.
    let all = all as u32;
    if progress > all {
        return Err(Refusal::new(16));
    }
    if progress < all {
        return Err(Refusal::new(17));
    }
    let (plan, modes) = trace(table, &header, cells)?;
    out[..tasks].copy_from_slice(&modes);
    Ok(plan)
}

/// Follows the cells from row 0 down to the modes that they were filled from.
fn trace(table: &[u8], header: &Header, cells: &[u64]) -> Result<(Plan, Vec<u8>), Refusal> {
    let first = row(cells, header, 0);
    let cost = reads(first[usize::from(header.cores)]);
    if cost == MARK {
        return Err(Refusal::new(14));
    }
    // Column m itself has the cost.
    let same = first.iter().position(|&cell| reads(cell) == cost);
    let used = same.unwrap_or(usize::from(header.cores));
    let mut column = used;
    let mut modes = Vec::with_capacity(usize::from(header.tasks));
    for task in 0..usize::from(header.tasks) {
        let cell = reads(row(cells, header, task)[column]);
        let next = row(cells, header, task + 1);
        let kept = choices(table, header, task).into_iter().find(|choice| {
            choice.need <= column && plus(choice.cost, next[column - choice.need]) == cell
        });
        let Some(choice) = kept else {
            return Err(Refusal::new(18));
        };
        modes.push(choice.mode);
        column -= choice.need;
    }
    // At most 64 cores are used.
    Ok((Plan { cores: used as u32, cost }, modes))
}

/// Fills the whole workspace and takes the plan. Under a refusal the workspace holds what it held
/// before.
pub fn plan_whole(table: &[u8], cells: &mut [u64], out: &mut [u8]) -> Result<Plan, Refusal> {
    let kept = cells.to_vec();
    let filled = portion(table, cells, 0, u32::MAX);
    let plan = filled.and_then(|progress| take(table, cells, progress, out));
    if plan.is_err() {
        cells.copy_from_slice(&kept);
    }
    plan
}
