//! Writing a table, a block a call.

use crate::table::{block_check, BLOCK, CHECK, EDITION, HEADER_KIND, MODE, MODES, TASK_KIND};
use crate::{rules, Figures, Refusal};

/// Writes a header block over the first 512 bytes of `out`.
pub fn write_header(
    tasks: u16,
    cores: u16,
    common_period: u32,
    out: &mut [u8],
) -> Result<(), Refusal> {
    if !rules::is_header(tasks, cores, common_period) {
        return Err(Refusal::new(5));
    }
    let mut block = [0; BLOCK];
    block[0] = HEADER_KIND;
    block[1] = EDITION;
    block[2..4].copy_from_slice(&tasks.to_le_bytes());
    block[4..6].copy_from_slice(&cores.to_le_bytes());
    block[8..12].copy_from_slice(&common_period.to_le_bytes());
    write(block, out)
}

/// Writes a task's block over the first 512 bytes of `out`. `common_period` is the table's;
/// `figures` has work, span and period of each mode in turn.
pub fn write_task(
    common_period: u32,
    number: u16,
    elasticity: u8,
    modes: u8,
    permitted: u16,
    figures: &[u32],
    out: &mut [u8],
) -> Result<(), Refusal> {
    if !rules::is_common_period(common_period) {
        return Err(Refusal::new(5));
    }
    if !rules::is_task_number(number) {
        return Err(Refusal::new(8));
    }
    if !rules::is_task(elasticity, modes) || figures.len() != 3 * usize::from(modes) {
        return Err(Refusal::new(9));
    }
    if !rules::is_permitted(permitted, modes) {
        return Err(Refusal::new(10));
    }
    let mut block = [0; BLOCK];
    block[0] = TASK_KIND;
    block[1] = elasticity;
    block[2] = modes;
    block[4..6].copy_from_slice(&permitted.to_le_bytes());
    block[6..8].copy_from_slice(&number.to_le_bytes());
    for (mode, bytes) in figures.chunks_exact(3).zip(block[MODES..].chunks_exact_mut(MODE)) {
        let figures = Figures { work: mode[0], span: mode[1], period: mode[2] };
        rules::check_mode(figures, common_period).map_err(Refusal::new)?;
        bytes[0..4].copy_from_slice(&figures.work.to_le_bytes());
        bytes[4..8].copy_from_slice(&figures.span.to_le_bytes());
        bytes[8..12].copy_from_slice(&figures.period.to_le_bytes());
    }
    write(block, out)
}

/// Completes a block by its check and copies it out.
fn write(mut block: [u8; BLOCK], out: &mut [u8]) -> Result<(), Refusal> {
    let Some(out) = out.get_mut(..BLOCK) else {
        return Err(Refusal::new(15));
    };
    let check = block_check(&block);
    block[CHECK..].copy_from_slice(&check.to_le_bytes());
    out.copy_from_slice(&block);
    Ok(())
}
