//! Reading a table: blocks of 512 bytes, a header and one block per task.

use crate::rules;
use crate::{Figures, Header, Refusal, Task};

/// The bytes of one block.
pub const BLOCK: usize = 512;
/// Where the check stands in a block; it covers the bytes before it.
pub(crate) const CHECK: usize = 508;
/// Where the figures of mode 0 stand in a task's block.
pub(crate) const MODES: usize = 8;
/// The bytes of one mode's figures.
pub(crate) const MODE: usize = 12;
pub(crate) const HEADER_KIND: u8 = 1;
pub(crate) const EDITION: u8 = 1;
pub(crate) const TASK_KIND: u8 = 2;

/// The check of a block: the sum of (offset + 1) times the byte, over offsets 0 to 507.
///
/// # Panics
///
/// If the block is shorter than 508 bytes.
pub fn block_check(block: &[u8]) -> u32 {
    (1..).zip(&block[..CHECK]).map(|(place, &byte)| place * u32::from(byte)).sum()
}

/// Checks a whole table.
pub fn check(table: &[u8]) -> Result<Header, Refusal> {
    if table.is_empty() || !table.len().is_multiple_of(BLOCK) {
        return Err(Refusal::new(1));
    }
    let (first, rest) = table.split_at(BLOCK);
    let header = check_header(first).map_err(Refusal::new)?;
    if rest.len() != BLOCK * usize::from(header.tasks) {
        return Err(Refusal::new(7));
    }
    for (task, block) in rest.chunks_exact(BLOCK).enumerate() {
        check_task(block, task, header.common_period)
            .map_err(|number| Refusal::at(number, task + 1))?;
    }
    Ok(header)
}

/// Asks a table for one task's numbers.
pub fn ask_task(table: &[u8], task: u32) -> Result<Task, Refusal> {
    let header = check(table)?;
    if task >= u32::from(header.tasks) {
        return Err(Refusal::new(19));
    }
    Ok(read_task(task_block(table, task as usize)))
}

/// Asks a table for the figures of one mode.
pub fn ask_mode(table: &[u8], task: u32, mode: u32) -> Result<Figures, Refusal> {
    let Task { modes, .. } = ask_task(table, task)?;
    if mode >= u32::from(modes) {
        return Err(Refusal::new(19));
    }
    Ok(read_figures(task_block(table, task as usize), mode as u8))
}

fn check_header(block: &[u8]) -> Result<Header, u8> {
    if u32_at(block, CHECK) != block_check(block) {
        return Err(2);
    }
    if block[0] != HEADER_KIND {
        return Err(3);
    }
    if block[1] != EDITION {
        return Err(4);
    }
    let header = Header {
        tasks: u16_at(block, 2),
        cores: u16_at(block, 4),
        common_period: u32_at(block, 8),
    };
    if !rules::is_header(header.tasks, header.cores, header.common_period) {
        return Err(5);
    }
    if !is_zero(&block[6..8]) || !is_zero(&block[12..CHECK]) {
        return Err(6);
    }
    Ok(header)
}

fn check_task(block: &[u8], number: usize, common_period: u32) -> Result<(), u8> {
    if u32_at(block, CHECK) != block_check(block) {
        return Err(2);
    }
    if block[0] != TASK_KIND {
        return Err(3);
    }
    if usize::from(u16_at(block, 6)) != number {
        return Err(8);
    }
    let task = read_task(block);
    if !rules::is_task(task.elasticity, task.modes) {
        return Err(9);
    }
    if !rules::is_permitted(task.permitted, task.modes) {
        return Err(10);
    }
    if block[3] != 0 || !is_zero(&block[MODES + MODE * usize::from(task.modes)..CHECK]) {
        return Err(6);
    }
    (0..task.modes).try_for_each(|mode| rules::check_mode(read_figures(block, mode), common_period))
}

/// The block of a task that the table is known to have.
pub(crate) fn task_block(table: &[u8], task: usize) -> &[u8] {
    &table[BLOCK * (task + 1)..][..BLOCK]
}

pub(crate) fn read_task(block: &[u8]) -> Task {
    Task { elasticity: block[1], modes: block[2], permitted: u16_at(block, 4) }
}

pub(crate) fn read_figures(block: &[u8], mode: u8) -> Figures {
    let start = MODES + MODE * usize::from(mode);
    Figures {
        work: u32_at(block, start),
        span: u32_at(block, start + 4),
        period: u32_at(block, start + 8),
    }
}

fn u16_at(block: &[u8], offset: usize) -> u16 {
    u16::from_le_bytes([block[offset], block[offset + 1]])
}

fn u32_at(block: &[u8], offset: usize) -> u32 {
    u32::from_le_bytes([block[offset], block[offset + 1], block[offset + 2], block[offset + 3]])
}

fn is_zero(bytes: &[u8]) -> bool {
    bytes.iter().all(|&byte| byte == 0)
}
