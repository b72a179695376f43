//! The planner's C interface, and slices over it.
//!
//! Nothing checks the declarations below against the planner's Rattle source or its C header: the
//! names, the order and widths of the parameters, and the layout of [`Reply`]. The linker asks for
//! the names alone. Tests hold them together: `replies_of_every_call` here compares whole replies,
//! with arguments that tell the parameters apart; the programs of `tests/c.rs` make the same calls
//! through the header; and in `trials` the stored calls, which the program `cases` makes in Rattle
//! itself, and `fuzz` compare every answer and buffer with those of a second planner.
//!
//! What the calls below rely on is proved of the planner: it keeps to the bytes, cells and figures
//! that it is lent, whatever they hold and however many they are, and it keeps no pointer. An
//! answer's values were widened from what they are narrowed to again, so nothing is lost.

use crate::{Figures, Refusal, Task};

/// An answer by value; number 0 is no refusal.
#[repr(C)]
#[derive(Debug, Clone, Copy, PartialEq, Eq)]
pub(crate) struct Reply {
    pub number: u32,
    pub at: u32,
    pub values: [u64; 3],
}

impl Reply {
    fn settle(self) -> Result<[u64; 3], Refusal> {
        match self.number {
            0 => Ok(self.values),
            number => Err(Refusal { number: number as u8, at: self.at }),
        }
    }
}

extern "C" {
    pub(crate) fn shunguleta_check(table: *const u8, table_length: usize) -> Reply;

    pub(crate) fn shunguleta_ask_task(table: *const u8, table_length: usize, task: u32) -> Reply;

    pub(crate) fn shunguleta_ask_mode(
        table: *const u8,
        table_length: usize,
        task: u32,
        mode: u32,
    ) -> Reply;

    pub(crate) fn shunguleta_ask_choice(
        table: *const u8,
        table_length: usize,
        task: u32,
        mode: u32,
    ) -> Reply;

    pub(crate) fn shunguleta_portion(
        table: *const u8,
        table_length: usize,
        cells: *mut u64,
        cells_length: usize,
        progress: u32,
        budget: u32,
    ) -> Reply;

    pub(crate) fn shunguleta_take(
        table: *const u8,
        table_length: usize,
        cells: *const u64,
        cells_length: usize,
        progress: u32,
        out: *mut u8,
        out_length: usize,
    ) -> Reply;

    pub(crate) fn shunguleta_write_header(
        tasks: u16,
        cores: u16,
        common_period: u32,
        out: *mut u8,
        out_length: usize,
    ) -> Reply;

    pub(crate) fn shunguleta_write_task(
        common_period: u32,
        number: u16,
        elasticity: u8,
        modes: u8,
        permitted: u16,
        figures: *const u32,
        figures_length: usize,
        out: *mut u8,
        out_length: usize,
    ) -> Reply;

    pub(crate) fn shunguleta_plan_whole(
        table: *const u8,
        table_length: usize,
        cells: *mut u64,
        cells_length: usize,
        out: *mut u8,
        out_length: usize,
    ) -> Reply;
}

type Answer = Result<[u64; 3], Refusal>;

pub(crate) fn check(table: &[u8]) -> Answer {
    // SAFETY: the table's pointer and length are one slice's, which is lent until the call returns
    // and is only read.
    unsafe { shunguleta_check(table.as_ptr(), table.len()) }.settle()
}

pub(crate) fn ask_task(table: &[u8], task: u32) -> Answer {
    // SAFETY: the table is as for `check`, and the planner takes any task number.
    unsafe { shunguleta_ask_task(table.as_ptr(), table.len(), task) }.settle()
}

pub(crate) fn ask_mode(table: &[u8], task: u32, mode: u32) -> Answer {
    // SAFETY: the table is as for `check`, and the planner takes any two numbers.
    unsafe { shunguleta_ask_mode(table.as_ptr(), table.len(), task, mode) }.settle()
}

pub(crate) fn ask_choice(table: &[u8], task: u32, mode: u32) -> Answer {
    // SAFETY: the table is as for `check`, and the planner takes any two numbers.
    unsafe { shunguleta_ask_choice(table.as_ptr(), table.len(), task, mode) }.settle()
}

pub(crate) fn portion(table: &[u8], cells: &mut [u64], progress: u32, budget: u32) -> Answer {
    // SAFETY: the table is as for `check`. The cells' pointer and length are one slice's too, which
    // is lent to this call alone until it returns, so that no cell is a byte of the table and cells
    // may be written. Any progress and budget do: no cell past the length is reached.
    unsafe {
        shunguleta_portion(
            table.as_ptr(),
            table.len(),
            cells.as_mut_ptr(),
            cells.len(),
            progress,
            budget,
        )
    }
    .settle()
}

pub(crate) fn take(table: &[u8], cells: &[u64], progress: u32, out: &mut [u8]) -> Answer {
    // SAFETY: table and cells are slices with their own lengths, lent until the call returns and
    // only read, so that it doesn't matter whether they overlap. The output is a slice with its
    // length, lent to this call alone, so that it overlaps neither and may be written.
    unsafe {
        shunguleta_take(
            table.as_ptr(),
            table.len(),
            cells.as_ptr(),
            cells.len(),
            progress,
            out.as_mut_ptr(),
            out.len(),
        )
    }
    .settle()
}

pub(crate) fn write_header(tasks: u16, cores: u16, common_period: u32, out: &mut [u8]) -> Answer {
    // SAFETY: the output's pointer and length are one slice's, which is lent to this call alone
    // until it returns and may be written; a short one is refused before a byte is.
    unsafe { shunguleta_write_header(tasks, cores, common_period, out.as_mut_ptr(), out.len()) }
        .settle()
}

pub(crate) fn write_task(
    common_period: u32,
    number: u16,
    task: Task,
    figures: &[u32],
    out: &mut [u8],
) -> Answer {
    let Task { elasticity, modes, permitted } = task;
    // SAFETY: the output is as for `write_header`. The figures' pointer and length are one slice's,
    // which is lent until the call returns and is only read; its length needn't suit the mode
    // count, as the planner compares the two before it reads a figure.
    unsafe {
        shunguleta_write_task(
            common_period,
            number,
            elasticity,
            modes,
            permitted,
            figures.as_ptr(),
            figures.len(),
            out.as_mut_ptr(),
            out.len(),
        )
    }
    .settle()
}

/// The figures of all modes in turn as plain numbers, three for each mode.
pub(crate) fn flat(figures: &[Figures]) -> &[u32] {
    // SAFETY: `Figures` is laid out as C does, three numbers of 32 bits with nothing between or
    // after them, and is aligned as they are; so the slice's own bytes are three times as many
    // numbers, which all have a value, and are lent as long as the slice is. The product has room,
    // as a slice has fewer bytes than a `usize` counts.
    unsafe { core::slice::from_raw_parts(figures.as_ptr().cast(), 3 * figures.len()) }
}

pub(crate) fn plan_whole(table: &[u8], cells: &mut [u64], out: &mut [u8]) -> Answer {
    // SAFETY: the table is as for `check`. Cells and output are slices with their own lengths, each
    // lent to this call alone until it returns, so that none of the three overlaps another and
    // those two may be written.
    unsafe {
        shunguleta_plan_whole(
            table.as_ptr(),
            table.len(),
            cells.as_mut_ptr(),
            cells.len(),
            out.as_mut_ptr(),
            out.len(),
        )
    }
    .settle()
}
