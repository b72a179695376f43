//! The stored calls: one binary file that the test program `cases` reads, and the lines that it has
//! to print.
//!
//! A call's table is kept as patches over a base table, and its workspace as patches over a fresh
//! one or over the one that the last call left.

use std::collections::BTreeSet;
use std::fmt::{Display, Write};

use crate::calls::{Call, Lent, Reply, Side};

/// The room for a table: one block more than the largest has.
pub const TABLE_ROOM: usize = 17_408;
/// The room for a workspace: a little more than the largest table needs.
pub const CELL_ROOM: usize = 2200;
/// The room for an output.
pub const OUT_ROOM: usize = 600;
const FIGURE_ROOM: usize = 60;
const NAME_ROOM: usize = 96;
/// What every cell of a fresh workspace holds.
const FRESH_CELL: u64 = 77;
/// What every byte of an output holds.
const FRESH_BYTE: u8 = 170;

/// A call to be stored.
#[derive(Debug, Clone)]
pub struct Case {
    name: String,
    call: Call,
    table: Vec<u8>,
    figures: Vec<u32>,
    cells: usize,
    out: usize,
    goes_on: bool,
    patches: Vec<(usize, u64)>,
}

impl Case {
    /// A call that is lent a table, and no workspace and no output yet.
    pub fn new(name: impl Into<String>, call: Call, table: &[u8]) -> Self {
        Case {
            name: name.into(),
            call,
            table: table.to_vec(),
            figures: Vec::new(),
            cells: 0,
            out: 0,
            goes_on: false,
            patches: Vec::new(),
        }
    }

    /// Lends so many cells.
    pub fn cells(mut self, count: usize) -> Self {
        self.cells = count;
        self
    }

    /// Lends so many bytes of output.
    pub fn out(mut self, length: usize) -> Self {
        self.out = length;
        self
    }

    /// Lends figures.
    pub fn figures(mut self, figures: &[u32]) -> Self {
        self.figures = figures.to_vec();
        self
    }

    /// Lends the workspace as the last call left it.
    pub fn goes_on(mut self) -> Self {
        self.goes_on = true;
        self
    }

    /// Alters a cell before the call.
    pub fn altering(mut self, cell: usize, value: u64) -> Self {
        self.patches.push((cell, value));
        self
    }
}

/// The calls stored so far, with the lines of their answers.
pub struct Stored {
    side: Side,
    names: BTreeSet<String>,
    base: Vec<u8>,
    cells: Vec<u64>,
    calls: Vec<u8>,
    lines: String,
}

impl Stored {
    /// No calls yet; the answers will come from this side.
    pub fn new(side: Side) -> Self {
        Stored {
            side,
            names: BTreeSet::new(),
            base: vec![0; TABLE_ROOM],
            cells: vec![FRESH_CELL; CELL_ROOM],
            calls: Vec::new(),
            lines: String::new(),
        }
    }

    /// How many calls there are.
    pub fn count(&self) -> usize {
        self.names.len()
    }

    /// The file of calls.
    pub fn calls(&self) -> &[u8] {
        &self.calls
    }

    /// The lines that the calls' answers give.
    pub fn lines(&self) -> &str {
        &self.lines
    }

    /// Stores a base table, which the tables of the calls after it are like.
    pub fn base(&mut self, table: &[u8]) {
        self.base.fill(0);
        self.base[..table.len()].copy_from_slice(table);
        self.calls.push(0);
        self.calls.extend(low16(table.len()));
        self.calls.extend(table);
    }

    /// Stores a call and answers it.
    ///
    /// # Panics
    ///
    /// If the call doesn't fit the file's limits or its name has been used.
    pub fn add(&mut self, case: Case) -> Reply {
        assert!(case.name.len() <= NAME_ROOM && case.figures.len() <= FIGURE_ROOM, "{}", case.name);
        assert!(self.names.insert(case.name.clone()), "two calls are named {}", case.name);
        self.keep(&case);
        if !case.goes_on {
            self.cells.fill(FRESH_CELL);
        }
        for &(cell, value) in &case.patches {
            self.cells[cell] = value;
        }
        let mut out = [FRESH_BYTE; OUT_ROOM];
        let out = &mut out[..case.out];
        let cells = &mut self.cells[..case.cells];
        let lent = Lent { table: &case.table, figures: &case.figures, cells, out };
        let reply = (self.side)(&case.call, lent);
        self.lines += &line(&case, reply, out, &self.cells[..case.cells]);
        reply
    }

    /// Writes the call's record.
    fn keep(&mut self, case: &Case) {
        let patches = self.table_patches(&case.table);
        let kind = case.call.number() as u8 + 1;
        let lengths = [case.table.len(), case.cells, case.out];
        let counts = [patches.len(), case.patches.len(), case.figures.len()];
        let numbers = Numbers::of(&case.call);
        self.head([kind, case.goes_on.into()], lengths, &numbers, counts, &case.name);
        for (offset, byte) in patches {
            self.calls.extend(low16(offset));
            self.calls.push(byte);
        }
        for &(cell, value) in &case.patches {
            self.calls.extend(low16(cell));
            self.calls.extend(value.to_le_bytes());
        }
        self.calls.extend(case.figures.iter().flat_map(|figure| figure.to_le_bytes()));
    }

    /// Writes a record's head and name: kind and workspace, the lengths that are lent, the numbers,
    /// and the counts of what follows the name.
    fn head(
        &mut self,
        kind: [u8; 2],
        lengths: [usize; 3],
        numbers: &Numbers,
        counts: [usize; 3],
        name: &str,
    ) {
        self.calls.extend(kind);
        self.calls.extend(lengths.map(low16).concat());
        self.calls.extend(numbers.arguments.map(u32::to_le_bytes).concat());
        self.calls.extend([numbers.elasticity, numbers.modes]);
        self.calls.extend(counts.map(low16).concat());
        self.calls.extend([name.len() as u8, 0, 0, 0]);
        self.calls.extend(name.as_bytes());
    }

    /// Where the table differs from the base, as far as it is lent.
    fn table_patches(&self, table: &[u8]) -> Vec<(usize, u8)> {
        let places = self.base.iter().zip(table).enumerate();
        places.filter(|(_, (base, byte))| base != byte).map(|(at, (_, &byte))| (at, byte)).collect()
    }
}

/// A call's numbers as the file has them.
struct Numbers {
    arguments: [u32; 3],
    elasticity: u8,
    modes: u8,
}

impl Numbers {
    fn of(call: &Call) -> Self {
        let mut numbers = Numbers { arguments: [0; 3], elasticity: 0, modes: 0 };
        numbers.arguments = match *call {
            Call::Check => [0; 3],
            Call::AskTask { task } => [task, 0, 0],
            Call::AskMode { task, mode } | Call::AskChoice { task, mode } => [task, mode, 0],
            Call::Portion { progress, budget } => [progress, budget, 0],
            Call::Take { progress } => [progress, 0, 0],
            Call::WriteHeader { tasks, cores, common_period } => {
                [tasks.into(), cores.into(), common_period]
            }
            Call::WriteTask { common_period, number, elasticity, modes, permitted } => {
                numbers.elasticity = elasticity;
                numbers.modes = modes;
                [common_period, number.into(), permitted.into()]
            }
            Call::PlanWhole => [0; 3],
        };
        numbers
    }
}

/// A length or a place, all of which have 16 bits in the file.
fn low16(number: usize) -> [u8; 2] {
    u16::try_from(number).expect("lengths and places have 16 bits").to_le_bytes()
}

fn line(case: &Case, reply: Reply, out: &[u8], cells: &[u64]) -> String {
    let Reply { number, at, values: [first, second, third] } = reply;
    let mut line = match number {
        0 => format!("{}: given {first} {second} {third}", case.name),
        _ => format!("{}: refused {number} at {at}", case.name),
    };
    if case.call.writes() {
        line += " out ";
        line += &runs(out);
    }
    if case.call.fills() {
        line += " cells ";
        line += &runs(cells);
    }
    line.push('\n');
    line
}

/// Numbers in turn, equal neighbours as one number with a count.
pub fn runs<T: Copy + PartialEq + Display>(numbers: &[T]) -> String {
    if numbers.is_empty() {
        return "none".into();
    }
    let mut text = String::new();
    for run in numbers.chunk_by(|left, right| left == right) {
        if !text.is_empty() {
            text.push(' ');
        }
        // Writing to a string doesn't fail.
        let _ = match run.len() {
            1 => write!(text, "{}", run[0]),
            count => write!(text, "{}*{count}", run[0]),
        };
    }
    text
}

#[cfg(test)]
mod tests {
    use super::*;
    use crate::calls::by_reference;
    use crate::tables::Table;

    #[test]
    fn runs_of_numbers() {
        assert_eq!(runs::<u8>(&[]), "none");
        assert_eq!(runs(&[7]), "7");
        assert_eq!(runs(&[7, 7, 1, 2, 2, 2]), "7*2 1 2*3");
    }

    #[test]
    fn records() {
        let mut stored = Stored::new(by_reference);
        stored.base(&[7; 4]);
        stored.add(Case::new("first", Call::Check, &[7; 4]));
        assert_eq!(stored.calls()[..7], [0, 4, 0, 7, 7, 7, 7]);
        assert_eq!(stored.calls()[7..19], [1, 0, 4, 0, 0, 0, 0, 0, 0, 0, 0, 0]);
        let length = stored.calls().len();
        let call = Call::Portion { progress: 4, budget: 0x0203 };
        let case = Case::new("next", call, &[7, 7, 9, 7]).cells(300).goes_on();
        stored.add(case.altering(256, 0x0102));
        let record = &stored.calls()[length..];
        assert_eq!(record[..12], [5, 1, 4, 0, 44, 1, 0, 0, 4, 0, 0, 0]);
        assert_eq!(record[12..28], [3, 2, 0, 0, 0, 0, 0, 0, 0, 0, 1, 0, 1, 0, 0, 0]);
        assert_eq!(record[28..], *b"\x04\0\0\0next\x02\0\x09\0\x01\x02\x01\0\0\0\0\0\0");
        let length = stored.calls().len();
        let (common_period, number, elasticity, modes, permitted) = (6, 1, 2, 1, 1);
        let call = Call::WriteTask { common_period, number, elasticity, modes, permitted };
        stored.add(Case::new("last", call, &[]).figures(&[9, 3, 6]).out(3));
        let record = &stored.calls()[length..];
        assert_eq!(record[..12], [8, 0, 0, 0, 0, 0, 3, 0, 6, 0, 0, 0]);
        assert_eq!(record[12..28], [1, 0, 0, 0, 1, 0, 0, 0, 2, 1, 0, 0, 0, 0, 3, 0]);
        assert_eq!(record[28..], *b"\x04\0\0\0last\x09\0\0\0\x03\0\0\0\x06\0\0\0");
        let length = stored.calls().len();
        stored.add(Case::new("whole", Call::PlanWhole, &[]));
        assert_eq!(stored.calls()[length], 9);
    }

    #[test]
    fn lines() {
        let table = Table::sample(4).bytes();
        let mut stored = Stored::new(by_reference);
        stored.add(Case::new("check", Call::Check, &table));
        let call = Call::Portion { progress: 4, budget: 2 };
        stored.add(Case::new("portion", call, &table).cells(16).altering(3, 258));
        let take = |name: &str| Case::new(name, Call::Take { progress: 15 }, &table).out(3);
        stored.add(take("fresh").cells(15));
        stored.add(take("short").cells(14).goes_on());
        stored.add(Case::new("whole", Call::PlanWhole, &table));
        let lines = "check: given 2 4 1000\n\
            portion: given 6 0 0 cells 77*3 258 0 18446744073709551615 77*10\n\
            fresh: refused 18 at 0 out 170*3\n\
            short: refused 15 at 0 out 170*3\n\
            whole: refused 15 at 0 out none cells none\n";
        assert_eq!(stored.lines(), lines);
    }
}
