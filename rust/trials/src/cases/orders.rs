//! Two refusals at once: which of them is given. Each fault stands alone too.

use super::{changed, checked, given, refused, whole, ALL};
use crate::calls::Call;
use crate::stored::{Case, Stored};
use crate::tables::{mend, put16, put32, Table};

/// A fault of one block of the sample.
struct Fault {
    number: u8,
    name: &'static str,
    change: fn(&mut [u8]),
}

impl Fault {
    const fn new(number: u8, name: &'static str, change: fn(&mut [u8])) -> Self {
        Fault { number, name, change }
    }
}

/// In the document's order; the wrong check comes about after the others.
const HEADER: [Fault; 6] = [
    Fault::new(2, "check", |block| block[508] ^= 1),
    Fault::new(3, "kind", |block| block[0] = 2),
    Fault::new(4, "edition", |block| block[1] = 2),
    Fault::new(5, "limits", |block| put16(block, 4, 65)),
    Fault::new(6, "unused byte", |block| block[12] = 1),
    Fault::new(7, "length", |block| put16(block, 2, 3)),
];

const TASK: [Fault; 9] = [
    Fault::new(2, "check", |block| block[508] ^= 1),
    Fault::new(3, "kind", |block| block[0] = 1),
    Fault::new(8, "task number", |block| put16(block, 6, 7)),
    Fault::new(9, "E", |block| block[1] = 11),
    Fault::new(10, "permitted", |block| put16(block, 4, 0x100)),
    Fault::new(6, "unused byte", |block| block[3] = 1),
    Fault::new(11, "period", |block| put32(block, 16, 999)),
    Fault::new(12, "work", |block| put32(block, 8, 64_001)),
    Fault::new(13, "span", |block| put32(block, 12, 1000)),
];

/// Unused bytes elsewhere: before and after the bytes that the other faults are in. The order is one
/// of numbers and not of bytes.
const HEADER_UNUSED: [Fault; 2] = [
    Fault::new(6, "unused byte 6", |block| block[6] = 1),
    Fault::new(6, "unused byte 507", |block| block[507] = 1),
];

const TASK_UNUSED: Fault = Fault::new(6, "unused byte 507", |block| block[507] = 1);

/// What is wrong with one mode, as figures over a common period of 1000.
pub(super) const MODE: [(u8, [u32; 3]); 3] =
    [(11, [5, 5, 3]), (12, [5, 6, 1000]), (13, [1800, 1000, 1000])];

pub(super) fn add(stored: &mut Stored) {
    block(stored, 0, &HEADER);
    block(stored, 1, &TASK);
    for fault in &HEADER_UNUSED {
        beside(stored, 0, &HEADER, fault);
    }
    beside(stored, 1, &TASK, &TASK_UNUSED);
    counts(stored);
    modes(stored);
    two_blocks(stored);
    taking(stored);
    after_the_table(stored);
}

/// The sample with faults in its blocks.
fn faulty(faults: &[(usize, &Fault)]) -> Vec<u8> {
    let apply = |bytes: &mut [u8], late: bool| {
        for (at, fault) in faults.iter().filter(|(_, fault)| (fault.number == 2) == late) {
            (fault.change)(&mut bytes[512 * at..][..512]);
        }
    };
    let mut bytes = changed(&Table::sample(4), |bytes| apply(bytes, false));
    apply(&mut bytes, true);
    bytes
}

/// Each fault of a block alone, then each two of them.
fn block(stored: &mut Stored, at: usize, faults: &[Fault]) {
    for (place, first) in faults.iter().enumerate() {
        let name = format!("block {at}: {}", first.name);
        checked(stored, name, &faulty(&[(at, first)]), first.number, at as u32);
        for second in &faults[place + 1..] {
            let name = format!("block {at}: {} before {}", first.name, second.name);
            let table = faulty(&[(at, first), (at, second)]);
            checked(stored, name, &table, first.number, at as u32);
        }
    }
}

/// A fault with each other one of its block: whichever of the two has its number first.
fn beside(stored: &mut Stored, at: usize, faults: &[Fault], fault: &Fault) {
    let same = faults.iter().position(|other| other.number == fault.number);
    for (place, other) in faults.iter().enumerate().filter(|(place, _)| Some(*place) != same) {
        let (first, second) = if Some(place) < same { (other, fault) } else { (fault, other) };
        let name = format!("block {at}: {} before {}", first.name, second.name);
        let table = faulty(&[(at, first), (at, second)]);
        checked(stored, name, &table, first.number, at as u32);
    }
}

/// A wrong mode count moves what is permitted, unused and listed; it comes before all three.
fn counts(stored: &mut Stored) {
    let count = Fault::new(9, "mode count", |block| block[2] = 0);
    for fault in &TASK[2..] {
        let table = faulty(&[(1, fault), (1, &count)]);
        let number = if fault.number == 8 { 8 } else { 9 };
        checked(stored, format!("block 1: mode count 0 and {}", fault.name), &table, number, 1);
    }
    let fewer = changed(&Table::sample(4), |bytes| bytes[512 + 2] = 1);
    checked(stored, "block 1: permitted before unused, by the mode count", &fewer, 10, 1);
    let mut fewer = Table::sample(4);
    fewer.tasks[0].permitted = 1;
    let fewer = changed(&fewer, |bytes| bytes[512 + 2] = 1);
    checked(stored, "block 1: unused, by the mode count", &fewer, 6, 1);
}

/// The modes come in turn: a fault of mode 0 before any fault of mode 1.
fn modes(stored: &mut Stored) {
    for (first, earlier) in MODE {
        for (second, later) in MODE {
            let mut table = Table::sample(4);
            table.tasks[0].modes = vec![earlier, later];
            let name = format!("mode 0 with {first} before mode 1 with {second}");
            checked(stored, name, &table.bytes(), first, 1);
        }
        let mut table = Table::sample(4);
        table.tasks[1].modes[2] = earlier;
        checked(stored, format!("last mode with {first}"), &table.bytes(), first, 2);
    }
    for (name, figures, number) in [
        ("period zero before work zero", [0, 0, 0], 11),
        ("period zero before span above work", [5, 6, 0], 11),
        ("period not dividing before span above period", [1800, 1200, 999], 11),
        ("work above 64 periods before span above period", [64_001, 2000, 1000], 12),
        ("span above work before span above period", [1800, 1801, 1000], 12),
        ("work zero before span above period", [0, 1800, 1000], 12),
    ] {
        let mut table = Table::sample(4);
        table.tasks[0].modes[1] = figures;
        checked(stored, name, &table.bytes(), number, 1);
    }
}

/// The earlier block comes first, whatever the numbers.
fn two_blocks(stored: &mut Stored) {
    let check = &TASK[0];
    for fault in &HEADER {
        let table = faulty(&[(0, fault), (1, check)]);
        let name = format!("header: {} before block 1: check", fault.name);
        checked(stored, name, &table, fault.number, 0);
    }
    // Each two faults, and either of them in the earlier block.
    for first in &TASK {
        for second in &TASK {
            let table = faulty(&[(1, first), (2, second)]);
            let name = format!("block 1: {} before block 2: {}", first.name, second.name);
            checked(stored, name, &table, first.number, 1);
        }
    }
    let mut table = faulty(&[(1, &TASK[8])]);
    table.push(0);
    checked(stored, "length before block 1: span", &table, 1, 0);
}

/// The refusals of taking the plan, two at a time, over a full workspace.
fn taking(stored: &mut Stored) {
    let sample = Table::sample(4);
    let table = sample.bytes();
    let fill = Case::new("full workspace", Call::Portion { progress: 0, budget: ALL }, &table);
    given(stored, fill.cells(15), [15, 0, 0]);
    let mut taken = |name: &str, progress, cells, out, altered: Option<u64>, number| {
        let case = Case::new(format!("taking: {name}"), Call::Take { progress }, &table);
        let mut case = case.cells(cells).out(out).goes_on();
        // Cell 14 is column m of row 0.
        case = case.altering(14, altered.unwrap_or(2_469_600_000));
        refused(stored, case, number, 0);
    };
    const LOST: Option<u64> = Some(u64::MAX);
    const WRONG: Option<u64> = Some(5);
    taken("workspace", 15, 14, 2, None, 15);
    taken("output", 15, 15, 1, None, 15);
    taken("workspace and output", 15, 14, 1, None, 15);
    taken("progress above W", 16, 15, 2, None, 16);
    taken("progress below W", 14, 15, 2, None, 17);
    taken("no plan", 15, 15, 2, LOST, 14);
    taken("no mode keeps the cost", 15, 15, 2, WRONG, 18);
    taken("workspace before progress above W", 16, 14, 2, None, 15);
    taken("workspace before progress below W", 14, 14, 2, None, 15);
    taken("output before progress above W", 16, 15, 1, None, 15);
    taken("output before progress below W", 14, 15, 1, None, 15);
    taken("output before no plan", 15, 15, 1, LOST, 15);
    taken("output before no mode keeps the cost", 15, 15, 1, WRONG, 15);
    taken("workspace before no plan", 15, 14, 2, LOST, 15);
    taken("workspace before no mode keeps the cost", 15, 14, 2, WRONG, 15);
    taken("progress above W before no plan", 16, 15, 2, LOST, 16);
    taken("progress above W before no mode keeps the cost", 16, 15, 2, WRONG, 16);
    taken("progress below W before no plan", 14, 15, 2, LOST, 17);
    taken("progress below W before no mode keeps the cost", 14, 15, 2, WRONG, 17);
    let case = Case::new("taking: no plan before no mode", Call::Take { progress: 15 }, &table);
    let case = case.cells(15).out(2).goes_on().altering(14, u64::MAX).altering(7, 1).altering(9, 1);
    refused(stored, case, 14, 0);
}

/// A table's refusal comes before those of buffers and numbers.
fn after_the_table(stored: &mut Stored) {
    let sample = Table::sample(4);
    let mut wrong = sample.bytes();
    wrong[1024 + 508] ^= 1;
    let slow = faulty(&[(2, &TASK[8])]);
    let portion = |progress| Call::Portion { progress, budget: 1 };
    refused(stored, Case::new("check before short workspace", portion(0), &wrong), 2, 2);
    refused(stored, Case::new("span before short workspace", portion(0), &slow), 13, 2);
    let case = Case::new("span before progress above W", portion(16), &slow).cells(15);
    refused(stored, case, 13, 2);
    let case = Case::new("short workspace before progress above W", portion(16), &sample.bytes());
    refused(stored, case.cells(14), 15, 0);
    let case = Case::new("no bytes before short workspace", portion(0), &[]);
    refused(stored, case, 1, 0);
    let take = Call::Take { progress: 99 };
    refused(stored, Case::new("span before all of taking", take, &slow), 13, 2);
    refused(stored, Case::new("length before all of taking", take, &slow[..1024]), 7, 0);
    let none = Call::AskTask { task: 2 };
    refused(stored, Case::new("span before no such task", none, &slow), 13, 2);
    let whole_plan = Call::PlanWhole;
    refused(stored, Case::new("span before all of the whole plan", whole_plan, &slow), 13, 2);
    let none = Table::sample(2);
    refused(stored, whole("whole plan: output before no plan", &none).out(1), 15, 0);
    refused(stored, whole("whole plan: workspace before output", &none).cells(8).out(1), 15, 0);
    refused(stored, whole("whole plan: no plan", &none), 14, 0);
    let mut mended = wrong.clone();
    mend(&mut mended);
    given(stored, Case::new("block 2 mended", Call::Check, &mended), [2, 4, 1000]);
}
