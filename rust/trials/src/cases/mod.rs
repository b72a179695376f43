//! The calls that are stored, group by group.
//!
//! Where a call is there to show one certain answer, that answer stands beside it and is held
//! against the side's own.

mod altered;
mod choices;
mod document;
mod largest;
mod limits;
mod orders;
mod portions;
mod ties;
mod writers;

use crate::calls::{Call, Reply, Side};
use crate::stored::{Case, Stored};
use crate::tables::{mend, Table, Task};

const ALL: u32 = u32::MAX;

/// Every stored call, answered by one side.
pub fn all(side: Side) -> Stored {
    let mut stored = Stored::new(side);
    stored.base(&Table::sample(4).bytes());
    document::add(&mut stored);
    limits::add(&mut stored);
    orders::add(&mut stored);
    writers::add(&mut stored);
    portions::add(&mut stored);
    altered::add(&mut stored);
    ties::add(&mut stored);
    choices::add(&mut stored);
    largest::add(&mut stored);
    stored
}

/// Stores a call that has to be given these values.
fn given(stored: &mut Stored, case: Case, values: [u64; 3]) {
    let about = format!("{case:?}");
    assert_eq!(stored.add(case), Reply::given(values), "{about}");
}

/// Stores a call that has to be refused so.
fn refused(stored: &mut Stored, case: Case, number: u8, at: u32) {
    let about = format!("{case:?}");
    assert_eq!(stored.add(case), Reply::refused(number, at), "{about}");
}

/// Stores a call that is refused with this number, or given these values if the number is 0.
fn settled(stored: &mut Stored, case: Case, number: u8, values: [u64; 3]) {
    match number {
        0 => given(stored, case, values),
        _ => refused(stored, case, number, 0),
    }
}

/// Stores a check of a table that is refused with this number in this block, or accepted if the
/// number is 0.
fn checked(stored: &mut Stored, name: impl Into<String>, table: &[u8], number: u8, at: u32) {
    let case = Case::new(name, Call::Check, table);
    let about = format!("{case:?}");
    let reply = stored.add(case);
    assert_eq!((reply.number, reply.at), (number.into(), at), "{about}");
}

/// The whole plan of a table, with a workspace and an output of just the length it needs.
fn whole(name: impl Into<String>, table: &Table) -> Case {
    Case::new(name, Call::PlanWhole, &table.bytes()).cells(table.cells()).out(table.tasks.len())
}

/// A table's bytes with some of them changed, and the checks right.
fn changed(table: &Table, change: impl FnOnce(&mut [u8])) -> Vec<u8> {
    let mut bytes = table.bytes();
    change(&mut bytes);
    mend(&mut bytes);
    bytes
}

/// A table of one task with one mode.
fn one_mode(common_period: u32, cores: u16, mode: [u32; 3]) -> Table {
    Table::new(common_period, cores, &[Task::new(1, &[mode])])
}

#[cfg(test)]
mod tests {
    use std::fs;
    use std::path::Path;

    use super::all;
    use crate::calls::{by_planner, by_reference};

    #[test]
    fn the_stored_calls_keep_to_their_sizes() {
        let stored = all(by_reference);
        assert!(stored.count() >= 400);
        assert!(stored.calls().len() < 300_000);
        assert!(stored.lines().len() < 600_000);
        assert_eq!(stored.lines().lines().count(), stored.count());
        let again = all(by_reference);
        assert!(stored.calls() == again.calls() && stored.lines() == again.lines());
    }

    #[test]
    fn the_planner_answers_the_stored_calls_as_the_reference_does() {
        let (planner, reference) = (all(by_planner), all(by_reference));
        for (planner, reference) in planner.lines().lines().zip(reference.lines().lines()) {
            assert_eq!(planner, reference);
        }
        assert_eq!(planner.count(), reference.count());
    }

    #[test]
    fn the_files_are_those_that_make_cases_writes() {
        let folder = Path::new(env!("CARGO_MANIFEST_DIR")).join("../../crates/cases");
        let stored = all(by_reference);
        assert!(fs::read(folder.join("data/calls")).unwrap() == stored.calls());
        assert!(fs::read_to_string(folder.join("stdout")).unwrap() == stored.lines());
    }

    #[test]
    fn every_refusal_is_among_the_stored_calls() {
        let stored = all(by_reference);
        for number in 1..=19 {
            assert!(stored.lines().contains(&format!(": refused {number} at ")), "{number}");
        }
    }
}
