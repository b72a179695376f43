//! Workspaces that portions over this table didn't fill, or that others altered since.

use super::{given, refused, settled, ALL};
use crate::calls::Call;
use crate::stored::{Case, Stored};
use crate::tables::{Table, Task};
use reference::{COST_CEILING as CEILING, MARK};

/// The sample's cells: row 2 in cells 0 to 4, row 1 in 5 to 9, row 0 in 10 to 14.
const CELLS: usize = 15;
const COST: u64 = 2_469_600_000;
const OTHER: u64 = 2_041_200_000;

pub(super) fn add(stored: &mut Stored) {
    taken_from_altered(stored);
    never_filled(stored);
    filled_over_altered(stored);
    between_portions(stored);
    another_table(stored);
}

/// The sample's cells as portions leave them.
fn filled() -> Vec<u64> {
    let mut cells = vec![0; CELLS];
    let progress = reference::portion(&Table::sample(4).bytes(), &mut cells, 0, ALL);
    assert_eq!(progress, Ok(15));
    cells
}

/// The call with a workspace of these cells.
fn over(case: Case, cells: &[u64]) -> Case {
    let count = cells.len();
    let places = cells.iter().enumerate();
    places.fold(case, |case, (cell, &value)| case.altering(cell, value)).cells(count)
}

fn taken_from_altered(stored: &mut Stored) {
    let table = Table::sample(4).bytes();
    for (name, cells, number, values) in [
        ("column m is the ceiling", &[(14, CEILING)][..], 18, [0; 3]),
        ("column m is one above the ceiling", &[(14, CEILING + 1)], 14, [0; 3]),
        ("column m is 2^63", &[(14, 1 << 63)], 14, [0; 3]),
        ("column m is one below the mark", &[(14, MARK - 1)], 14, [0; 3]),
        ("column m is the mark", &[(14, MARK)], 14, [0; 3]),
        ("column m is 0", &[(14, 0)], 18, [0; 3]),
        ("column m is one above its cost", &[(14, COST + 1)], 18, [0; 3]),
        ("column m is one below its cost", &[(14, COST - 1)], 18, [0; 3]),
        ("column m has the cost of column 3", &[(14, COST + OTHER)], 0, [3, COST + OTHER, 0]),
        ("column 3 has the cost of column m", &[(13, COST)], 18, [0; 3]),
        ("column 0 has the cost of column m", &[(10, COST)], 18, [0; 3]),
        ("column 3 is the mark", &[(13, MARK)], 0, [4, COST, 0]),
        ("column 3 is one above the ceiling", &[(13, CEILING + 1)], 0, [4, COST, 0]),
        ("row 1 column 2 is one above", &[(7, COST + 1)], 18, [0; 3]),
        ("row 1 column 2 is the mark", &[(7, MARK)], 18, [0; 3]),
        ("row 1 column 2 is 2^63", &[(7, 1 << 63)], 18, [0; 3]),
        ("row 1 column 2 is 0 and column m too", &[(7, 0), (14, 0)], 18, [0; 3]),
        ("row 1 column 3 makes mode 1 keep the cost", &[(7, 9), (8, COST - OTHER)], 18, [0; 3]),
        ("row 2 column 0 is 1", &[(0, 1)], 18, [0; 3]),
        ("row 2 column 0 is the mark", &[(0, MARK)], 18, [0; 3]),
        ("row 2 column 1 is the mark", &[(1, MARK)], 0, [4, COST, 0]),
        ("row 2 all above the ceiling", &[(0, MARK), (1, MARK), (2, CEILING + 1)], 18, [0; 3]),
        ("one more in three cells", &[(0, 1), (7, COST + 1), (14, COST + 1)], 0, [4, COST + 1, 0]),
        (
            "the ceiling in three cells",
            &[(0, CEILING - COST), (7, CEILING), (14, CEILING)],
            0,
            [4, CEILING, 0],
        ),
        (
            "one above the ceiling in two cells",
            &[(0, CEILING - COST + 1), (7, CEILING + 1), (14, CEILING)],
            18,
            [0; 3],
        ),
    ] {
        let mut altered = filled();
        for &(cell, value) in cells {
            altered[cell] = value;
        }
        let case = Case::new(name, Call::Take { progress: 15 }, &table).out(3);
        settled(stored, over(case, &altered), number, values);
    }
}

/// Contents that no portion wrote.
fn never_filled(stored: &mut Stored) {
    let table = Table::sample(4).bytes();
    let case = |name| Case::new(name, Call::Take { progress: 15 }, &table).out(2);
    refused(stored, case("77 in every cell").cells(CELLS), 18, 0);
    for (name, value, number) in [
        ("0 in every cell", 0, 18),
        ("the ceiling in every cell", CEILING, 18),
        ("one above the ceiling in every cell", CEILING + 1, 14),
        ("the mark in every cell", MARK, 14),
    ] {
        refused(stored, over(case(name), &[value; CELLS]), number, 0);
    }
    // Both modes of this task cost nothing, so equal cells are kept where a mode fits in; the cores
    // used are the column that the cells name.
    let flat = Table::new(6, 3, &[Task::new(1, &[[9, 3, 6], [9, 5, 6]])]).bytes();
    let case = |name| Case::new(name, Call::Take { progress: 8 }, &flat).out(1);
    let equal = case("one task, 9 in every cell");
    refused(stored, over(equal, &[9; 8]), 18, 0);
    let two = case("one task, 9 in columns 2 and 3 of row 0");
    given(stored, over(two, &[9, 9, 9, 9, 1, 1, 9, 9]), [2, 9, 0]);
    let three = case("one task, 9 in column 3 of row 0");
    given(stored, over(three, &[9, 9, 9, 9, 1, 1, MARK, 9]), [3, 9, 0]);
}

/// A portion reads what the next row holds, whoever wrote it.
fn filled_over_altered(stored: &mut Stored) {
    let table = Table::sample(4).bytes();
    for (name, value) in [
        ("1", 1),
        ("the ceiling", CEILING),
        ("one above the ceiling", CEILING + 1),
        ("the mark", MARK),
        ("room for a cost of task 1", CEILING - COST),
        ("one too many for a cost of task 1", CEILING - COST + 1),
    ] {
        let call = Call::Portion { progress: 5, budget: ALL };
        let case = Case::new(format!("{name} in row 2: portion from 5"), call, &table);
        given(stored, over(case, &[value; 5]).cells(CELLS), [15, 0, 0]);
        let case = Case::new(format!("{name} in row 2: plan"), Call::Take { progress: 15 }, &table);
        stored.add(case.cells(CELLS).out(2).goes_on());
    }
    for (name, value) in [
        ("room for a cost of task 0", CEILING - OTHER),
        ("one too many for a cost of task 0", CEILING - OTHER + 1),
        ("all but one of 64 bits", MARK - 1),
    ] {
        let call = Call::Portion { progress: 10, budget: 5 };
        let case = Case::new(format!("{name} in row 1: portion from 10"), call, &table);
        given(stored, over(case, &[value; 10]).cells(CELLS), [15, 0, 0]);
    }
    let call = Call::Portion { progress: 0, budget: 15 };
    let case = Case::new("the mark in every cell, then filled anew", call, &table);
    given(stored, over(case, &[MARK; CELLS]), [15, 0, 0]);
}

fn between_portions(stored: &mut Stored) {
    let table = Table::sample(4).bytes();
    for (name, cell, value) in [
        ("a filled cell that is read", 2, 1000),
        ("a filled cell that is read, by the mark", 0, MARK),
        ("a filled cell of the same row", 6, 5),
        ("a cell not filled yet", 12, 5),
    ] {
        let first = Call::Portion { progress: 0, budget: 7 };
        let case = Case::new(format!("{name}: first portion"), first, &table).cells(CELLS);
        given(stored, case, [7, 0, 0]);
        let second = Call::Portion { progress: 7, budget: 8 };
        let case = Case::new(format!("{name}: altered, second portion"), second, &table);
        given(stored, case.cells(CELLS).goes_on().altering(cell, value), [15, 0, 0]);
        let case = Case::new(format!("{name}: plan"), Call::Take { progress: 15 }, &table);
        stored.add(case.cells(CELLS).out(2).goes_on());
    }
    let call = Call::Portion { progress: 3, budget: 12 };
    let case = Case::new("the first cells left out", call, &table).cells(CELLS);
    given(stored, case, [15, 0, 0]);
    let case = Case::new("the first cells left out: plan", Call::Take { progress: 15 }, &table);
    stored.add(case.cells(CELLS).out(2).goes_on());
}

/// A workspace that portions over another table filled.
fn another_table(stored: &mut Stored) {
    let call = Call::Portion { progress: 0, budget: ALL };
    for (cores, progress) in [(4, 15), (5, 18)] {
        let filled = Table::sample(cores).bytes();
        let case = Case::new(format!("filled for m {cores}"), call, &filled).cells(21);
        given(stored, case, [progress, 0, 0]);
        for taken in [3, 9 - cores, 6] {
            let call = Call::Take { progress: 3 * (u32::from(taken) + 1) };
            let name = format!("filled for m {cores}, taken for m {taken}");
            let case = Case::new(name, call, &Table::sample(taken).bytes());
            stored.add(case.cells(21).out(2).goes_on());
        }
    }
    let mut other = Table::sample(4);
    other.tasks[0].permitted = 0b10;
    let call = Call::Take { progress: 15 };
    let case = Case::new("taken with mode 0 of task 0 no longer permitted", call, &other.bytes());
    refused(stored, over(case, &filled()).out(2), 18, 0);
}
