//! Portions of every kind: over fresh cells, which hold no costs of this table, and in turn.

use super::{given, refused, settled, ALL};
use crate::calls::Call;
use crate::stored::{Case, Stored};
use crate::tables::{Table, Task};

pub(super) fn add(stored: &mut Stored) {
    from_any_progress(stored);
    in_turn(stored);
    rows(stored);
}

/// The sample has 15 cells, 5 in a row.
fn from_any_progress(stored: &mut Stored) {
    let table = Table::sample(4).bytes();
    for progress in [0, 4, 7, 14, 15, 16] {
        for budget in [0, 1, 7, 15, 16, ALL] {
            let call = Call::Portion { progress, budget };
            let case = Case::new(format!("budget {budget} from {progress}"), call, &table);
            let number = if progress > 15 { 16 } else { 0 };
            let end = u64::from(progress.saturating_add(budget).min(15));
            settled(stored, case.cells(16), number, [end, 0, 0]);
        }
    }
    // Sums that are 2^32 less one, and just 2^32.
    for budget in [ALL - 7, ALL - 6] {
        let call = Call::Portion { progress: 7, budget };
        let case = Case::new(format!("budget {budget} from 7"), call, &table).cells(15);
        given(stored, case, [15, 0, 0]);
    }
}

/// Portions that go on where the last ended, then the plan.
fn in_turn(stored: &mut Stored) {
    let table = Table::sample(4).bytes();
    for budgets in [&[2; 8][..], &[4; 4], &[5; 3], &[15], &[0, 3, 0, 11, 0, 1, 0], &[ALL, 1]] {
        let named: Vec<String> = budgets.iter().map(u32::to_string).collect();
        let named = named.join(" ");
        let mut progress: u32 = 0;
        for (turn, &budget) in budgets.iter().enumerate() {
            let end = progress.saturating_add(budget).min(15);
            let call = Call::Portion { progress, budget };
            let case = Case::new(format!("budgets {named}: portion {turn}"), call, &table);
            let case = case.cells(15);
            let case = if turn == 0 { case } else { case.goes_on() };
            given(stored, case, [end.into(), 0, 0]);
            progress = end;
        }
        let case = Case::new(format!("budgets {named}: plan"), Call::Take { progress }, &table);
        given(stored, case.cells(15).out(2).goes_on(), [4, 2_469_600_000, 0]);
    }
    let call = Call::Portion { progress: 0, budget: 3 };
    given(stored, Case::new("plan too early: portion", call, &table).cells(15), [3, 0, 0]);
    let case = Case::new("plan too early: taken", Call::Take { progress: 3 }, &table);
    refused(stored, case.cells(15).out(2).goes_on(), 17, 0);
}

/// Rows of the least and the greatest width, and one that no mode of its task gets into.
fn rows(stored: &mut Stored) {
    let task = Task::new(3, &[[9, 5, 6], [5, 5, 6], [2, 1, 2]]);
    for cores in [1, 3, 64] {
        let table = Table::new(6, cores, &[task.clone(), task.clone(), task.clone()]);
        let (bytes, cells) = (table.bytes(), table.cells());
        let call = Call::Portion { progress: 0, budget: ALL };
        let case = Case::new(format!("three like tasks, m {cores}: all cells"), call, &bytes);
        given(stored, case.cells(cells), [cells as u64, 0, 0]);
        let take = Call::Take { progress: cells as u32 };
        let case = Case::new(format!("three like tasks, m {cores}: plan"), take, &bytes);
        stored.add(case.cells(cells).out(3).goes_on());
    }
    let wide = Task::new(1, &[[100, 9, 10]]);
    let table = Table::new(30, 5, &[task.clone(), wide, task]);
    let call = Call::Portion { progress: 0, budget: ALL };
    let case = Case::new("a task of 91 cores: all cells", call, &table.bytes()).cells(24);
    given(stored, case, [24, 0, 0]);
    let case = Case::new("a task of 91 cores: plan", Call::Take { progress: 24 }, &table.bytes());
    refused(stored, case.cells(24).out(3).goes_on(), 14, 0);
}
