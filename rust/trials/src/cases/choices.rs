//! Modes as the planner sees them: permitted or not, their cores and their cost.

use super::{changed, given, one_mode, refused, ALL};
use crate::calls::Call;
use crate::stored::{Case, Stored};
use crate::tables::{put32, Table, Task};

pub(super) fn add(stored: &mut Stored) {
    permitted(stored);
    cores(stored);
    costs(stored);
    none_such(stored);
    tables_refused(stored);
}

/// A mode of a table's task 0.
fn choice(name: impl Into<String>, mode: u32, table: &Table) -> Case {
    Case::new(format!("choice: {}", name.into()), Call::AskChoice { task: 0, mode }, &table.bytes())
}

/// A mode that isn't permitted has its cores and cost all the same.
fn permitted(stored: &mut Stored) {
    for (mask, allowed) in [(0b01, [1, 0]), (0b10, [0, 1]), (0b11, [1, 1])] {
        let mut table = Table::sample(4);
        table.tasks[0].permitted = mask;
        let case = |mode| choice(format!("mode {mode}, permitted {mask}"), mode, &table);
        given(stored, case(0), [allowed[0], 2, 0]);
        given(stored, case(1), [allowed[1], 1, 2_041_200_000]);
    }
    let task = Task::new(1, &[[5, 5, 6]; 16]);
    for (mask, mode, allowed) in
        [(0x8000, 15, 1), (0x8000, 14, 0), (0x7fff, 15, 0), (0x7fff, 14, 1), (0x0100, 0, 0)]
    {
        let table = Table::new(6, 1, &[task.clone().permitting(mask)]);
        let case = choice(format!("mode {mode} of 16, permitted {mask}"), mode, &table);
        given(stored, case, [allowed, 1, 0]);
    }
}

/// All work in one chain, the fewest cores, and more than the table or any table has.
fn cores(stored: &mut Stored) {
    for (mode, table_cores, cores) in [
        ([1, 1, 1], 1, 1),
        ([1000, 1000, 1000], 4, 1),
        ([1, 1, 1000], 4, 1),
        ([1000, 1, 1000], 4, 1),
        ([1001, 999, 1000], 4, 2),
        ([1001, 1, 1000], 4, 2),
        ([1999, 1, 1000], 4, 2),
        ([2000, 1, 1000], 4, 3),
        ([5000, 200, 1000], 5, 6),
        ([64_000, 1, 1000], 64, 65),
        ([64_000, 999, 1000], 64, 63_001),
        ([6_400_000, 99_999, 100_000], 64, 6_300_001),
    ] {
        let [work, span, period] = mode;
        let table = one_mode(period, table_cores, mode);
        let name = format!("({work}, {span}, {period}), m {table_cores}");
        given(stored, choice(name, 0, &table), [1, cores, 0]);
    }
}

fn costs(stored: &mut Stored) {
    for elasticity in 1..=10 {
        let task = Task::new(elasticity, &[[9, 5, 6], [2, 1, 6]]);
        let case = choice(format!("E {elasticity}"), 1, &Table::new(6, 1, &[task]));
        given(stored, case, [1, 1, 2520 / u64::from(elasticity) * 49]);
    }
    // The least and the most work that there is, either of them the nominal one.
    let [least, most] = [[1, 1, 100_000], [6_400_000, 1, 100_000]];
    for (elasticity, cost) in [(1, 103_219_167_744_002_520), (10, 10_321_916_774_400_252)] {
        for (name, modes, cores) in [("least", [most, least], 1), ("most", [least, most], 65)] {
            let table = Table::new(100_000, 64, &[Task::new(elasticity, &modes)]);
            let case = choice(format!("{name} work of all, E {elasticity}"), 1, &table);
            given(stored, case, [1, cores, cost]);
        }
    }
    // Demands as far above the nominal one as below it, and the nominal one in another period.
    let modes = [[1200, 100, 1000], [1500, 100, 1000], [900, 100, 1000], [600, 100, 500]];
    let nominal_shut = Table::new(1000, 4, &[Task::new(7, &modes).permitting(0b1110)]);
    for (mode, values) in (0..).zip([[0, 2, 0], [1, 2, 32_400_000], [1, 1, 32_400_000], [1, 2, 0]])
    {
        let case = choice(format!("mode {mode} beside a nominal mode"), mode, &nominal_shut);
        given(stored, case, values);
    }
    // The cost is by demand: half the work in half the period is none, half the work alone is some.
    let modes = [[1000, 1, 1000], [500, 1, 500], [500, 1, 1000], [1000, 1, 500]];
    let table = Table::new(1000, 4, &[Task::new(1, &modes)]);
    for (mode, apart) in (0..).zip([0, 0, 500, 1000u64]) {
        let case = choice(format!("mode {mode} of halved figures"), mode, &table);
        given(stored, case, [1, if mode == 3 { 3 } else { 1 }, 2520 * apart.pow(2)]);
    }
}

fn none_such(stored: &mut Stored) {
    let sample = Table::sample(4).bytes();
    for (task, mode) in
        [(0, 2), (1, 3), (1, 256), (1, ALL), (2, 0), (256, 0), (ALL, 0), (2, 3), (ALL, ALL)]
    {
        let name = format!("choice: task {task} mode {mode} of the sample");
        refused(stored, Case::new(name, Call::AskChoice { task, mode }, &sample), 19, 0);
    }
}

/// A table's refusal comes before that of a task or mode, and also where there is such a mode.
fn tables_refused(stored: &mut Stored) {
    let sample = Table::sample(4);
    let wrong = changed(&sample, |bytes| put32(bytes, 1024 + 16, 3));
    let mut unchecked = sample.bytes();
    unchecked[512 + 508] ^= 1;
    for (task, mode) in [(0, 0), (1, 0), (1, 3), (9, 9)] {
        let mut case = |name: &str, table: &[u8], number, at| {
            let name = format!("choice: task {task} mode {mode}, {name}");
            let call = Call::AskChoice { task, mode };
            refused(stored, Case::new(name, call, table), number, at);
        };
        case("no bytes", &[], 1, 0);
        case("one block less", &wrong[..1024], 7, 0);
        case("a wrong check", &unchecked, 2, 1);
        case("a wrong period", &wrong, 11, 2);
    }
}
