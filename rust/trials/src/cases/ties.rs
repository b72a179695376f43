//! Ties: of cost, decided by cores; of cost and cores, decided by the lowest mode where two
//! selections first differ.

use reference::plan_by_listing;

use super::whole;
use crate::calls::Reply;
use crate::stored::Stored;
use crate::tables::{random_table, Sizes, Table, Task};
use crate::Random;

/// Modes of one demand over a common period of 12, which need 7 and 3 cores.
const WIDE: [u32; 3] = [24, 10, 12];
const NARROW: [u32; 3] = [24, 2, 12];

pub(super) fn add(stored: &mut Stored) {
    equal_modes(stored);
    cores_first(stored);
    who_gives_way(stored);
    either_side_of_nominal(stored);
    few_figures(stored);
}

/// Stores the whole plan, held against the plan by listing all selections.
fn plan(stored: &mut Stored, name: impl Into<String>, table: &Table) {
    let name = name.into();
    let listed = match plan_by_listing(&table.bytes()) {
        Ok((plan, _)) => Reply::given([plan.cores.into(), plan.cost, 0]),
        Err(refusal) => Reply::refused(refusal.number, refusal.at),
    };
    assert_eq!(stored.add(whole(name.clone(), table)), listed, "{name}");
}

/// Modes that are all alike: the lowest permitted one.
fn equal_modes(stored: &mut Stored) {
    for permitted in [0b1111, 0b1110, 0b1010] {
        let task = Task::new(4, &[[9, 3, 6]; 4]).permitting(permitted);
        let table = Table::new(6, 6, &[task.clone(), task.clone(), task]);
        plan(stored, format!("three tasks of like modes, permitted {permitted}"), &table);
    }
}

/// Modes of one demand and different cores, in every order.
fn cores_first(stored: &mut Stored) {
    for (name, modes) in [
        ("wide, narrow", [WIDE, NARROW]),
        ("narrow, wide", [NARROW, WIDE]),
        ("wide, wide", [WIDE, WIDE]),
    ] {
        for cores in [6, 10, 20] {
            let task = Task::new(1, &modes);
            let table = Table::new(12, cores, &[task.clone(), task]);
            plan(stored, format!("two tasks of {name}, m {cores}"), &table);
        }
    }
    // The same demand in other periods; 3, 4 and 3 cores.
    let task = Task::new(7, &[WIDE, [12, 2, 6], [6, 2, 3], [4, 1, 2]]);
    for cores in [11, 12, 13] {
        let table = Table::new(12, cores, &vec![task.clone(); 4]);
        plan(stored, format!("four tasks of one demand in four periods, m {cores}"), &table);
    }
    let first = Task::new(1, &[WIDE, NARROW]).permitting(0b01);
    let second = Task::new(1, &[WIDE, NARROW]);
    let table = Table::new(12, 20, &[first, second]);
    plan(stored, "only the second task may be narrow", &table);
}

/// Like tasks of which some have to give way: the later ones do.
fn who_gives_way(stored: &mut Stored) {
    let task = Task::new(2, &[[1800, 200, 1000], [900, 200, 1000]]);
    for cores in 3..=8 {
        let table = Table::new(1000, cores, &vec![task.clone(); 4]);
        plan(stored, format!("four tasks of 2 or 1 cores, m {cores}"), &table);
    }
    let task = Task::new(2, &[[900, 200, 1000], [1800, 200, 1000], [2700, 200, 1000]]);
    let task = task.permitting(0b110);
    for cores in [5, 8, 9] {
        let table = Table::new(1000, cores, &vec![task.clone(); 3]);
        plan(stored, format!("three tasks with the nominal mode shut, m {cores}"), &table);
    }
}

/// Demands as far above the nominal one as below it cost the same.
fn either_side_of_nominal(stored: &mut Stored) {
    let above = [1500, 100, 1000];
    let nominal = [1200, 100, 1000];
    let below = [900, 100, 1000];
    for (name, modes) in
        [("above, below", [nominal, above, below]), ("below, above", [nominal, below, above])]
    {
        for cores in [2, 3, 4] {
            let task = Task::new(5, &modes).permitting(0b110);
            let table = Table::new(1000, cores, &[task.clone(), task]);
            plan(stored, format!("nominal mode shut; {name}, m {cores}"), &table);
        }
    }
}

/// Random tables with few different figures have many ties.
fn few_figures(stored: &mut Stored) {
    let mut random = Random::new(12);
    for turn in 0..12 {
        let sizes = Sizes { tasks: 5, modes: 4, cores: 12, common_period: 4 };
        let table = random_table(&mut random, sizes);
        plan(stored, format!("few figures, table {turn}"), &table);
    }
}
