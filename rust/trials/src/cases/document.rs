//! Document 01's examples.

use super::{checked, given, one_mode, refused, whole};
use crate::calls::Call;
use crate::stored::{Case, Stored};
use crate::tables::{Table, Task};

/// (C, L, T) and the cores; 0 where the mode can't meet its period.
const CORES: [([u32; 3], u16); 11] = [
    ([10, 4, 6], 3),
    ([8, 4, 6], 2),
    ([9, 3, 6], 2),
    ([10, 3, 6], 3),
    ([5, 5, 6], 1),
    ([6, 6, 6], 1),
    ([6, 5, 6], 1),
    ([7, 5, 6], 2),
    ([7, 6, 6], 0),
    ([7, 7, 6], 0),
    ([100, 9, 10], 91),
];

/// The cores and costs of the sample's modes.
const SAMPLE: [&[[u64; 2]]; 2] =
    [&[[2, 0], [1, 2_041_200_000]], &[[4, 0], [2, 2_469_600_000], [2, 2_469_600_000]]];

pub(super) fn add(stored: &mut Stored) {
    cores(stored);
    alone(stored);
    sample(stored);
    other_cores(stored);
    fractions(stored);
    let tie = Task::new(1, &[[1200, 900, 1000], [1200, 200, 1000]]);
    given(stored, whole("tie of cost", &Table::new(1000, 4, &[tie])), [2, 0, 0]);
    checked(stored, "no bytes", &[], 1, 0);
    checked(stored, "one block of zeros", &[0; 512], 3, 0);
}

fn cores(stored: &mut Stored) {
    for (mode, need) in CORES {
        let [work, span, period] = mode;
        let asked = Call::AskChoice { task: 0, mode: 0 };
        let name = format!("cores of ({work}, {span}, {period})");
        let case = Case::new(name, asked, &one_mode(period, 1, mode).bytes());
        match need {
            0 => refused(stored, case, 13, 1),
            need => given(stored, case, [1, need.into(), 0]),
        }
        let name = |cores| format!("cores of ({work}, {span}, {period}), m {cores}");
        let case = |cores| whole(name(cores), &one_mode(period, cores, mode));
        match need {
            0 => refused(stored, case(64), 13, 1),
            65.. => refused(stored, case(64), 14, 0),
            need => {
                given(stored, case(need), [need.into(), 0, 0]);
                if need > 1 {
                    refused(stored, case(need - 1), 14, 0);
                }
            }
        }
    }
}

/// Each mode of the sample as the only one that is permitted, of the only task.
fn alone(stored: &mut Stored) {
    for (task, modes) in SAMPLE.iter().enumerate() {
        for (mode, &[cores, cost]) in modes.iter().enumerate() {
            let only = Table::sample(4).tasks[task].clone().permitting(1 << mode);
            let name = format!("sample: task {task} mode {mode} alone");
            given(stored, whole(name, &Table::new(1000, 4, &[only])), [cores, cost, 0]);
        }
    }
}

fn sample(stored: &mut Stored) {
    let sample = Table::sample(4);
    let table = sample.bytes();
    given(stored, Case::new("sample: check", Call::Check, &table), [2, 4, 1000]);
    for (task, listed) in (0..).zip(&sample.tasks) {
        let call = Call::AskTask { task };
        let values = [listed.elasticity.into(), listed.count().into(), listed.permitted.into()];
        given(stored, Case::new(format!("sample: task {task}"), call, &table), values);
        for (mode, figures) in (0..).zip(&listed.modes) {
            let call = Call::AskMode { task, mode };
            let name = format!("sample: task {task} mode {mode}");
            given(stored, Case::new(name, call, &table), figures.map(u64::from));
            let [cores, cost] = SAMPLE[task as usize][mode as usize];
            let call = Call::AskChoice { task, mode };
            let name = format!("sample: task {task} mode {mode} as the planner sees it");
            given(stored, Case::new(name, call, &table), [1, cores, cost]);
        }
    }
    let call = Call::WriteHeader { tasks: 2, cores: 4, common_period: 1000 };
    given(stored, Case::new("sample: header written, check 2147", call, &[]).out(512), [0; 3]);
    for (number, task) in (0..).zip(&sample.tasks) {
        let call = Call::WriteTask {
            common_period: 1000,
            number,
            elasticity: task.elasticity,
            modes: task.count(),
            permitted: task.permitted,
        };
        let name = format!("sample: task {number} written");
        given(stored, Case::new(name, call, &[]).figures(&task.figures()).out(512), [0; 3]);
    }
    given(stored, whole("sample: whole plan", &sample), [4, 2_469_600_000, 0]);
    for (progress, next) in [(0, 7), (7, 14), (14, 15)] {
        let call = Call::Portion { progress, budget: 7 };
        let case = Case::new(format!("sample: budget 7 from {progress}"), call, &table).cells(15);
        let case = if progress == 0 { case } else { case.goes_on() };
        given(stored, case, [next, 0, 0]);
    }
    let case = Case::new("sample: plan taken", Call::Take { progress: 15 }, &table);
    given(stored, case.cells(15).out(2).goes_on(), [4, 2_469_600_000, 0]);
}

fn other_cores(stored: &mut Stored) {
    let case = |cores| whole(format!("sample, m {cores}"), &Table::sample(cores));
    refused(stored, case(1), 14, 0);
    refused(stored, case(2), 14, 0);
    given(stored, case(3), [3, 4_510_800_000, 0]);
    given(stored, case(5), [5, 2_041_200_000, 0]);
    given(stored, case(6), [6, 0, 0]);
    given(stored, case(7), [6, 0, 0]);
    given(stored, case(64), [6, 0, 0]);
    let mut narrowed = Table::sample(4);
    narrowed.tasks[0].permitted = 0b10;
    let case = whole("sample, task 0 permitted only mode 1", &narrowed);
    given(stored, case, [3, 4_510_800_000, 0]);
}

/// Whole utilizations would turn this choice round: they call task 0's mode 1 free of cost.
fn fractions(stored: &mut Stored) {
    let first = Task::new(1, &[[1900, 100, 1000], [1000, 100, 1000]]);
    let second = Task::new(1, &[[2050, 100, 1000], [1900, 100, 1000]]);
    let table = Table::new(1000, 4, &[first, second]);
    given(stored, whole("fractions of utilization", &table), [4, 2520 * 150 * 150, 0]);
}
