//! The largest tables. Their workspace is printed whole in a few calls only.

use super::{checked, given, refused, whole, ALL};
use crate::calls::Call;
use crate::stored::{Case, Stored};
use crate::tables::{full_table, mend, put16, Sizes, Table, Task};
use crate::Random;
use reference::{COST_CEILING as CEILING, MARK};

const W: u32 = 2145;
const CELLS: usize = W as usize;

pub(super) fn add(stored: &mut Stored) {
    dearest(stored);
    mixed(stored);
    none_fits(stored);
}

/// Every task has to leave the most work of all for the least: a cost just below the ceiling.
fn dearest(stored: &mut Stored) {
    let task = Task::new(1, &[[6_400_000, 1, 100_000], [1, 1, 100_000]]);
    let table = Table::new(100_000, 64, &vec![task; 32]);
    let bytes = table.bytes();
    let cost = 32 * 2520 * 6_399_999u64.pow(2);
    given(stored, whole("dearest plan", &table), [32, cost, 0]);
    let take = |name: &str| {
        Case::new(name, Call::Take { progress: W }, &bytes).cells(CELLS).out(40).goes_on()
    };
    given(stored, take("dearest plan taken"), [32, cost, 0]);
    let last = CELLS - 1;
    refused(stored, take("dearest plan, column m at the ceiling").altering(last, CEILING), 18, 0);
    refused(stored, take("dearest plan, column m above it").altering(last, CEILING + 1), 14, 0);
    let case = take("dearest plan, only column m left").altering(last, cost);
    let case = (CELLS - 65..last).fold(case, |case, cell| case.altering(cell, MARK));
    given(stored, case, [64, cost, 0]);
    let narrow = Table { cores: 31, ..table };
    refused(stored, whole("dearest plan, one core too few", &narrow), 14, 0);
}

/// 16 modes a task, of all periods.
fn mixed(stored: &mut Stored) {
    let table = full_table(&mut Random::new(32), Sizes::LARGEST);
    let bytes = table.bytes();
    stored.base(&bytes);
    given(stored, Case::new("largest: check", Call::Check, &bytes), [32, 64, 100_000]);
    for task in [0, 31] {
        let listed = &table.tasks[task as usize];
        let values = [listed.elasticity.into(), 16, listed.permitted.into()];
        let case = Case::new(format!("largest: task {task}"), Call::AskTask { task }, &bytes);
        given(stored, case, values);
        for mode in [0, 15] {
            let call = Call::AskMode { task, mode };
            let case = Case::new(format!("largest: task {task} mode {mode}"), call, &bytes);
            given(stored, case, listed.modes[mode as usize].map(u64::from));
        }
    }
    let call = Call::AskMode { task: 31, mode: 16 };
    refused(stored, Case::new("largest: task 31 mode 16", call, &bytes), 19, 0);
    for (task, mode) in [0, 31].into_iter().flat_map(|task| (0..16).map(move |mode| (task, mode))) {
        let name = format!("largest: choice {mode} of task {task}");
        let reply = stored.add(Case::new(name, Call::AskChoice { task, mode }, &bytes));
        let permitted = table.tasks[task as usize].permitted >> mode & 1;
        assert_eq!((reply.number, reply.values[0]), (0, permitted.into()));
    }
    for (task, mode) in [(31, 16), (32, 0)] {
        let name = format!("largest: choice {mode} of task {task}");
        let case = Case::new(name, Call::AskChoice { task, mode }, &bytes);
        refused(stored, case, 19, 0);
    }
    let case = Case::new("largest: task 32", Call::AskTask { task: 32 }, &bytes);
    refused(stored, case, 19, 0);

    let plan = stored.add(whole("largest: whole plan", &table));
    assert_eq!(plan.number, 0);
    let take = |name: &str, progress| {
        let case = Case::new(format!("largest: {name}"), Call::Take { progress }, &bytes);
        case.cells(CELLS).out(32).goes_on()
    };
    given(stored, take("plan taken", W), plan.values);
    given(stored, take("plan taken, longer buffers", W).cells(2200).out(600), plan.values);
    refused(stored, take("output of 31", W).out(31), 15, 0);
    refused(stored, take("workspace of 2144", W).cells(CELLS - 1), 15, 0);
    refused(stored, take("progress 2146", W + 1), 16, 0);
    refused(stored, take("progress 2144", W - 1), 17, 0);
    for cell in [2079, 2080, 1000, 64, 0] {
        stored.add(take(&format!("plan taken with 1 in cell {cell}"), W).altering(cell, 1));
    }
    let case = whole("largest: whole plan, workspace of 2144", &table).cells(CELLS - 1);
    refused(stored, case, 15, 0);
    refused(stored, whole("largest: whole plan, output of 31", &table).out(31), 15, 0);

    let portion = |progress, budget| {
        let call = Call::Portion { progress, budget };
        Case::new(format!("largest: budget {budget} from {progress}"), call, &bytes).cells(CELLS)
    };
    given(stored, portion(0, 65), [65, 0, 0]);
    given(stored, portion(0, 70), [70, 0, 0]);
    given(stored, portion(70, 60).goes_on(), [130, 0, 0]);
    given(stored, portion(130, 1).goes_on(), [131, 0, 0]);
    given(stored, portion(131, 0).goes_on(), [131, 0, 0]);
    given(stored, portion(2080, ALL), [2145, 0, 0]);
    given(stored, portion(2144, 1), [2145, 0, 0]);
    given(stored, portion(2145, ALL), [2145, 0, 0]);
    refused(stored, portion(2146, 0), 16, 0);
    refused(stored, portion(ALL, ALL), 16, 0);

    let mut damaged = bytes.clone();
    damaged[32 * 512 + 508] ^= 1;
    checked(stored, "largest: last check", &damaged, 2, 32);
    let mut damaged = bytes.clone();
    damaged[32 * 512 + 200] = 1;
    mend(&mut damaged);
    checked(stored, "largest: last block's first unused byte", &damaged, 6, 32);
    let mut damaged = bytes.clone();
    put16(&mut damaged, 32 * 512 + 6, 32);
    mend(&mut damaged);
    checked(stored, "largest: last task's number", &damaged, 8, 32);
    checked(stored, "largest: one block less", &bytes[..32 * 512], 7, 0);
}

/// 32 tasks that need 3 cores each.
fn none_fits(stored: &mut Stored) {
    let task = Task::new(10, &[[100_000, 50_000, 100_000], [200_000, 50_000, 100_000]]);
    let table = Table::new(100_000, 64, &vec![task.clone().permitting(0b10); 32]);
    refused(stored, whole("32 tasks of 3 cores, m 64", &table), 14, 0);
    let table = Table::new(100_000, 64, &vec![task.permitting(0b01); 32]);
    given(stored, whole("32 tasks of 1 core, m 64", &table), [32, 0, 0]);
    let table = Table { cores: 32, ..table };
    given(stored, whole("32 tasks of 1 core, m 32", &table), [32, 0, 0]);
    let table = Table { cores: 31, ..table };
    refused(stored, whole("32 tasks of 1 core, m 31", &table), 14, 0);
}
