//! The copy with the planner's loops answers as the plain reference does, and leaves what it is lent
//! the same: over lawful tables and altered ones, any workspace, and buffers too short.
#![cfg(feature = "same-loops")]

use trials::calls::{by_reference, by_same_loops, Call, Lent, Reply, Side};
use trials::tables::{mend, random_table, Sizes, Table};
use trials::Random;

/// What a call answers, and what it leaves of the workspace and the output.
type Outcome = (Reply, Vec<u64>, Vec<u8>);

fn outcome(side: Side, call: &Call, table: &[u8], cells: &[u64], out: usize) -> Outcome {
    let (mut cells, mut out) = (cells.to_vec(), vec![9; out]);
    let reply = side(call, Lent { table, figures: &[], cells: &mut cells, out: &mut out });
    (reply, cells, out)
}

fn agreed(call: Call, table: &[u8], cells: &[u64], out: usize) -> Outcome {
    let [copy, plain] =
        [by_same_loops, by_reference].map(|side| outcome(side, &call, table, cells, out));
    assert!(copy == plain, "{call:?}: {:?} is not {:?}", copy.0, plain.0);
    plain
}

fn any_table(random: &mut Random) -> Table {
    let common_period = random.one_of(&[1, 12, 1000, 99_999, 100_000]);
    let few = Sizes { tasks: 3, modes: 3, cores: 6, common_period };
    let sizes = if random.once_in(4) { Sizes { common_period, ..Sizes::LARGEST } } else { few };
    random_table(random, sizes)
}

fn any_cell(random: &mut Random) -> u64 {
    match random.below(4) {
        0 => random.number(),
        1 => reference::MARK,
        2 => reference::COST_CEILING - 2 + random.below(4),
        _ => random.below(3),
    }
}

#[test]
fn planned_in_portions_and_in_one_call() {
    let mut random = Random::new(1);
    let mut planned = 0;
    for _ in 0..1000 {
        let table = any_table(&mut random);
        let (bytes, count) = (table.bytes(), table.tasks.len());
        let budget = random.between(1, 2 * u64::from(table.cores)) as u32;
        let mut cells = vec![77; table.cells()];
        let mut progress = 0;
        while (progress as usize) < cells.len() {
            let (reply, filled, _) =
                agreed(Call::Portion { progress, budget }, &bytes, &cells, count);
            (progress, cells) = (reply.values[0] as u32, filled);
        }
        let (taken, ..) = agreed(Call::Take { progress }, &bytes, &cells, count);
        let (whole, ..) = agreed(Call::PlanWhole, &bytes, &vec![77; cells.len()], count);
        assert_eq!(taken, whole);
        planned += u32::from(whole.number == 0);
    }
    assert!((200..900).contains(&planned), "{planned} of 1000 tables have a plan");
}

#[test]
fn any_bytes_cells_and_buffers() {
    let mut random = Random::new(2);
    let mut met = [0; 20];
    for _ in 0..5000 {
        let table = any_table(&mut random);
        let mut bytes = table.bytes();
        if random.once_in(2) {
            alter(&mut random, &mut bytes);
        }
        let all = table.cells() as u64;
        let length = if random.once_in(8) { random.below(all) } else { all + random.below(3) };
        let cells: Vec<u64> = (0..length).map(|_| any_cell(&mut random)).collect();
        let out = (table.tasks.len() + 1).saturating_sub(random.below(3) as usize);
        let progress = if random.once_in(2) { all } else { random.below(all + 2) } as u32;
        let budget = random.one_of(&[0, 1, 7, u32::MAX]);
        let portion = Call::Portion { progress, budget };
        for call in [Call::Check, portion, Call::Take { progress }, Call::PlanWhole] {
            met[agreed(call, &bytes, &cells, out).0.number as usize] += 1;
        }
    }
    // Asking alone is refused with 19.
    assert!(met[..19].iter().all(|&count| count > 0), "{met:?}");
}

/// Changes some bytes, mostly those with a meaning, or the length; the checks are mostly put right.
fn alter(random: &mut Random, bytes: &mut Vec<u8>) {
    for _ in 0..random.between(1, 2) {
        let block = random.below(bytes.len() as u64 / 512) as usize;
        let offset = if random.once_in(4) { random.below(512) } else { random.below(24) };
        let byte = &mut bytes[512 * block + offset as usize];
        *byte = if random.once_in(2) { random.number() as u8 } else { random.below(4) as u8 };
    }
    if random.once_in(10) {
        bytes.truncate(random.below(bytes.len() as u64) as usize);
    }
    if !random.once_in(8) {
        mend(bytes);
    }
}
