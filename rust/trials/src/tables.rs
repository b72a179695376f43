//! Tables from numbers, lawful or not.

use reference::{block_check, BLOCK};

use crate::Random;

/// Work, span and period of a mode.
pub type Mode = [u32; 3];

/// A task as a table lists it.
#[derive(Debug, Clone, PartialEq, Eq)]
#[allow(missing_docs)]
pub struct Task {
    pub elasticity: u8,
    pub permitted: u16,
    pub modes: Vec<Mode>,
}

impl Task {
    /// A task all of whose modes are permitted.
    pub fn new(elasticity: u8, modes: &[Mode]) -> Self {
        let permitted = ((1u32 << modes.len()) - 1) as u16;
        Task { elasticity, permitted, modes: modes.to_vec() }
    }

    /// The same task with other permitted modes.
    pub fn permitting(mut self, permitted: u16) -> Self {
        self.permitted = permitted;
        self
    }

    /// How many modes there are.
    pub fn count(&self) -> u8 {
        self.modes.len() as u8
    }

    /// The figures of all modes in turn, as the task writer is lent them.
    pub fn figures(&self) -> Vec<u32> {
        self.modes.concat()
    }

    fn block(&self, number: usize) -> Vec<u8> {
        let mut block = vec![0; BLOCK];
        block[..3].copy_from_slice(&[2, self.elasticity, self.count()]);
        put16(&mut block, 4, self.permitted);
        put16(&mut block, 6, number as u16);
        for (place, figure) in self.figures().into_iter().enumerate() {
            put32(&mut block, 8 + 4 * place, figure);
        }
        block
    }
}

/// A table as numbers.
#[derive(Debug, Clone, PartialEq, Eq)]
#[allow(missing_docs)]
pub struct Table {
    pub cores: u16,
    pub common_period: u32,
    pub tasks: Vec<Task>,
}

impl Table {
    /// A table of these tasks.
    pub fn new(common_period: u32, cores: u16, tasks: &[Task]) -> Self {
        Table { cores, common_period, tasks: tasks.to_vec() }
    }

    /// Document 01's sample, with any number of cores.
    pub fn sample(cores: u16) -> Self {
        let first = Task::new(1, &[[1800, 200, 1000], [900, 200, 1000]]);
        let second = Task::new(2, &[[1400, 200, 500], [1400, 200, 1000], [700, 100, 500]]);
        Table::new(1000, cores, &[first, second])
    }

    /// The table's bytes. Nothing is checked, so unlawful numbers are laid out too; the blocks'
    /// checks are right.
    pub fn bytes(&self) -> Vec<u8> {
        let mut header = vec![0; BLOCK];
        header[..2].copy_from_slice(&[1, 1]);
        put16(&mut header, 2, self.tasks.len() as u16);
        put16(&mut header, 4, self.cores);
        put32(&mut header, 8, self.common_period);
        let blocks = self.tasks.iter().enumerate().map(|(number, task)| task.block(number));
        let mut bytes: Vec<u8> = std::iter::once(header).chain(blocks).flatten().collect();
        mend(&mut bytes);
        bytes
    }

    /// The number W of cells that a plan of the table needs.
    pub fn cells(&self) -> usize {
        (self.tasks.len() + 1) * (usize::from(self.cores) + 1)
    }

    /// How many selections of permitted modes there are, or a very large number.
    pub fn selections(&self) -> u64 {
        let counts = self.tasks.iter().map(|task| u64::from(task.permitted.count_ones()));
        counts.fold(1, u64::saturating_mul)
    }
}

/// Puts a number of 16 bits into bytes.
pub fn put16(bytes: &mut [u8], offset: usize, number: u16) {
    bytes[offset..][..2].copy_from_slice(&number.to_le_bytes());
}

/// Puts a number of 32 bits into bytes.
pub fn put32(bytes: &mut [u8], offset: usize, number: u32) {
    bytes[offset..][..4].copy_from_slice(&number.to_le_bytes());
}

/// Puts the check of every whole block right.
pub fn mend(bytes: &mut [u8]) {
    for block in bytes.chunks_exact_mut(BLOCK) {
        let check = block_check(block);
        put32(block, 508, check);
    }
}

/// The largest sizes that a random table may have.
#[derive(Debug, Clone, Copy)]
#[allow(missing_docs)]
pub struct Sizes {
    pub tasks: u64,
    pub modes: u64,
    pub cores: u64,
    pub common_period: u32,
}

impl Sizes {
    /// The largest lawful table.
    pub const LARGEST: Sizes = Sizes { tasks: 32, modes: 16, cores: 64, common_period: 100_000 };
}

/// A lawful table with sizes from 1 to those given, and just the common period.
pub fn random_table(random: &mut Random, sizes: Sizes) -> Table {
    let tasks = random.between(1, sizes.tasks);
    let cores = random.between(1, sizes.cores);
    sized_table(random, tasks, (1, sizes.modes), cores, sizes.common_period)
}

/// A lawful table of the sizes given, and none smaller.
pub fn full_table(random: &mut Random, sizes: Sizes) -> Table {
    let modes = (sizes.modes, sizes.modes);
    sized_table(random, sizes.tasks, modes, sizes.cores, sizes.common_period)
}

/// A table to time, of just these sizes: all modes are permitted, and the last mode of each task
/// needs one core, so that a plan fits wherever there are as many cores as tasks.
pub fn bench_table(sizes: Sizes, seed: u64) -> Table {
    let mut table = full_table(&mut Random::new(seed), sizes);
    for task in &mut table.tasks {
        let last = task.modes.len() - 1;
        let [_, span, period] = task.modes[last];
        task.modes[last] = [span, span, period];
        task.permitted = ((1u32 << task.modes.len()) - 1) as u16;
    }
    table
}

/// A table whose two best selections differ in cost by less than one part in 10^12; there are 20 of
/// them. There are cores for the better mode of one of two tasks, and which of them saves more turns
/// on the last digits.
pub fn near_tie(place: u64) -> Table {
    // Every mode's period is the common one.
    const PERIOD: u32 = 100_000;
    // Mode 0 is as far from the others as can be, and needs more cores than any table has.
    let task = |later: u32| {
        let better = PERIOD + 1 + later;
        let less = better - 11;
        let modes = [[64 * PERIOD, 1, PERIOD], [less, less, PERIOD], [better, PERIOD / 2, PERIOD]];
        Task::new(1, &modes).permitting(0b110)
    };
    let later = (place / 2 % 10) as u32;
    let mut tasks = [task(later), task(later + 1)];
    if place % 2 == 1 {
        tasks.reverse();
    }
    Table::new(PERIOD, 3, &tasks)
}

fn sized_table(
    random: &mut Random,
    tasks: u64,
    (fewest, most): (u64, u64),
    cores: u64,
    common_period: u32,
) -> Table {
    let periods = divisors(common_period);
    // A task's share of the cores, so that tables with and without a plan are both common.
    let share = (2 * cores / tasks).max(2);
    let tasks = (0..tasks)
        .map(|_| {
            let count = random.between(fewest, most);
            let modes = (0..count).map(|_| random_mode(random, &periods, share)).collect();
            let all = (1 << count) - 1;
            let permitted = if random.once_in(2) { all } else { random.between(1, all) };
            Task { elasticity: random.between(1, 10) as u8, permitted: permitted as u16, modes }
        })
        .collect();
    Table { cores: cores as u16, common_period, tasks }
}

/// A lawful mode that mostly needs at most `need` cores.
pub fn random_mode(random: &mut Random, periods: &[u32], need: u64) -> Mode {
    // Long periods come up most.
    let place = random.below(periods.len() as u64).max(random.below(periods.len() as u64));
    let period = periods[place as usize];
    if period == 1 || random.once_in(8) {
        let work = random.between(1, period.into()) as u32;
        return [work, work, period];
    }
    let span = random.between(1, u64::from(period) - 1) as u32;
    let room = u64::from(period - span);
    let most = if random.once_in(12) { 100 } else { need };
    let need = random.between(1, most);
    let more = random.between((need - 1) * room + 1, need * room);
    let work = (u64::from(span) + more).min(64 * u64::from(period));
    [work as u32, span, period]
}

/// The table with most modes repeating the demand of an earlier mode of their task, with another span
/// and often another period: they cost the same, and many need other cores.
pub fn with_ties(random: &mut Random, mut table: Table) -> Table {
    let periods = divisors(table.common_period);
    // Of so many tasks one is busy: with few of them, and with more cores, there are some to spare
    // for wider modes.
    let busy = random.one_of(&[1, 1, 2, 4]);
    table.cores = (table.cores * random.one_of(&[1, 2])).min(64);
    for task in &mut table.tasks {
        let [.., period] = task.modes[0];
        task.modes[0] = nominal(random, period, busy);
        for mode in 1..task.modes.len() {
            if !random.once_in(3) {
                let earlier = task.modes[random.below(mode as u64) as usize];
                task.modes[mode] = same_demand(random, earlier, &periods);
            }
        }
    }
    table
}

/// A lawful mode that once in `busy` times has more work than one core does in the period. With less
/// than that, one core is enough whatever the span is.
fn nominal(random: &mut Random, period: u32, busy: u64) -> Mode {
    let least = if period > 1 && random.once_in(busy) { period } else { 0 };
    let work = least + random.between(1, period.into()) as u32;
    [work, any_span(random, work, period), period]
}

/// A lawful mode with the demand of a lawful one.
fn same_demand(random: &mut Random, [work, _, period]: Mode, periods: &[u32]) -> Mode {
    // As much of the work as of the period, if that is whole.
    let in_period = |other: u32| {
        let work = u64::from(work) * u64::from(other);
        work.is_multiple_of(period.into()).then(|| (work / u64::from(period)) as u32)
    };
    let others = periods.iter().filter_map(|&other| Some((in_period(other)?, other)));
    // Work above a period of 1 can't be done in it.
    let others: Vec<_> = others.filter(|&(work, other)| work <= other || other > 1).collect();
    let (work, period) = random.one_of(&others);
    [work, any_span(random, work, period), period]
}

/// A span that is lawful with this work and period, mostly one for which few more cores are needed
/// than for the shortest.
fn any_span(random: &mut Random, work: u32, period: u32) -> u32 {
    if work <= period {
        return random.between(1, work.into()) as u32;
    }
    let (work, period) = (u64::from(work), u64::from(period));
    if random.once_in(4) {
        return random.between(1, period - 1) as u32;
    }
    let fewest = (work - 1).div_ceil(period - 1);
    let cores = fewest + random.below(4);
    // The longest span for which so many are enough.
    ((cores * period - work) / (cores - 1)) as u32
}

/// The divisors of a number, the least first: of a common period, the periods that modes may have.
pub fn divisors(number: u32) -> Vec<u32> {
    let low = (1..=number.isqrt()).filter(|&low| number.is_multiple_of(low));
    let mut all: Vec<u32> = low.flat_map(|low| [low, number / low]).collect();
    all.sort_unstable();
    all.dedup();
    all
}

#[cfg(test)]
mod tests {
    use super::*;

    /// The table as the reference's writers write it.
    fn written(table: &Table) -> Vec<u8> {
        let mut bytes = vec![9; BLOCK * (table.tasks.len() + 1)];
        let (header, blocks) = bytes.split_at_mut(BLOCK);
        let count = table.tasks.len() as u16;
        reference::write_header(count, table.cores, table.common_period, header).unwrap();
        for (number, (task, block)) in
            table.tasks.iter().zip(blocks.chunks_exact_mut(BLOCK)).enumerate()
        {
            reference::write_task(
                table.common_period,
                number as u16,
                task.elasticity,
                task.count(),
                task.permitted,
                &task.figures(),
                block,
            )
            .unwrap();
        }
        bytes
    }

    #[test]
    fn tables_are_laid_out_as_the_writers_do() {
        let mut random = Random::new(5);
        assert_eq!(Table::sample(4).bytes(), written(&Table::sample(4)));
        for part in 1..500 {
            let sizes = Sizes { common_period: part * 200, ..Sizes::LARGEST };
            let table = random_table(&mut random, sizes);
            assert_eq!(table.bytes(), written(&table));
        }
        let table = full_table(&mut random, Sizes::LARGEST);
        assert_eq!(table.bytes(), written(&table));
        assert_eq!(table.cells(), 2145);
    }

    #[test]
    fn tables_with_ties_are_lawful_and_have_them() {
        let mut random = Random::new(9);
        let [mut alike, mut other_cores] = [0; 2];
        for _ in 0..40 {
            let common_period = random.one_of(&[6, 1000, 83_160, 99_991]);
            let table = full_table(&mut random, Sizes { common_period, ..Sizes::LARGEST });
            let table = with_ties(&mut random, table).bytes();
            for choices in reference::choices_of(&table).unwrap() {
                for (place, later) in choices.iter().enumerate() {
                    for earlier in choices[..place].iter().filter(|other| other.cost == later.cost)
                    {
                        alike += 1;
                        other_cores += u32::from(earlier.need != later.need);
                    }
                }
            }
        }
        assert!(alike > 30_000 && other_cores > 10_000, "{other_cores} of {alike}");
    }

    #[test]
    fn a_table_of_period_1_has_no_other_modes() {
        let mut random = Random::new(2);
        let table = full_table(&mut random, Sizes { common_period: 1, ..Sizes::LARGEST });
        assert_eq!(with_ties(&mut random, table.clone()).tasks, table.tasks);
    }

    #[test]
    fn near_ties_are_lawful_and_none_is_there_twice() {
        let tables: Vec<Vec<u8>> = (0..20).map(|place| near_tie(place).bytes()).collect();
        for (place, table) in tables.iter().enumerate() {
            assert!(reference::plan_by_listing(table).is_ok());
            assert!(!tables[..place].contains(table));
        }
    }

    #[test]
    fn divisors_of_a_number() {
        assert_eq!(divisors(1), [1]);
        assert_eq!(divisors(12), [1, 2, 3, 4, 6, 12]);
        assert_eq!(divisors(49), [1, 7, 49]);
    }
}
