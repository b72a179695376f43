//! Document 01's examples, each refusal, and the plan by cells against the plan by its definition.

use crate::random::Random;
use crate::*;

/// A task as the tests write it: elasticity, permitted modes, and (work, span, period) by mode.
type Listed = (u8, u16, Vec<(u32, u32, u32)>);

const ALL: u32 = u32::MAX;

fn refusal<T>(number: u8, at: u32) -> Result<T, Refusal> {
    Err(Refusal { number, at })
}

fn table(common_period: u32, cores: u16, tasks: &[Listed]) -> Vec<u8> {
    let mut table = vec![0; BLOCK * (tasks.len() + 1)];
    let (header, blocks) = table.split_at_mut(BLOCK);
    write_header(tasks.len() as u16, cores, common_period, header).unwrap();
    for (number, (task, block)) in tasks.iter().zip(blocks.chunks_mut(BLOCK)).enumerate() {
        let (elasticity, permitted, modes) = task;
        let figures: Vec<u32> = modes.iter().flat_map(|&(c, l, t)| [c, l, t]).collect();
        let count = modes.len() as u8;
        let number = number as u16;
        write_task(common_period, number, *elasticity, count, *permitted, &figures, block).unwrap();
    }
    table
}

fn sample(cores: u16) -> Vec<u8> {
    let first = vec![(1800, 200, 1000), (900, 200, 1000)];
    let second = vec![(1400, 200, 500), (1400, 200, 1000), (700, 100, 500)];
    table(1000, cores, &[(1, 0b11, first), (2, 0b111, second)])
}

/// Changes one byte and puts the check of its block right.
fn altered(mut table: Vec<u8>, place: usize, byte: u8) -> Vec<u8> {
    table[place] = byte;
    let block = &mut table[place / BLOCK * BLOCK..][..BLOCK];
    let check = block_check(block);
    block[508..].copy_from_slice(&check.to_le_bytes());
    table
}

fn plan(table: &[u8]) -> Result<(Plan, Vec<u8>), Refusal> {
    let header = check(table)?;
    let mut cells = vec![77; workspace_length(&header)];
    let mut modes = vec![0; usize::from(header.tasks)];
    let plan = plan_whole(table, &mut cells, &mut modes)?;
    Ok((plan, modes))
}

/// The plan by portions of a budget.
fn plan_in_portions(table: &[u8], budget: u32) -> Result<(Plan, Vec<u8>), Refusal> {
    let header = check(table)?;
    let mut cells = vec![77; workspace_length(&header)];
    let mut modes = vec![0; usize::from(header.tasks)];
    let mut progress = 0;
    while (progress as usize) < cells.len() {
        progress = portion(table, &mut cells, progress, budget)?;
    }
    let plan = take(table, &cells, progress, &mut modes)?;
    Ok((plan, modes))
}

/// The lines of the program `plan`.
fn lines(table: &[u8]) -> String {
    match plan(table) {
        Err(Refusal { number, at }) => format!("refused {number} at {at}\n"),
        Ok((Plan { cores, cost }, modes)) => {
            let header = check(table).unwrap();
            let mut lines = format!("plan {cores} of {} cost {cost}\n", header.cores);
            for (task, &mode) in modes.iter().enumerate() {
                let Seen { cores, .. } = ask_choice(table, task as u32, mode.into()).unwrap();
                lines += &format!("{task} {mode} {cores}\n");
            }
            lines
        }
    }
}

#[test]
fn cores_of_a_mode() {
    let cores = |work, span, period| rules::cores(Figures { work, span, period });
    assert_eq!(cores(10, 4, 6), Some(3));
    assert_eq!(cores(8, 4, 6), Some(2));
    assert_eq!(cores(9, 3, 6), Some(2));
    assert_eq!(cores(10, 3, 6), Some(3));
    assert_eq!(cores(5, 5, 6), Some(1));
    assert_eq!(cores(6, 6, 6), Some(1));
    assert_eq!(cores(6, 5, 6), Some(1));
    assert_eq!(cores(7, 5, 6), Some(2));
    assert_eq!(cores(7, 6, 6), None);
    assert_eq!(cores(7, 7, 6), None);
    assert_eq!(cores(100, 9, 10), Some(91));
}

#[test]
fn largest_costs() {
    assert_eq!(rules::cost(1, 0, 64 * 100_000), 103_219_200_000_000_000);
    assert_eq!(32 * rules::cost(1, 64 * 100_000, 0), COST_CEILING);
}

#[test]
fn the_sample() {
    let table = sample(4);
    assert_eq!(table[508..512], 2147u32.to_le_bytes());
    assert_eq!(check(&table), Ok(Header { tasks: 2, cores: 4, common_period: 1000 }));
    assert_eq!(ask_task(&table, 1), Ok(Task { elasticity: 2, modes: 3, permitted: 7 }));
    assert_eq!(ask_mode(&table, 1, 2), Ok(Figures { work: 700, span: 100, period: 500 }));
    let choices = choices_of(&table).unwrap();
    let first = [(2, 0), (1, 2_041_200_000)];
    let second = [(4, 0), (2, 2_469_600_000), (2, 2_469_600_000)];
    for (task, (expected, choices)) in [&first[..], &second].iter().zip(choices).enumerate() {
        assert_eq!(expected.len(), choices.len());
        for (mode, (&(cores, cost), choice)) in expected.iter().zip(choices).enumerate() {
            let seen = Seen { permitted: true, cores, cost };
            assert_eq!(ask_choice(&table, task as u32, mode as u32), Ok(seen));
            assert_eq!(choice, Choice { mode: mode as u8, need: cores as usize, cost });
        }
    }
    assert_eq!(lines(&table), "plan 4 of 4 cost 2469600000\n0 0 2\n1 1 2\n");
}

#[test]
fn the_sample_in_portions() {
    let table = sample(4);
    assert_eq!(workspace_length(&check(&table).unwrap()), 15);
    let mut cells = [77; 16];
    let mut progress = 0;
    for expected in [7, 14, 15] {
        progress = portion(&table, &mut cells, progress, 7).unwrap();
        assert_eq!(progress, expected);
        assert!(cells[progress as usize..].iter().all(|&cell| cell == 77));
    }
    let mut whole = [77; 16];
    assert_eq!(portion(&table, &mut whole, 0, ALL), Ok(15));
    assert_eq!(cells, whole);
    assert_eq!(cells[..10], [0, 0, 0, 0, 0, MARK, MARK, 2_469_600_000, 2_469_600_000, 0]);
    assert_eq!(portion(&table, &mut cells, 15, ALL), Ok(15));
    assert_eq!(portion(&table, &mut cells, 3, 0), Ok(3));
    assert_eq!(cells, whole);
    let mut modes = [9; 3];
    let plan = Plan { cores: 4, cost: 2_469_600_000 };
    assert_eq!(take(&table, &cells, 15, &mut modes), Ok(plan));
    assert_eq!(modes, [0, 1, 9]);
}

#[test]
fn the_sample_with_other_cores() {
    assert_eq!(lines(&sample(2)), "refused 14 at 0\n");
    assert_eq!(lines(&sample(3)), "plan 3 of 3 cost 4510800000\n0 1 1\n1 1 2\n");
    assert_eq!(lines(&sample(5)), "plan 5 of 5 cost 2041200000\n0 1 1\n1 0 4\n");
    assert_eq!(lines(&sample(6)), "plan 6 of 6 cost 0\n0 0 2\n1 0 4\n");
    let narrowed = altered(sample(4), BLOCK + 4, 0b10);
    assert_eq!(lines(&narrowed), "plan 3 of 4 cost 4510800000\n0 1 1\n1 1 2\n");
    let shut = Seen { permitted: false, cores: 2, cost: 0 };
    assert_eq!(ask_choice(&narrowed, 0, 0), Ok(shut));
}

#[test]
fn fewest_cores_before_the_lowest_mode() {
    let modes = vec![(1200, 900, 1000), (1200, 200, 1000)];
    assert_eq!(lines(&table(1000, 4, &[(1, 0b11, modes)])), "plan 2 of 4 cost 0\n0 1 2\n");
}

#[test]
fn tables_refused() {
    let short = |length: usize| check(&sample(4)[..length]);
    assert_eq!(lines(&[]), "refused 1 at 0\n");
    assert_eq!(lines(&[0; BLOCK]), "refused 3 at 0\n");
    assert_eq!(short(511), refusal(1, 0));
    assert_eq!(short(1024), refusal(7, 0));
    let with = |place, byte| check(&altered(sample(4), place, byte));
    let mut wrong = sample(4);
    wrong[BLOCK + 509] ^= 1;
    assert_eq!(check(&wrong), refusal(2, 1));
    assert_eq!(with(0, 2), refusal(3, 0));
    assert_eq!(with(2 * BLOCK, 1), refusal(3, 2));
    assert_eq!(with(1, 2), refusal(4, 0));
    assert_eq!(with(2, 33), refusal(5, 0));
    assert_eq!(with(4, 65), refusal(5, 0));
    assert_eq!(with(10, 2), refusal(5, 0));
    assert_eq!(with(7, 1), refusal(6, 0));
    assert_eq!(with(507, 1), refusal(6, 0));
    assert_eq!(with(BLOCK + 3, 1), refusal(6, 1));
    assert_eq!(with(BLOCK + 32, 1), refusal(6, 1));
    assert_eq!(with(BLOCK + 6, 1), refusal(8, 1));
    assert_eq!(with(BLOCK + 1, 11), refusal(9, 1));
    assert_eq!(with(BLOCK + 2, 0), refusal(9, 1));
    assert_eq!(with(BLOCK + 4, 0), refusal(10, 1));
    assert_eq!(with(BLOCK + 4, 4), refusal(10, 1));
    assert_eq!(with(BLOCK + 16, 0xe9), refusal(11, 1));
    assert_eq!(with(BLOCK + 10, 1), refusal(12, 1));
    assert_eq!(with(BLOCK + 13, 4), refusal(13, 1));
}

#[test]
fn buffers_and_progress_refused() {
    let table = sample(4);
    let mut cells = [77; 15];
    assert_eq!(portion(&table, &mut cells[..14], 16, 1), refusal(15, 0));
    assert_eq!(portion(&table, &mut cells, 16, 1), refusal(16, 0));
    assert_eq!(cells, [77; 15]);
    portion(&table, &mut cells, 0, ALL).unwrap();
    let mut out = [9; 2];
    assert_eq!(take(&table, &cells[..14], 15, &mut out), refusal(15, 0));
    assert_eq!(take(&table, &cells, 16, &mut out[..1]), refusal(15, 0));
    assert_eq!(take(&table, &cells, 16, &mut out), refusal(16, 0));
    assert_eq!(take(&table, &cells, 14, &mut out), refusal(17, 0));
    assert_eq!(ask_task(&table, 2), refusal(19, 0));
    assert_eq!(ask_mode(&table, 0, 2), refusal(19, 0));
    assert_eq!(ask_mode(&table, 2, 0), refusal(19, 0));
    assert_eq!(ask_choice(&table, 1, 3), refusal(19, 0));
    assert_eq!(ask_choice(&table, 2, 0), refusal(19, 0));
    assert_eq!(ask_choice(&table[..1024], 2, 0), refusal(7, 0));
    cells[14] = COST_CEILING + 1;
    assert_eq!(take(&table, &cells, 15, &mut out), refusal(14, 0));
    cells[14] = COST_CEILING;
    assert_eq!(take(&table, &cells, 15, &mut out), refusal(18, 0));
    assert_eq!(out, [9; 2]);
}

#[test]
fn the_whole_plan_refused_changes_nothing() {
    for (table, short, number) in [(sample(4), 1, 15), (sample(2), 0, 14)] {
        let mut cells = [77; 20];
        let mut out = [9; 2];
        let modes = &mut out[short..];
        assert_eq!(plan_whole(&table, &mut cells, modes), refusal(number, 0));
        assert_eq!((cells, out), ([77; 20], [9; 2]));
    }
}

#[test]
fn writers_refused() {
    let mut out = [9; 600];
    assert_eq!(write_header(33, 1, 1, &mut out), refusal(5, 0));
    assert_eq!(write_header(1, 0, 1, &mut out), refusal(5, 0));
    assert_eq!(write_header(1, 1, 100_001, &mut out[..1]), refusal(5, 0));
    assert_eq!(write_header(1, 1, 1, &mut out[..511]), refusal(15, 0));
    assert_eq!(write_task(0, 32, 1, 1, 1, &[1, 1, 1], &mut out), refusal(5, 0));
    assert_eq!(write_task(1, 32, 0, 1, 1, &[1, 1, 1], &mut out), refusal(8, 0));
    assert_eq!(write_task(1, 31, 1, 1, 0, &[1, 1], &mut out), refusal(9, 0));
    assert_eq!(write_task(1, 31, 1, 17, 1, &[1; 51], &mut out), refusal(9, 0));
    assert_eq!(write_task(1, 31, 1, 1, 2, &[1, 1, 0], &mut out), refusal(10, 0));
    assert_eq!(write_task(1, 31, 1, 1, 1, &[0, 1, 2], &mut out), refusal(11, 0));
    assert_eq!(write_task(1, 31, 1, 1, 1, &[65, 1, 1], &mut out), refusal(12, 0));
    assert_eq!(write_task(1, 31, 1, 1, 1, &[2, 1, 1], &mut out), refusal(13, 0));
    assert_eq!(write_task(1, 31, 1, 1, 1, &[1, 1, 1], &mut out[..511]), refusal(15, 0));
    assert_eq!(out, [9; 600]);
    assert_eq!(write_task(1, 31, 1, 16, u16::MAX, &[1; 48], &mut out), Ok(()));
    assert_eq!(out[512..], [9; 88]);
}

#[test]
fn any_contents_of_a_workspace() {
    let mut random = Random::new(3);
    for _ in 0..2000 {
        let table = random_table(&mut random);
        let header = check(&table).unwrap();
        let all = workspace_length(&header);
        let mut cells: Vec<u64> = (0..all)
            .map(|_| match random.below(4) {
                0 => random.number(),
                1 => MARK,
                2 => COST_CEILING - 5 + random.below(10),
                _ => random.below(3),
            })
            .collect();
        let start = random.below(all as u64 + 1) as u32;
        let budget = random.one_of(&[1, 7, ALL]);
        let end = portion(&table, &mut cells, start, budget).unwrap();
        let filled = &cells[start as usize..end as usize];
        assert!(filled.iter().all(|&cell| cell <= COST_CEILING || cell == MARK));
        let taken = take(&table, &cells, all as u32, &mut [0; 4]);
        assert!(matches!(taken, Ok(_) | Err(Refusal { number: 14 | 18, at: 0 })));
    }
}

#[test]
fn the_plan_by_cells_is_the_plan_by_listing() {
    let mut random = Random::new(1);
    let mut refused = 0;
    for _ in 0..4000 {
        let table = random_table(&mut random);
        let listed = plan_by_listing(&table);
        let budget = random.one_of(&[1, 2, 7, ALL]);
        assert_eq!(plan_in_portions(&table, budget), listed);
        assert_eq!(plan(&table), listed);
        refused += u32::from(listed == refusal(14, 0));
    }
    assert!((100..2000).contains(&refused), "{refused} of 4000 tables have no plan");
}

/// A lawful table of at most 4 tasks and 4 modes, with few different figures, so that ties are
/// common.
fn random_table(random: &mut Random) -> Vec<u8> {
    let tasks: Vec<Listed> = (0..random.between(1, 4))
        .map(|_| {
            let count = random.between(1, 4);
            let modes = (0..count).map(|_| random_mode(random)).collect();
            (random.between(1, 10) as u8, random.between(1, (1 << count) - 1) as u16, modes)
        })
        .collect();
    table(12, random.between(1, 24) as u16, &tasks)
}

fn random_mode(random: &mut Random) -> (u32, u32, u32) {
    loop {
        let period = random.one_of(&[2, 3, 4, 6, 12]);
        let work = random.between(1, 20) as u32;
        let span = random.between(1, 4) as u32;
        let figures = Figures { work, span, period };
        if rules::check_mode(figures, 12).is_ok() {
            return (work, span, period);
        }
    }
}
