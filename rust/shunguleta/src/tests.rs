//! The C interface as C calls it, and document 01's sample through the safe calls.

use std::format;
use std::ptr::{null, null_mut};
use std::string::ToString;
use std::vec;
use std::vec::Vec;

use crate::raw::*;
use crate::{Choice, Figures, Header, Plan, Progress, Reason, Refusal, Task, BLOCK};

const FIRST: [Figures; 2] = [Figures::new(1800, 200, 1000), Figures::new(900, 200, 1000)];
const SECOND: [Figures; 3] =
    [Figures::new(1400, 200, 500), Figures::new(1400, 200, 1000), Figures::new(700, 100, 500)];

fn sample(cores: u16) -> Vec<u8> {
    let mut table = vec![0; 3 * BLOCK];
    crate::write_header(2, cores, 1000, &mut table).unwrap();
    crate::write_task(1000, 0, Task::new(1, 2, 0b11), &FIRST, &mut table[BLOCK..]).unwrap();
    crate::write_task(1000, 1, Task::new(2, 3, 0b111), &SECOND, &mut table[2 * BLOCK..]).unwrap();
    table
}

fn refused(number: u32, at: u32) -> Reply {
    Reply { number, at, values: [0; 3] }
}

fn given(values: [u64; 3]) -> Reply {
    Reply { number: 0, at: 0, values }
}

fn refusal<T>(number: u8, at: u32) -> Result<T, Refusal> {
    Err(Refusal { number, at })
}

#[test]
fn a_null_table_of_no_bytes() {
    let mut cells = [77; 15];
    let mut out = [9; 2];
    let (lent, to) = (cells.as_mut_ptr(), out.as_mut_ptr());
    // SAFETY: a pointer with length 0 may be NULL, and the others have their buffers' lengths.
    let replies = unsafe {
        [
            shunguleta_check(null(), 0),
            shunguleta_ask_task(null(), 0, 0),
            shunguleta_ask_mode(null(), 0, 0, 0),
            shunguleta_ask_choice(null(), 0, 0, 0),
            shunguleta_portion(null(), 0, lent, 15, 0, 1),
            shunguleta_take(null(), 0, lent, 15, 15, to, 2),
            shunguleta_plan_whole(null(), 0, lent, 15, to, 2),
        ]
    };
    assert_eq!(replies, [refused(1, 0); 7]);
    assert_eq!((cells, out), ([77; 15], [9; 2]));
}

#[test]
fn a_null_workspace_of_no_cells() {
    let table = sample(4);
    let mut out = [9; 2];
    let (bytes, to) = (table.as_ptr(), out.as_mut_ptr());
    // SAFETY: as in `a_null_table_of_no_bytes`.
    let replies = unsafe {
        [
            shunguleta_portion(bytes, 1536, null_mut(), 0, 0, 1),
            shunguleta_take(bytes, 1536, null(), 0, 15, to, 2),
            shunguleta_plan_whole(bytes, 1536, null_mut(), 0, to, 2),
        ]
    };
    assert_eq!(replies, [refused(15, 0); 3]);
    assert_eq!(out, [9; 2]);
}

#[test]
fn a_null_output_of_no_bytes() {
    let table = sample(4);
    let mut cells = [77; 15];
    let (bytes, lent) = (table.as_ptr(), cells.as_mut_ptr());
    let figures = flat(&FIRST).as_ptr();
    // SAFETY: as in `a_null_table_of_no_bytes`.
    let replies = unsafe {
        [
            shunguleta_take(bytes, 1536, lent, 15, 15, null_mut(), 0),
            shunguleta_plan_whole(bytes, 1536, lent, 15, null_mut(), 0),
            shunguleta_write_header(2, 4, 1000, null_mut(), 0),
            shunguleta_write_task(1000, 0, 1, 2, 0b11, figures, 6, null_mut(), 0),
        ]
    };
    assert_eq!(replies, [refused(15, 0); 4]);
    assert_eq!(cells, [77; 15]);
}

#[test]
fn null_figures_of_no_modes() {
    let mut out = [9; 512];
    // SAFETY: as in `a_null_table_of_no_bytes`.
    let reply =
        unsafe { shunguleta_write_task(1000, 0, 1, 1, 1, null(), 0, out.as_mut_ptr(), 512) };
    assert_eq!(reply, refused(9, 0));
    assert_eq!(out, [9; 512]);
}

#[test]
fn replies_of_every_call() {
    let table = sample(4);
    let (bytes, length) = (table.as_ptr(), table.len());
    let mut cells = [77; 16];
    let lent = cells.as_mut_ptr();
    let mut out = [9; 513];
    let to = out.as_mut_ptr();
    // SAFETY: every pointer comes with its buffer's length or less.
    unsafe {
        assert_eq!(shunguleta_check(bytes, length), given([2, 4, 1000]));
        assert_eq!(shunguleta_ask_task(bytes, length, 1), given([2, 3, 7]));
        assert_eq!(shunguleta_ask_task(bytes, length, 2), refused(19, 0));
        assert_eq!(shunguleta_ask_mode(bytes, length, 1, 2), given([700, 100, 500]));
        assert_eq!(shunguleta_ask_choice(bytes, length, 1, 2), given([1, 2, 2_469_600_000]));
        assert_eq!(shunguleta_portion(bytes, length, lent, 16, 0, 7), given([7, 0, 0]));
        assert_eq!(shunguleta_portion(bytes, length, lent, 16, 7, 7), given([14, 0, 0]));
        assert_eq!(shunguleta_take(bytes, length, lent, 16, 14, to, 513), refused(17, 0));
        assert_eq!(shunguleta_portion(bytes, length, lent, 16, 14, 7), given([15, 0, 0]));
        assert_eq!(shunguleta_portion(bytes, length, lent, 16, 16, 1), refused(16, 0));
        let plan = given([4, 2_469_600_000, 0]);
        assert_eq!(shunguleta_take(bytes, length, lent, 16, 15, to, 513), plan);
        assert_eq!(shunguleta_plan_whole(bytes, length, lent, 16, to, 513), plan);
    }
    assert_eq!((cells[15], &out[..3]), (77, &[0, 1, 9][..]));
    // SAFETY: as above.
    let header = unsafe { shunguleta_write_header(2, 4, 1000, to, 513) };
    assert_eq!(header, given([0; 3]));
    assert_eq!(out[..BLOCK], table[..BLOCK]);
    let figures = flat(&SECOND).as_ptr();
    // SAFETY: as above.
    let written = unsafe { shunguleta_write_task(1000, 1, 2, 3, 7, figures, 9, to, 513) };
    assert_eq!(written, given([0; 3]));
    assert_eq!((&out[..BLOCK], out[512]), (&table[2 * BLOCK..], 9));
    let mut damaged = table.clone();
    damaged[1024 + 508] ^= 1;
    // SAFETY: as above.
    let reply = unsafe { shunguleta_check(damaged.as_ptr(), damaged.len()) };
    assert_eq!(reply, refused(2, 2));
}

#[test]
fn the_sample() {
    let table = sample(4);
    assert_eq!(table[508..512], 2147u32.to_le_bytes());
    let header = Header { tasks: 2, cores: 4, common_period: 1000 };
    assert_eq!(crate::check(&table), Ok(header));
    assert_eq!(crate::ask_task(&table, 1), Ok(Task::new(2, 3, 0b111)));
    assert_eq!(crate::ask_mode(&table, 1, 2), Ok(SECOND[2]));
    let choice = Choice { permitted: true, cores: 2, cost: 2_469_600_000 };
    assert_eq!(crate::ask_choice(&table, 1, 2), Ok(choice));
    let mut cells = [77; 16];
    let mut progress = Progress::default();
    for expected in [7, 14, 15] {
        progress = crate::portion(&table, &mut cells, progress, 7).unwrap();
        assert_eq!(progress, Progress::new(expected));
    }
    assert_eq!((progress.filled(), cells[15]), (header.cells(), 77));
    let plan = Plan { cores: 4, cost: 2_469_600_000 };
    let mut modes = [9; 3];
    assert_eq!(crate::take(&table, &cells, progress, &mut modes), Ok(plan));
    assert_eq!(modes, [0, 1, 9]);
}

#[test]
fn the_sample_with_other_cores() {
    let plan = |cores| {
        let mut modes = [9; 2];
        let plan = crate::plan_whole(&sample(cores), &mut [77; 21], &mut modes)?;
        Ok((plan.cores, plan.cost, modes))
    };
    assert_eq!(plan(2), refusal(14, 0));
    assert_eq!(plan(3), Ok((3, 4_510_800_000, [1, 1])));
    assert_eq!(plan(5), Ok((5, 2_041_200_000, [1, 0])));
    assert_eq!(plan(6), Ok((6, 0, [0, 0])));
}

/// The loop ends with the cells that the table needs, not with the workspace.
#[test]
fn portions_with_a_workspace_twice_as_long() {
    let table = sample(4);
    let header = crate::check(&table).unwrap();
    let mut cells = vec![77; 2 * header.cells()];
    let mut progress = Progress::default();
    let mut portions = 0;
    while progress.filled() < header.cells() {
        progress = crate::portion(&table, &mut cells, progress, 7).unwrap();
        portions += 1;
        assert!(portions <= 3, "{progress:?} after {portions} portions");
    }
    assert!(cells[header.cells()..].iter().all(|&cell| cell == 77));
    let mut modes = [9; 2];
    let plan = crate::take(&table, &cells, progress, &mut modes).unwrap();
    assert_eq!((portions, plan.cores, modes), (3, 4, [0, 1]));
}

#[test]
fn a_mode_that_is_not_permitted() {
    let mut table = sample(4);
    let task = Task::new(1, 2, 0b10);
    crate::write_task(1000, 0, task, &FIRST, &mut table[BLOCK..]).unwrap();
    let choice = Choice { permitted: false, cores: 2, cost: 0 };
    assert_eq!(crate::ask_choice(&table, 0, 0), Ok(choice));
    assert_eq!(crate::ask_choice(&table, 0, 2), refusal(19, 0));
}

#[test]
fn the_largest_table() {
    assert_eq!((crate::MOST_CELLS, crate::MOST_MODES), (2145, 16));
    let header = Header { tasks: 32, cores: 64, common_period: 1 };
    assert_eq!(header.cells(), crate::MOST_CELLS);
}

#[test]
fn figures_as_plain_numbers() {
    assert!(flat(&[]).is_empty());
    assert_eq!(flat(&FIRST), [1800, 200, 1000, 900, 200, 1000]);
    // Figures of another number of modes than the task's.
    let write = |figures| crate::write_task(1000, 0, Task::new(1, 2, 1), figures, &mut [9; 512]);
    assert_eq!(write(&SECOND), refusal(9, 0));
    assert_eq!(write(&FIRST[..1]), refusal(9, 0));
    assert_eq!(write(&FIRST), Ok(()));
}

#[test]
fn refusals() {
    let mut table = sample(4);
    assert_eq!(crate::check(&table[..1024]), refusal(7, 0));
    assert_eq!(crate::ask_mode(&table, 0, 2), refusal(19, 0));
    let mut cells = [77; 15];
    assert_eq!(crate::portion(&table, &mut cells, Progress::new(16), 1), refusal(16, 0));
    assert_eq!(crate::write_header(33, 4, 1000, &mut [9; 512]), refusal(5, 0));
    table[1024 + 509] ^= 1;
    assert_eq!(crate::plan_whole(&table, &mut cells, &mut [9; 2]), refusal(2, 2));
    assert_eq!(cells, [77; 15]);
}

#[test]
fn a_refusal_says_its_sentence() {
    let refusal = Refusal { number: 12, at: 3 };
    assert_eq!(refusal.reason(), Some(Reason::Work));
    let sentence = "work or span zero, span above work, or work above 64 periods";
    assert_eq!(refusal.to_string(), format!("refused 12 at 3: {sentence}"));
    // A number that only a newer planner gives.
    let refusal = Refusal { number: 20, at: 3 };
    assert_eq!((refusal.reason(), refusal.to_string()), (None, "refused 20 at 3".to_string()));
}

#[test]
fn reasons_have_the_numbers_1_to_19() {
    for number in 0..=u8::MAX {
        let found = Reason::of(number).map(Reason::number);
        assert_eq!(found, (1..=19).contains(&number).then_some(number));
    }
}
