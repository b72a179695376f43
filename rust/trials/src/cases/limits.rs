//! Each refusal of a table, of a buffer and of a number, on both sides of its limit.

use reference::block_check;

use super::{changed, checked, given, one_mode, refused, settled, whole, ALL};
use crate::calls::Call;
use crate::stored::{Case, Stored, TABLE_ROOM};
use crate::tables::{mend, put16, put32, Table, Task};

pub(super) fn add(stored: &mut Stored) {
    lengths(stored);
    checks(stored);
    header(stored);
    unused(stored);
    task(stored);
    permitted(stored);
    figures(stored);
    asking(stored);
    buffers(stored);
}

fn many_tasks(count: usize) -> Table {
    Table::new(6, 64, &vec![Task::new(1, &[[5, 5, 6]]); count])
}

/// A table of one task with so many like modes.
fn many_modes(count: usize, permitted: u16) -> Table {
    Table::new(6, 1, &[Task::new(1, &vec![[5, 5, 6]; count]).permitting(permitted)])
}

/// Stores a check of a table of one task; the task's block is the one that may be refused.
fn task_checked(stored: &mut Stored, name: String, table: &Table, number: u8) {
    checked(stored, name, &table.bytes(), number, u32::from(number > 0));
}

fn lengths(stored: &mut Stored) {
    let mut room = Table::sample(4).bytes();
    room.resize(2048, 0);
    for (length, number) in [
        (1, 1),
        (511, 1),
        (512, 7),
        (513, 1),
        (1024, 7),
        (1535, 1),
        (1536, 0),
        (1537, 1),
        (2048, 7),
    ] {
        checked(stored, format!("sample, {length} bytes"), &room[..length], number, 0);
    }
    let mut largest = many_tasks(32).bytes();
    largest.resize(TABLE_ROOM, 0);
    checked(stored, "32 tasks, one block less", &largest[..32 * 512], 7, 0);
    checked(stored, "32 tasks, one block more", &largest, 7, 0);
}

fn checks(stored: &mut Stored) {
    let table = Table::sample(4).bytes();
    let mut damaged = |name: &str, at: u32, damage: fn(&mut [u8])| {
        let mut bytes = table.clone();
        damage(&mut bytes[512 * at as usize..][..512]);
        checked(stored, format!("block {at}: {name}"), &bytes, 2, at);
    };
    for at in 0..3 {
        damaged("check one above", at, |block| put32(block, 508, block_check(block) + 1));
        damaged("check one below", at, |block| put32(block, 508, block_check(block) - 1));
    }
    damaged("byte 0 and not its check", 1, |block| block[0] ^= 1);
    damaged("byte 507 and not its check", 0, |block| block[507] = 1);
    damaged("two bytes trade places", 2, |block| block.swap(1, 8));
    damaged("second byte of the check", 1, |block| block[509] ^= 1);
    damaged("third byte of the check", 1, |block| block[510] ^= 1);
    damaged("last byte of the check", 1, |block| block[511] ^= 0x80);
    let mut full = [255; 512];
    checked(stored, "every byte 255", &full, 2, 0);
    mend(&mut full);
    checked(stored, "every byte 255 and the largest check", &full, 3, 0);
}

fn header(stored: &mut Stored) {
    let sample = Table::sample(4);
    for kind in [0, 2, 255] {
        let table = changed(&sample, |bytes| bytes[0] = kind);
        checked(stored, format!("header kind {kind}"), &table, 3, 0);
    }
    for edition in [0, 2, 255] {
        let table = changed(&sample, |bytes| bytes[1] = edition);
        checked(stored, format!("edition {edition}"), &table, 4, 0);
    }
    for (count, number) in [(0, 5), (1, 0), (31, 0), (32, 0), (33, 5)] {
        checked(stored, format!("n {count}"), &many_tasks(count).bytes(), number, 0);
    }
    let table = changed(&sample, |bytes| put16(bytes, 2, 258));
    checked(stored, "n 258 in three blocks", &table, 5, 0);
    for (cores, number) in [(0, 5), (1, 0), (64, 0), (65, 5), (260, 5)] {
        checked(stored, format!("m {cores}"), &Table::sample(cores).bytes(), number, 0);
    }
    for (common, number) in [(0, 5), (1, 0), (100_000, 0), (100_001, 5), (1 << 24, 5), (ALL, 5)] {
        let table = one_mode(common, 1, [1, 1, 1]).bytes();
        checked(stored, format!("H {common}"), &table, number, 0);
    }
}

fn unused(stored: &mut Stored) {
    let sample = Table::sample(4);
    // The bytes right beside the unused ones have a meaning.
    for (place, number) in [(5, 5), (6, 6), (7, 6), (11, 5), (12, 6), (507, 6)] {
        let table = changed(&sample, |bytes| bytes[place] = 1);
        checked(stored, format!("header byte {place}"), &table, number, 0);
    }
    for count in [1, 2, 16] {
        let end = 8 + 12 * count;
        for (place, number) in [(3, 6), (end - 1, 11), (end, 6), (507, 6)] {
            let table = changed(&many_modes(count, 1), |bytes| bytes[512 + place] = 1);
            checked(stored, format!("task of {count} modes, byte {place}"), &table, number, 1);
        }
    }
}

fn task(stored: &mut Stored) {
    let sample = Table::sample(4);
    for (at, kind) in [(1, 0), (1, 1), (1, 3), (2, 1)] {
        let table = changed(&sample, |bytes| bytes[512 * at] = kind);
        checked(stored, format!("block {at}: kind {kind}"), &table, 3, at as u32);
    }
    for (at, number) in [(1, 1), (1, 256), (2, 0), (2, 2)] {
        let table = changed(&sample, |bytes| put16(bytes, 512 * at + 6, number));
        checked(stored, format!("block {at}: task number {number}"), &table, 8, at as u32);
    }
    let mut turned = sample.bytes();
    turned[512..].rotate_left(512);
    checked(stored, "task blocks trade places", &turned, 8, 1);
    for elasticity in [0, 11, 255] {
        let table = changed(&sample, |bytes| bytes[1024 + 1] = elasticity);
        checked(stored, format!("E {elasticity}"), &table, 9, 2);
    }
    // Mode 1 alone is permitted, so the plan shows what the elasticity makes of its cost.
    for elasticity in 1..=10 {
        let task = Task::new(elasticity, &[[9, 5, 6], [2, 1, 6]]).permitting(0b10);
        let cost = 2520 / u64::from(elasticity) * 49;
        let case = whole(format!("E {elasticity}"), &Table::new(6, 1, &[task]));
        given(stored, case, [1, cost, 0]);
    }
    for (count, number) in [(0, 9), (1, 0), (16, 0), (17, 9)] {
        task_checked(stored, format!("{count} modes"), &many_modes(count, 1), number);
    }
    let table = changed(&sample, |bytes| bytes[512 + 2] = 255);
    checked(stored, "mode count 255 over 2 modes", &table, 9, 1);
    let table = changed(&sample, |bytes| bytes[512 + 2] = 3);
    checked(stored, "mode count 3 over 2 modes", &table, 11, 1);
}

fn permitted(stored: &mut Stored) {
    for (count, mask, number) in [
        (1, 0, 10),
        (1, 2, 10),
        (1, 0x100, 10),
        (2, 0, 10),
        (2, 2, 0),
        (2, 3, 0),
        (2, 4, 10),
        (2, 7, 10),
        (8, 0x80, 0),
        (8, 0x100, 10),
        (15, 0x4000, 0),
        (15, 0x8000, 10),
        (16, 0, 10),
        (16, 0x8000, 0),
        (16, 0xffff, 0),
    ] {
        let name = format!("{count} modes, permitted {mask}");
        task_checked(stored, name, &many_modes(count, mask), number);
    }
}

fn figures(stored: &mut Stored) {
    for (mode, number) in [
        ([5, 5, 0], 11),
        ([1, 1, 1], 0),
        ([5, 5, 3], 11),
        ([5, 5, 500], 0),
        ([5, 5, 999], 11),
        ([5, 5, 1001], 11),
        ([5, 5, 2000], 11),
        ([5, 5, 1 << 26], 11),
        ([0, 0, 1000], 12),
        ([0, 1, 1000], 12),
        ([1, 0, 1000], 12),
        ([1, 1, 1000], 0),
        ([5, 6, 1000], 12),
        ([64_000, 1, 1000], 0),
        ([64_001, 1, 1000], 12),
        ([32_001, 1, 500], 12),
        ([64, 1, 1], 13),
        ([65, 1, 1], 12),
        ([ALL, ALL, 1000], 12),
        ([1000, 1000, 1000], 0),
        ([1001, 1000, 1000], 13),
        ([1001, 1001, 1000], 13),
        ([1001, 999, 1000], 0),
        ([64_000, 999, 1000], 0),
        ([2, 2, 1], 13),
    ] {
        let [work, span, period] = mode;
        let name = format!("mode ({work}, {span}, {period})");
        task_checked(stored, name, &one_mode(1000, 4, mode), number);
    }
    for mode in [0, 15] {
        let mut table = many_modes(16, 2);
        table.tasks[0].modes[mode] = [7, 6, 6];
        task_checked(stored, format!("mode {mode} of 16 can't meet its period"), &table, 13);
    }
    for (work, number) in [(6_399_937, 0), (6_399_938, 14), (6_400_000, 14)] {
        let table = one_mode(100_000, 64, [work, 1, 100_000]);
        let case = whole(format!("plan of one mode of work {work}"), &table);
        settled(stored, case, number, [64, 0, 0]);
    }
}

fn asking(stored: &mut Stored) {
    let sample = Table::sample(4).bytes();
    for task in [2, 256, ALL] {
        let name = format!("sample: task {task} asked for");
        refused(stored, Case::new(name, Call::AskTask { task }, &sample), 19, 0);
    }
    for (task, mode) in [(0, 2), (1, 3), (1, 256), (1, ALL), (2, 0), (ALL, ALL)] {
        let name = format!("sample: task {task} mode {mode} asked for");
        refused(stored, Case::new(name, Call::AskMode { task, mode }, &sample), 19, 0);
    }
    let call = Call::AskMode { task: 0, mode: 15 };
    let case = Case::new("mode 15 of 16, not permitted", call, &many_modes(16, 1).bytes());
    given(stored, case, [5, 5, 6]);
    let call = Call::AskMode { task: 0, mode: 16 };
    refused(stored, Case::new("mode 16 of 16", call, &many_modes(16, 1).bytes()), 19, 0);
    let damaged = changed(&Table::sample(4), |bytes| put32(bytes, 1024 + 16, 3));
    let case = Case::new("task 0 asked for, block 2 refused", Call::AskTask { task: 0 }, &damaged);
    refused(stored, case, 11, 2);
    let call = Call::AskMode { task: 9, mode: 9 };
    let case = Case::new("no such mode asked for, block 2 refused", call, &damaged);
    refused(stored, case, 11, 2);
}

/// The sample needs 15 cells and 2 bytes of output.
fn buffers(stored: &mut Stored) {
    const PLAN: [u64; 3] = [4, 2_469_600_000, 0];
    let sample = Table::sample(4);
    let table = sample.bytes();
    let take = |name, progress| {
        Case::new(name, Call::Take { progress }, &table).cells(15).out(2).goes_on()
    };
    for (cells, number) in [(0, 15), (14, 15), (15, 0), (16, 0)] {
        let call = Call::Portion { progress: 0, budget: ALL };
        let case = Case::new(format!("portion over {cells} cells"), call, &table).cells(cells);
        settled(stored, case, number, [15, 0, 0]);
        let case = whole(format!("whole plan over {cells} cells"), &sample).cells(cells);
        settled(stored, case, number, PLAN);
        let case = take(format!("plan taken from {cells} cells"), 15).cells(cells);
        settled(stored, case, number, PLAN);
    }
    for (out, number) in [(0, 15), (1, 15), (2, 0), (3, 0), (600, 0)] {
        let case = take(format!("plan taken, output of {out}"), 15).out(out);
        settled(stored, case, number, PLAN);
    }
    for (progress, number) in [(0, 17), (14, 17), (16, 16), (ALL, 16)] {
        let case = take(format!("plan taken at progress {progress}"), progress);
        settled(stored, case, number, PLAN);
    }
    for (out, number) in [(0, 15), (1, 15), (2, 0), (3, 0)] {
        let case = whole(format!("whole plan, output of {out}"), &sample).out(out);
        settled(stored, case, number, PLAN);
    }
}
