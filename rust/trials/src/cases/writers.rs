//! The writers: their limits, their orders, and what they write.

use super::orders::MODE;
use super::{refused, settled};
use crate::calls::Call;
use crate::stored::{Case, Stored};

pub(super) fn add(stored: &mut Stored) {
    headers(stored);
    tasks(stored);
    orders(stored);
}

fn header(stored: &mut Stored, [tasks, cores]: [u16; 2], common: u32, out: usize, number: u8) {
    let name = format!("header of n {tasks}, m {cores}, H {common} to {out} bytes");
    let call = Call::WriteHeader { tasks, cores, common_period: common };
    settled(stored, Case::new(name, call, &[]).out(out), number, [0; 3]);
}

fn headers(stored: &mut Stored) {
    for (tasks, number) in [(0, 5), (1, 0), (32, 0), (33, 5), (258, 5)] {
        header(stored, [tasks, 4], 1000, 512, number);
    }
    for (cores, number) in [(0, 5), (1, 0), (64, 0), (65, 5), (260, 5)] {
        header(stored, [2, cores], 1000, 512, number);
    }
    for (common_period, number) in [(0, 5), (1, 0), (100_000, 0), (100_001, 5)] {
        header(stored, [2, 4], common_period, 512, number);
    }
    for (out, number) in [(0, 15), (511, 15), (513, 0)] {
        header(stored, [2, 4], 1000, out, number);
    }
    header(stored, [33, 4], 1000, 511, 5);
    header(stored, [32, 64], 100_000, 512, 0);
}

/// What the task writer is lent and told.
#[derive(Clone)]
struct Told {
    common_period: u32,
    number: u16,
    elasticity: u8,
    modes: u8,
    permitted: u16,
    figures: Vec<u32>,
    out: usize,
}

impl Told {
    /// Lawful numbers of a task of two modes.
    fn lawful() -> Self {
        let figures = vec![1800, 200, 1000, 900, 200, 1000];
        let (common_period, number, elasticity, modes, permitted, out) = (1000, 1, 3, 2, 3, 512);
        Told { common_period, number, elasticity, modes, permitted, figures, out }
    }

    fn case(&self, name: impl Into<String>) -> Case {
        let Told { common_period, number, elasticity, modes, permitted, .. } = *self;
        let call = Call::WriteTask { common_period, number, elasticity, modes, permitted };
        Case::new(name, call, &[]).figures(&self.figures).out(self.out)
    }
}

fn tasks(stored: &mut Stored) {
    let mut told = |name: String, number: u8, change: &dyn Fn(&mut Told)| {
        let mut told = Told::lawful();
        change(&mut told);
        settled(stored, told.case(format!("task written: {name}")), number, [0; 3]);
    };
    for (common, number) in [(0, 5), (100_001, 5), (100_000, 0), (500, 11)] {
        told(format!("H {common}"), number, &|told| told.common_period = common);
    }
    for (task, number) in [(0, 0), (31, 0), (32, 8), (256, 8)] {
        told(format!("number {task}"), number, &|told| told.number = task);
    }
    for (elasticity, number) in [(0, 9), (1, 0), (10, 0), (11, 9)] {
        told(format!("E {elasticity}"), number, &|told| told.elasticity = elasticity);
    }
    for (modes, number) in [(0, 9), (1, 0), (16, 0), (17, 9)] {
        told(format!("{modes} modes with their figures"), number, &|told| {
            told.modes = modes;
            told.permitted = 1;
            told.figures = [700, 100, 500].repeat(modes.into());
        });
    }
    // 3 times 86 is 2 in 8 bits.
    for (count, modes, number) in
        [(0, 2, 9), (5, 2, 9), (6, 2, 0), (7, 2, 9), (9, 2, 9), (6, 1, 9), (6, 3, 9), (2, 86, 9)]
    {
        told(format!("{count} figures for {modes} modes"), number, &|told| {
            told.modes = modes;
            told.figures.resize(count, 5);
        });
    }
    for (permitted, number) in [(0, 10), (1, 0), (2, 0), (4, 10), (0x8000, 10)] {
        told(format!("permitted {permitted}"), number, &|told| told.permitted = permitted);
    }
    told("16 modes, permitted 65535".into(), 0, &|told| {
        told.common_period = 100_000;
        told.modes = 16;
        told.permitted = 65535;
        told.figures = (0..16).flat_map(|mode| [100_000 - mode, 99_999 - mode, 100_000]).collect();
    });
    for (figures, number) in [
        ([1800, 200, 0], 11),
        ([1800, 200, 999], 11),
        ([1800, 200, 2000], 11),
        ([0, 200, 1000], 12),
        ([1800, 0, 1000], 12),
        ([199, 200, 1000], 12),
        ([64_000, 200, 1000], 0),
        ([64_001, 200, 1000], 12),
        ([1000, 1000, 1000], 0),
        ([1001, 1000, 1000], 13),
        ([1001, 1001, 1000], 13),
        ([1001, 999, 1000], 0),
    ] {
        let [work, span, period] = figures;
        told(format!("mode 1 is ({work}, {span}, {period})"), number, &|told| {
            told.figures[3..].copy_from_slice(&figures);
        });
    }
    for (out, number) in [(0, 15), (511, 15), (513, 0), (600, 0)] {
        told(format!("to {out} bytes"), number, &|told| told.out = out);
    }
}

/// Each fault alone, then each two of them. Those of figures are all in mode 0.
fn orders(stored: &mut Stored) {
    type Fault = (u8, &'static str, fn(&mut Told));
    let faults: [Fault; 10] = [
        (5, "H", |told| told.common_period = 0),
        (8, "number", |told| told.number = 32),
        (9, "E", |told| told.elasticity = 11),
        (9, "mode count", |told| told.modes = 17),
        (9, "count of figures", |told| told.figures.push(5)),
        (10, "permitted", |told| told.permitted = 0),
        (11, "period", |told| told.figures[2] = 999),
        (12, "work", |told| told.figures[0] = 64_001),
        (13, "span", |told| told.figures[1] = 1000),
        (15, "output", |told| told.out = 511),
    ];
    for (place, (number, first, change)) in faults.iter().enumerate() {
        let mut told = Told::lawful();
        change(&mut told);
        refused(stored, told.case(format!("writer: {first}")), *number, 0);
        for (_, second, change) in &faults[place + 1..] {
            let mut told = told.clone();
            change(&mut told);
            refused(stored, told.case(format!("writer: {first} before {second}")), *number, 0);
        }
    }
    for (first, earlier) in MODE {
        for (second, later) in MODE {
            let told = Told { figures: [earlier, later].concat(), ..Told::lawful() };
            let name = format!("writer: mode 0 with {first} before mode 1 with {second}");
            refused(stored, told.case(name), first, 0);
        }
    }
}
