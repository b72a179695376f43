//! Random calls of the proved planner, each held against the reference.
//!
//! `fuzz SEED COUNT` makes COUNT calls that the seed fixes. Each is made on both sides, and the
//! answer and every byte and cell of every buffer are compared, with guards about what was lent. At
//! the first difference the call is printed and the exit status is 1; so it is if one of the
//! refusal numbers didn't come up, or if in 10,000 calls or more a tie rule decided less than one
//! plan in 100.
//!
//! `fuzz SEED COUNT bare` lends buffers without guards, each an allocation of its own: for a run
//! under a memory checker such as valgrind, which then sees a read beside a buffer too.

use std::env;
use std::process::ExitCode;

use reference::{plan_by_listing, BLOCK, COST_CEILING, MARK};
use shunguleta::Figures;
use trials::calls::{by_planner, by_reference, Call, Lent, Reply, Side};
use trials::guarded::Guarded;
use trials::stored::runs;
use trials::tables::{
    divisors, full_table, mend, put16, put32, random_mode, random_table, with_ties, Sizes, Table,
    Task,
};
use trials::ties::Ties;
use trials::Random;

/// The refusal numbers are 1 to this.
const REFUSALS: usize = 19;
/// Elements on each side of what is lent.
const GUARDS: usize = 64;
/// Cells that a workspace may have beyond those that are needed.
const MORE_CELLS: usize = 16;
/// Selections that are listed for one plan at most.
const MOST_LISTED: u64 = 1000;
/// In so many calls or more, each tie rule has to decide one of so many plans. Both do so far more
/// often; without tables made for ties, "fewest cores" would decide one in 1000.
const CALLS_FOR_TIES: u64 = 10_000;
const PLANS_FOR_TIES: u64 = 100;

fn main() -> ExitCode {
    let Some((seed, count, guards)) = arguments() else {
        eprintln!("usage: fuzz SEED COUNT [bare]");
        return ExitCode::from(2);
    };
    let mut fuzz = Fuzz::new(seed, count, guards);
    while fuzz.made < fuzz.wanted {
        if let Err(difference) = fuzz.scene() {
            println!("seed {seed}, call {}: {difference}", fuzz.made);
            return ExitCode::FAILURE;
        }
    }
    fuzz.report();
    let missing: Vec<usize> = (1..=REFUSALS).filter(|&number| fuzz.total(number) == 0).collect();
    if !missing.is_empty() {
        println!("refusals that didn't come up: {missing:?}");
        return ExitCode::FAILURE;
    }
    let has_ties = fuzz.listed.has_ties() && fuzz.larger.has_ties();
    if fuzz.made >= CALLS_FOR_TIES && !has_ties {
        println!("a tie rule decided less than one plan in {PLANS_FOR_TIES}");
        return ExitCode::FAILURE;
    }
    ExitCode::SUCCESS
}

/// The seed, the count of calls, and the guards on each side of a buffer.
fn arguments() -> Option<(u64, u64, usize)> {
    let words: Vec<String> = env::args().skip(1).collect();
    let (seed, count, guards) = match &words[..] {
        [seed, count] => (seed, count, GUARDS),
        [seed, count, bare] if bare == "bare" => (seed, count, 0),
        _ => return None,
    };
    Some((seed.parse().ok()?, count.parse().ok()?, guards))
}

/// All that a call is lent.
#[derive(Clone, PartialEq)]
struct Lending {
    table: Guarded<u8>,
    figures: Guarded<u32>,
    cells: Guarded<u64>,
    out: Guarded<u8>,
}

impl Lending {
    fn call(&mut self, side: Side, call: &Call) -> Reply {
        let lent = Lent {
            table: self.table.lent(),
            figures: self.figures.lent(),
            cells: self.cells.lent_mut(),
            out: self.out.lent_mut(),
        };
        side(call, lent)
    }

    fn kept_guards_of(&self, before: &Self) -> bool {
        self.table.kept_guards_of(&before.table)
            && self.figures.kept_guards_of(&before.figures)
            && self.cells.kept_guards_of(&before.cells)
            && self.out.kept_guards_of(&before.out)
    }
}

/// A table, and the workspace as the calls over it leave it.
struct Scene {
    listed: Table,
    bytes: Vec<u8>,
    cells: Vec<u64>,
    progress: u32,
}

/// Plans of undamaged tables, and how many of them each tie rule decided.
#[derive(Default)]
struct Plans {
    all: u64,
    fewest_cores: u64,
    lowest_mode: u64,
}

impl Plans {
    fn count(&mut self, ties: Ties) {
        self.all += 1;
        self.fewest_cores += u64::from(ties.fewest_cores);
        self.lowest_mode += u64::from(ties.lowest_mode);
    }

    fn has_ties(&self) -> bool {
        let fewer = self.fewest_cores.min(self.lowest_mode);
        fewer > 0 && fewer * PLANS_FOR_TIES >= self.all
    }

    fn report(&self, of: &str) {
        let Plans { all, fewest_cores, lowest_mode } = self;
        println!(
            "{all} plans of {of}; fewest cores decided {fewest_cores}, lowest mode number \
             {lowest_mode}"
        );
    }
}

struct Fuzz {
    random: Random,
    guards: usize,
    wanted: u64,
    made: u64,
    /// By call, then by refusal number; 0 is no refusal.
    counts: [[u64; REFUSALS + 1]; Call::NAMES.len()],
    held_against_listing: u64,
    /// Of tables whose selections are few enough to be listed.
    listed: Plans,
    larger: Plans,
}

impl Fuzz {
    fn new(seed: u64, wanted: u64, guards: usize) -> Self {
        Fuzz {
            random: Random::new(seed),
            guards,
            wanted,
            made: 0,
            counts: [[0; REFUSALS + 1]; Call::NAMES.len()],
            held_against_listing: 0,
            listed: Plans::default(),
            larger: Plans::default(),
        }
    }

    fn total(&self, number: usize) -> u64 {
        self.counts.iter().map(|counts| counts[number]).sum()
    }

    fn report(&self) {
        print!("{:13}{:>8}", "", "given");
        (1..=REFUSALS).for_each(|number| print!("{number:>7}"));
        println!();
        let totals: Vec<u64> = (0..=REFUSALS).map(|number| self.total(number)).collect();
        let rows = Call::NAMES.iter().zip(self.counts.iter().map(|counts| &counts[..]));
        for (name, counts) in rows.chain([(&"all calls", &totals[..])]) {
            print!("{name:13}{:>8}", counts[0]);
            counts[1..].iter().for_each(|count| print!("{count:>7}"));
            println!();
        }
        let listed = self.held_against_listing;
        println!("{} calls alike; {listed} plans are also those by listing", self.made);
        self.listed.report("small tables");
        self.larger.report("larger tables");
    }

    /// Several calls over one table and workspace, or several of the writers.
    fn scene(&mut self) -> Result<(), String> {
        let calls = self.random.between(4, 20).min(self.wanted - self.made);
        if self.random.once_in(6) {
            return (0..calls).try_for_each(|_| self.writer());
        }
        let listed = self.table();
        let bytes = listed.bytes();
        let cells = vec![77; listed.cells() + MORE_CELLS];
        let mut scene = Scene { listed, bytes, cells, progress: 0 };
        self.contents(&mut scene);
        (0..calls).try_for_each(|_| self.over_table(&mut scene))
    }

    /// A lawful table, mostly a small one and every other time one with many ties.
    fn table(&mut self) -> Table {
        let random = &mut self.random;
        let few = random.one_of(&[1, 2, 4, 6, 12]);
        let any = random.between(1, 100_000) as u32;
        let common_period = random.one_of(&[1000, 5040, 27_720, 83_160, 100_000, any]);
        let table = match random.below(20) {
            0..=5 => {
                random_table(random, Sizes { tasks: 3, modes: 4, cores: 6, common_period: few })
            }
            6..=10 => random_table(random, Sizes { tasks: 4, modes: 4, cores: 9, common_period }),
            11..=15 => random_table(random, Sizes { tasks: 8, modes: 8, cores: 24, common_period }),
            16..=18 => random_table(random, Sizes { common_period, ..Sizes::LARGEST }),
            _ => full_table(random, Sizes { common_period, ..Sizes::LARGEST }),
        };
        if random.once_in(2) {
            with_ties(random, table)
        } else {
            table
        }
    }

    /// One call over the scene's table, as it is or damaged.
    fn over_table(&mut self, scene: &mut Scene) -> Result<(), String> {
        if self.random.once_in(4) {
            self.contents(scene);
        }
        let call = self.call(scene);
        let damaged = self.random.once_in(3);
        let mut table = scene.bytes.clone();
        if damaged {
            self.damage(&mut table);
        }
        let cells = self.length(scene.listed.cells(), MORE_CELLS);
        let out = self.length(scene.listed.tasks.len(), 40);
        let before = self.lending(&table, &[], &scene.cells[..cells], out);
        let (reply, after) = self.compare(&call, &before)?;
        scene.cells[..cells].copy_from_slice(after.cells.lent());
        match call {
            Call::Portion { .. } if reply.number == 0 => scene.progress = reply.values[0] as u32,
            Call::PlanWhole if !damaged => {
                self.ties(scene, reply);
                self.listing(scene, reply, &after)?;
            }
            _ => {}
        }
        Ok(())
    }

    /// Counts which of the tie rules decided a plan.
    fn ties(&mut self, scene: &Scene, reply: Reply) {
        if reply.number != 0 {
            return;
        }
        let few = scene.listed.selections() <= MOST_LISTED;
        let plans = if few { &mut self.listed } else { &mut self.larger };
        plans.count(Ties::of(&scene.bytes).expect("the table has a plan"));
    }

    /// Holds a whole plan against the plan by listing all selections, if they are few.
    fn listing(&mut self, scene: &Scene, reply: Reply, after: &Lending) -> Result<(), String> {
        if reply.number == 15 || scene.listed.selections() > MOST_LISTED {
            return Ok(());
        }
        self.held_against_listing += 1;
        let alike = match plan_by_listing(&scene.bytes) {
            Ok((plan, modes)) => {
                reply == Reply::given([plan.cores.into(), plan.cost, 0])
                    && after.out.lent().starts_with(&modes)
            }
            Err(refusal) => reply == Reply::refused(refusal.number, refusal.at),
        };
        if alike {
            return Ok(());
        }
        Err(format!("{reply:?} isn't the plan by listing of {:?}", scene.listed))
    }

    fn writer(&mut self) -> Result<(), String> {
        let out = match self.random.below(8) {
            0 => self.random.below(600) as usize,
            1 => 511,
            2 => 513,
            _ => 512,
        };
        let (call, figures) = if self.random.once_in(4) {
            (self.header_told(), Vec::new())
        } else {
            self.task_told()
        };
        let before = self.lending(&[], &figures, &[], out);
        let (reply, after) = self.compare(&call, &before)?;
        match by_figures(&call, &figures, before.out.lent()) {
            Some(by_figures) if by_figures != (reply, after.out.lent().to_vec()) => {
                Err(format!("{call:?} by figures isn't {reply:?}, or the output differs"))
            }
            _ => Ok(()),
        }
    }

    fn header_told(&mut self) -> Call {
        let random = &mut self.random;
        let any = random.number();
        let tasks = random.one_of(&[0, 1, 2, 7, 31, 32, 33, 256, 257, any as u16]);
        let cores = random.one_of(&[0, 1, 2, 17, 63, 64, 65, 256, 257, (any >> 16) as u16]);
        let high = (any >> 32) as u32;
        let common_period = random.one_of(&[0, 1, 12, 1000, 99_999, 100_000, 100_001, high]);
        let lawful = 1 + common_period % 100_000;
        // Most of the limits are beyond; without these there would be few headers written.
        match random.below(3) {
            0 => Call::WriteHeader { tasks, cores, common_period },
            1 => Call::WriteHeader { tasks, cores: 1 + cores % 64, common_period: lawful },
            _ => Call::WriteHeader { tasks: 1 + tasks % 32, cores: 64, common_period: 100_000 },
        }
    }

    /// Lawful numbers of a task, mostly with something changed.
    fn task_told(&mut self) -> (Call, Vec<u32>) {
        let random = &mut self.random;
        let mut common_period = random.one_of(&[1, 6, 12, 1000, 5040, 83_160, 99_999, 100_000]);
        let periods = divisors(common_period);
        let count = random.between(1, 16);
        let listed: Vec<_> = (0..count).map(|_| random_mode(random, &periods, 8)).collect();
        let task = Task::new(random.between(1, 10) as u8, &listed);
        let (mut elasticity, mut modes) = (task.elasticity, task.count());
        let mut permitted = random.between(1, task.permitted.into()) as u16;
        let mut number = random.below(32) as u16;
        let mut figures = task.figures();
        for _ in 0..random.one_of(&[0, 1, 1, 2, 3]) {
            let any = random.number();
            match random.below(9) {
                0 => common_period = random.one_of(&[0, 1, 2000, 100_000, 100_001, any as u32]),
                1 => number = random.one_of(&[31, 32, 33, 256, any as u16]),
                2 => elasticity = random.one_of(&[0, 10, 11, any as u8]),
                3 => modes = random.one_of(&[0, 1, modes ^ 1, 16, 17, any as u8]),
                4 => permitted = random.one_of(&[0, 1, 1 << (any % 16), any as u16]),
                5 => figures.resize((any % 60) as usize, 1),
                _ => {
                    let mode = random.below(figures.len() as u64 / 3 + 1) as usize;
                    if let Some(figures) = figures.get_mut(3 * mode..3 * mode + 3) {
                        let listed = [figures[0], figures[1], figures[2]];
                        figures.copy_from_slice(&odd_mode(random, listed));
                    }
                }
            }
        }
        (Call::WriteTask { common_period, number, elasticity, modes, permitted }, figures)
    }

    /// A length that is mostly just enough, else anything up to a bit more.
    fn length(&mut self, enough: usize, more: usize) -> usize {
        match self.random.below(16) {
            0 => self.random.below((enough + more) as u64 + 1) as usize,
            1 => enough - 1,
            2 => enough + 1,
            3 => enough + more,
            _ => enough,
        }
    }

    /// New contents of the workspace.
    fn contents(&mut self, scene: &mut Scene) {
        let random = &mut self.random;
        let cells = &mut scene.cells;
        scene.progress = 0;
        match random.below(6) {
            0 => cells.fill(random.one_of(&[0, 77, COST_CEILING, COST_CEILING + 1, MARK])),
            1 => cells.iter_mut().for_each(|cell| *cell = odd_cell(random, *cell)),
            filled => {
                // The reference fills it, and others may alter it after that.
                reference::portion(&scene.bytes, cells, 0, u32::MAX).expect("the table is lawful");
                scene.progress = scene.listed.cells() as u32;
                let alterations = if filled < 4 { 0 } else { random.between(1, 4) };
                for _ in 0..alterations {
                    let cell = random.below(cells.len() as u64) as usize;
                    // Column m of row 0 is the one that is always read.
                    let cell = if random.once_in(4) { scene.progress as usize - 1 } else { cell };
                    let other = random.one_of(cells);
                    cells[cell] = odd_cell(random, other);
                }
            }
        }
    }

    fn call(&mut self, scene: &Scene) -> Call {
        let all = scene.listed.cells() as u32;
        match self.random.below(26) {
            0..=1 => Call::Check,
            2..=4 => Call::AskTask { task: self.place(scene.listed.tasks.len()) },
            5..=6 => {
                let (task, mode) = self.mode_place(scene);
                Call::AskMode { task, mode }
            }
            7..=9 => {
                let (task, mode) = self.mode_place(scene);
                Call::AskChoice { task, mode }
            }
            10..=15 => {
                let progress = match self.random.below(3) {
                    0 => self.number(all),
                    _ => scene.progress,
                };
                Call::Portion { progress, budget: self.number(all) }
            }
            16..=21 => {
                let progress = if self.random.once_in(4) { self.number(all) } else { all };
                Call::Take { progress }
            }
            _ => Call::PlanWhole,
        }
    }

    /// The numbers of a task and a mode, mostly some that there are.
    fn mode_place(&mut self, scene: &Scene) -> (u32, u32) {
        let task = self.place(scene.listed.tasks.len());
        let listed = scene.listed.tasks.get(task as usize);
        let mode = self.place(listed.map_or(1, |task| task.modes.len()));
        (task, mode)
    }

    /// The number of a task or a mode, mostly one that there is.
    fn place(&mut self, count: usize) -> u32 {
        let any = self.random.number() as u32;
        match self.random.below(8) {
            0 => self.random.one_of(&[count as u32, count as u32 + 1, 16, 32, 256, u32::MAX, any]),
            _ => any % count as u32,
        }
    }

    /// A progress or a budget.
    fn number(&mut self, all: u32) -> u32 {
        let any = self.random.number() as u32;
        match self.random.below(4) {
            0 => self.random.one_of(&[0, 1, 2, 7, any % 64, any % 512]),
            1 => self.random.one_of(&[all - 1, all, all + 1, u32::MAX - 1, u32::MAX, any]),
            _ => any % (all + 2),
        }
    }

    /// Damages a lawful table.
    fn damage(&mut self, table: &mut Vec<u8>) {
        let random = &mut self.random;
        let blocks = table.len() / BLOCK;
        let any = random.number() as usize;
        let mended = random.below(5);
        match random.below(16) {
            0..=8 => {
                for _ in 0..random.one_of(&[1, 1, 1, 2, 3]) {
                    // Of a large table, too, the header is damaged often.
                    let block = if random.once_in(3) { 0 } else { random.below(blocks as u64) };
                    let bytes = &mut table[BLOCK * block as usize..][..BLOCK];
                    if block == 0 {
                        damage_header(random, bytes);
                    } else {
                        damage_task(random, bytes);
                    }
                }
            }
            9 => (0..=random.below(3)).for_each(|_| {
                let place = random.below(table.len() as u64) as usize;
                table[place] ^= 1 << random.below(8);
            }),
            10 => table.truncate(any % table.len()),
            11 => table.truncate(BLOCK * (any % (blocks + 1))),
            12 => table.resize(table.len() + BLOCK * (1 + any % 2), 0),
            13 => table.resize(table.len() + any % 700, any as u8),
            14 => {
                let (first, second) = (any % blocks, any / 64 % blocks);
                let block = table[BLOCK * first..][..BLOCK].to_vec();
                table[BLOCK * second..][..BLOCK].copy_from_slice(&block);
            }
            _ => {
                *table = (0..any % 1600).map(|_| random.number() as u8).collect();
                if any.is_multiple_of(3) {
                    table.resize(BLOCK * (1 + any % 4), 0);
                }
            }
        }
        if mended > 0 {
            mend(table);
        }
    }

    fn lending(&mut self, table: &[u8], figures: &[u32], cells: &[u64], out: usize) -> Lending {
        let shift = self.random.below(8) as usize;
        let guard = self.random.number();
        let held = self.random.number() as u8;
        // One more guard before a buffer moves it, so that it starts at any address.
        let about = |shift| match self.guards {
            0 => [0, 0],
            guards => [guards + shift, guards],
        };
        Lending {
            table: Guarded::new(table, guard as u8, about(shift)),
            figures: Guarded::new(figures, guard as u32, about(shift)),
            cells: Guarded::new(cells, guard, about(shift)),
            out: Guarded::new(&vec![held; out], guard as u8, about(shift / 2)),
        }
    }

    /// Makes a call on both sides, and says what differs.
    fn compare(&mut self, call: &Call, before: &Lending) -> Result<(Reply, Lending), String> {
        let (mut planner, mut reference) = (before.clone(), before.clone());
        let reply = planner.call(by_planner, call);
        let expected = reference.call(by_reference, call);
        let difference = if reply != expected {
            "the answers differ"
        } else if !planner.kept_guards_of(before) {
            "the planner wrote beside a buffer"
        } else if planner.table != before.table || planner.figures != before.figures {
            "the planner changed what it may only read"
        } else if planner.cells != reference.cells {
            "the workspaces differ"
        } else if planner.out != reference.out {
            "the outputs differ"
        } else if reply.number != 0 && planner != *before {
            "a refused call changed a buffer"
        } else {
            self.made += 1;
            self.counts[call.number()][reply.number as usize] += 1;
            return Ok((reply, planner));
        };
        Err(format!(
            "{difference}\n{call:?}\nplanner {reply:?}\nreference {expected:?}\n\
             table {}\nfigures {}\ncells before {}\ncells after {}\nby the reference {}\n\
             output before {}\noutput after {}\nby the reference {}",
            runs(before.table.lent()),
            runs(before.figures.lent()),
            runs(before.cells.lent()),
            runs(planner.cells.lent()),
            runs(reference.cells.lent()),
            runs(before.out.lent()),
            runs(planner.out.lent()),
            runs(reference.out.lent()),
        ))
    }
}

/// The task writer's answer and output where it is lent its figures mode by mode.
fn by_figures(call: &Call, figures: &[u32], out: &[u8]) -> Option<(Reply, Vec<u8>)> {
    let Call::WriteTask { common_period, number, elasticity, modes, permitted } = *call else {
        return None;
    };
    if !figures.len().is_multiple_of(3) {
        return None;
    }
    let figures = figures.chunks_exact(3).map(|mode| Figures::new(mode[0], mode[1], mode[2]));
    let figures: Vec<Figures> = figures.collect();
    let task = shunguleta::Task::new(elasticity, modes, permitted);
    let mut out = out.to_vec();
    let reply = match shunguleta::write_task(common_period, number, task, &figures, &mut out) {
        Ok(()) => Reply::given([0; 3]),
        Err(refusal) => Reply::refused(refusal.number, refusal.at),
    };
    Some((reply, out))
}

fn damage_header(random: &mut Random, block: &mut [u8]) {
    let any = random.number();
    match random.below(7) {
        0 => block[0] = random.one_of(&[0, 2, any as u8]),
        1 => block[1] = random.one_of(&[0, 2, any as u8]),
        2 => put16(block, 2, random.one_of(&[0, 1, 2, 3, 4, 31, 32, 33, any as u16])),
        3 => put16(block, 4, random.one_of(&[0, 1, 2, 63, 64, 65, 256, any as u16])),
        4 => put32(block, 8, random.one_of(&[0, 1, 6, 100_000, 100_001, any as u32])),
        5 => block[random.one_of(&[6, 7, 12, 13, 507, 12 + any as usize % 496])] = 1,
        _ => block[508 + any as usize % 4] ^= 1 << (any >> 32 & 7),
    }
}

fn damage_task(random: &mut Random, block: &mut [u8]) {
    let any = random.number();
    let modes = block[2];
    match random.below(11) {
        0 => block[0] = random.one_of(&[0, 1, 3, any as u8]),
        1 => block[1] = random.one_of(&[0, 1, 10, 11, any as u8]),
        2 => block[2] = random.one_of(&[0, 1, 16, 17, modes.wrapping_add(1), any as u8]),
        3 => block[random.one_of(&[3, 507, 200, 8 + any as usize % 500])] ^= 1,
        4 => put16(block, 4, random.one_of(&[0, 1, 2, 1 << (any % 16), any as u16])),
        5 => put16(block, 6, random.one_of(&[0, 1, 31, 32, any as u16])),
        6 => block[508 + any as usize % 4] ^= 1 << (any >> 32 & 7),
        _ => {
            let start = 8 + 12 * random.below(modes.clamp(1, 16).into()) as usize;
            let number = |at: usize| {
                let bytes = &block[start + 4 * at..][..4];
                u32::from_le_bytes([bytes[0], bytes[1], bytes[2], bytes[3]])
            };
            let listed = [number(0), number(1), number(2)];
            for (place, figure) in odd_mode(random, listed).into_iter().enumerate() {
                put32(block, start + 4 * place, figure);
            }
        }
    }
}

/// A mode with one figure changed, mostly to a limit.
fn odd_mode(random: &mut Random, [work, span, period]: [u32; 3]) -> [u32; 3] {
    let any = random.number() as u32;
    let most = period.saturating_mul(64);
    let beyond = most.saturating_add(1);
    match random.below(3) {
        0 => [random.one_of(&[0, 1, span, span.wrapping_sub(1), most, beyond, any]), span, period],
        1 => {
            let less = period.saturating_sub(1);
            [work, random.one_of(&[0, 1, work, work.wrapping_add(1), less, period, any]), period]
        }
        _ => {
            let double = period.saturating_mul(2);
            [work, span, random.one_of(&[0, 1, 7, period / 2, double, span, any])]
        }
    }
}

/// A cell that others may have written.
fn odd_cell(random: &mut Random, cell: u64) -> u64 {
    let any = random.number();
    match random.below(10) {
        0 => any,
        1 => any % (COST_CEILING + 1),
        2 => MARK,
        3 => COST_CEILING - 2 + any % 5,
        4 => cell.wrapping_add(1),
        5 => cell.wrapping_sub(1),
        6 => random.one_of(&[1 << 63, MARK - 1, MARK - cell]),
        7 => any % 8,
        _ => cell,
    }
}
