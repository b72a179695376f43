//! The planner beside the reference, plain and with the planner's own loops: the same work on the same
//! table and buffers.

use std::hint::black_box;

use trials::calls::{by_planner, by_reference, by_same_loops, Call, Lent, Side};
use trials::tables::{bench_table, Sizes};

use crate::timing::{one_by_one, side_by_side, SINGLE_RUNS, SLOWER};
use crate::Kept;

/// The planner may take so many times the time of either.
const MOST: f64 = 1.1;
const ALL: u32 = u32::MAX;
/// All rows are measured so often, one after the other: what slows the machine for a while slows no
/// row in every pass.
const PASSES: usize = 4;

/// Tasks, modes of each and cores: two small tables, then each of the three grows by itself up to
/// the largest table.
const GROWTH: [[u64; 3]; 17] = [
    [1, 1, 1],
    [8, 4, 16],
    [1, 16, 64],
    [2, 16, 64],
    [4, 16, 64],
    [8, 16, 64],
    [16, 16, 64],
    [32, 1, 64],
    [32, 2, 64],
    [32, 4, 64],
    [32, 8, 64],
    [32, 16, 1],
    [32, 16, 4],
    [32, 16, 16],
    [32, 16, 32],
    [32, 16, 48],
    [32, 16, 64],
];

/// The tables whose portions are timed by their budget.
const BUDGETED: [[u64; 3]; 3] = [[1, 16, 64], [8, 4, 16], [32, 16, 64]];

/// A table with the buffers that a call over it is lent.
struct Bench {
    table: Vec<u8>,
    cells: Vec<u64>,
    out: Vec<u8>,
}

impl Bench {
    fn new([tasks, modes, cores]: [u64; 3]) -> Self {
        let table = bench_table(Sizes { tasks, modes, cores, common_period: 100_000 }, 0);
        Bench {
            table: table.bytes(),
            cells: vec![0; table.cells()],
            out: vec![0; table.tasks.len()],
        }
    }

    /// One call, or all portions and the plan.
    fn work(&mut self, side: Side, work: Work) {
        match work {
            Work::One(call) => self.run(side, call),
            Work::All { budget } => {
                let all = self.cells.len() as u32;
                let mut progress = 0;
                while progress < all {
                    self.run(side, Call::Portion { progress, budget });
                    progress = progress.saturating_add(budget).min(all);
                }
                self.run(side, Call::Take { progress });
            }
        }
    }

    fn run(&mut self, side: Side, call: Call) {
        let (cells, out) = (&mut self.cells[..], &mut self.out[..]);
        let lent = Lent { table: black_box(&self.table), figures: &[], cells, out };
        black_box(side(black_box(&call), lent));
    }
}

/// What is timed.
#[derive(Clone, Copy)]
enum Work {
    One(Call),
    All { budget: u32 },
}

/// A row of the report.
struct Row {
    /// The first columns.
    label: String,
    bench: Bench,
    work: Work,
    /// The least times of the planner, the same loops and the plain reference, in nanoseconds.
    least: [f64; 3],
    /// The 99.9th percentile and the greatest of the planner's single calls.
    single: Option<[f64; 2]>,
}

impl Row {
    fn new(label: String, sizes: [u64; 3], work: Work) -> Self {
        Row { label, bench: Bench::new(sizes), work, least: [f64::MAX; 3], single: None }
    }

    fn measure(&mut self) {
        let job = |side: Side| {
            let work = self.work;
            move |bench: &mut Bench| bench.work(side, work)
        };
        let [planner, same, plain] = [by_planner, by_same_loops, by_reference].map(job);
        let times = side_by_side(&mut self.bench, [&planner, &same, &plain]);
        for (least, time) in self.least.iter_mut().zip(times) {
            *least = least.min(time);
        }
        if self.single.is_none() && matches!(self.work, Work::One(_)) {
            self.single = Some(one_by_one(&mut self.bench, &planner));
        }
    }

    /// The planner's least time over that of the same loops, and over the plain reference's.
    fn ratios(&self) -> [f64; 2] {
        let [planner, same, plain] = self.least;
        [planner / same, planner / plain]
    }

    fn print(&self) {
        let [same, plain] = self.ratios();
        let times: Vec<String> = std::iter::once(&self.least[0])
            .chain(self.single.iter().flatten())
            .map(|time| format!("{:.2}", time / 1000.0))
            .collect();
        println!("| {} | {} | {same:.2} | {plain:.2} |", self.label, times.join(" | "));
    }
}

/// A table of the report.
struct Listing {
    title: &'static str,
    /// The first columns.
    by: &'static str,
    rows: Vec<Row>,
}

impl Listing {
    fn new(title: &'static str, by: &'static str) -> Self {
        Listing { title, by, rows: Vec::new() }
    }

    fn print(&self) {
        let single = self.rows.iter().any(|row| row.single.is_some());
        let columns = if single { " 99.9 % | greatest |" } else { "" };
        println!("\n### {}\n", self.title);
        println!("| {} | least |{columns} to the same loops | to the plain ones |", self.by);
        println!("|{}", "--:|".repeat(self.by.split('|').count() + if single { 5 } else { 3 }));
        self.rows.iter().for_each(Row::print);
    }
}

pub fn report() -> Kept {
    let mut listings: Vec<Listing> = by_size().into_iter().chain(by_budget()).collect();
    for _ in 0..PASSES {
        listings.iter_mut().flat_map(|listing| &mut listing.rows).for_each(Row::measure);
    }
    let ratios = listings.iter().flat_map(|listing| &listing.rows).map(Row::ratios);
    let [same, plain] =
        ratios.fold([0.0f64; 2], |most, row| [most[0].max(row[0]), most[1].max(row[1])]);
    println!("\n## The planner and the reference\n");
    println!("Like for like the planner takes at most {same:.2} times as long as safe Rust with the same loops, the largest ratio of all");
    println!("rows (1.05 when such a copy was first tried); at most {MOST} is promised. It takes at most {plain:.2} times as long as the plain");
    println!("reference; at most {MOST} is promised.\n");
    introduce();
    listings.iter().for_each(Listing::print);
    same <= MOST && plain <= MOST
}

fn introduce() {
    println!("`reference` is the planner once more in plain safe Rust, written from the document alone, neither slowed nor tuned.");
    println!("`reference::same_loops`, behind the feature `same-loops`, is a copy with the planner's own loops: weights of 16 bits in a");
    println!("block's check, unused bytes joined and looked at once, a task's modes loaded before its row is filled, the ceiling held");
    println!("once against each cell of the next row and once against the least sum, no sum for a mode that does not fit, and a whole");
    println!("plan with one check that adds up the least needs before it fills a cell. The plain reference has none of these, and in");
    println!("a whole plan fills all cells and puts the workspace back where no plan fits. Times are in microseconds.\n");
    println!("- least: the planner's least time. The ratios are of least times, its own over that of the same loops and over that of the");
    println!(
        "  plain reference, the three measured in turn on the same table and the same buffers."
    );
    println!("- 99.9 %, greatest: of {SINGLE_RUNS} single calls of the planner, each timed by itself and with the clock's reading in it, {SLOWER}");
    println!("  took longer than the first and none longer than the second. The greatest is the machine's more than the planner's: an");
    println!("  operating system without real-time scheduling takes the processor away when it likes. For a deadline the steps in the");
    println!("  next section are what counts.\n");
    println!("By size, tasks, then modes, then cores grow while the other two are at their largest. A portion is all cells in one. Where");
    println!("there are fewer cores than tasks no plan fits, and the whole plan is refused with 14. By budget, one portion starts at the");
    println!("first cell of the last task's row; all portions go from progress 0 to W, and then the plan is taken. Every call checks the");
    println!(
        "whole table first, as the document has it: that is most of the time of a small budget."
    );
}

fn by_size() -> [Listing; 3] {
    let calls = [Call::Check, Call::Portion { progress: 0, budget: ALL }, Call::PlanWhole];
    let mut listings = ["Check", "One portion of all cells", "Whole plan"]
        .map(|title| Listing::new(title, "tasks | modes | cores"));
    for (listing, call) in listings.iter_mut().zip(calls) {
        let row = |sizes| Row::new(row_of(sizes), sizes, Work::One(call));
        listing.rows.extend(GROWTH.map(row));
    }
    listings
}

fn by_budget() -> [Listing; 2] {
    let [mut one, mut all] = ["One portion, by budget", "All portions and the plan, by budget"]
        .map(|title| Listing::new(title, "tasks | modes | cores | budget"));
    for sizes @ [tasks, _, cores] in BUDGETED {
        let width = cores as u32 + 1;
        for budget in [1, 7, width, (tasks as u32 + 1) * width] {
            let label = format!("{} | {budget}", row_of(sizes));
            let portion = Call::Portion { progress: width, budget };
            one.rows.push(Row::new(label.clone(), sizes, Work::One(portion)));
            all.rows.push(Row::new(label, sizes, Work::All { budget }));
        }
    }
    [one, all]
}

fn row_of([tasks, modes, cores]: [u64; 3]) -> String {
    format!("{tasks} | {modes} | {cores}")
}
