//! The steps of one portion: a bound as a formula, and the instructions that callgrind counts.

use std::env::current_exe;
use std::process::{Command, Output};

use reference::BLOCK;
use shunguleta::Progress;
use trials::tables::{bench_table, Mode, Sizes, Table, Task};

use crate::Kept;

/// The word that has this program make one portion and no report.
const ONE_PORTION: &str = "one-portion";

const COMMON_PERIOD: u32 = 100_000;
const LARGEST: [u32; 3] = [32, 16, 64];
/// The cells of the largest table.
const ALL: u32 = 2145;

/// The steps: the instructions that each takes at most, and how often a portion makes it at most.
const STEPS: [(&str, f64, &str); 7] = [
    ("a byte checked", 4.1, "512 (n + 1)"),
    ("a mode tested", 138.0, "k n"),
    ("a row begun", 320.0, "r"),
    ("a mode loaded", 180.0, "k r"),
    ("a cell of the next row held", 8.3, "(m + 1) r"),
    ("a cell filled", 14.0, "b"),
    ("a sum made", 10.0, "k b"),
];
/// The call itself, and clearing row n.
const ONCE: f64 = 200.0;

/// How many of each step there are.
type Counts = [u32; STEPS.len()];

fn bound(counts: Counts) -> f64 {
    let each = STEPS.iter().zip(counts).map(|((_, each, _), count)| each * f64::from(count));
    ONCE + each.sum::<f64>()
}

/// How often a portion of a budget makes each step at most, wherever it starts.
fn at_most([tasks, modes, cores]: [u32; 3], budget: u32) -> Counts {
    let cells = budget.min((tasks + 1) * (cores + 1));
    let rows = if cells == 0 { 0 } else { tasks.min((cells + cores - 1) / (cores + 1) + 1) };
    let [held, sums] = [(cores + 1) * rows, modes * cells];
    [bytes(tasks), modes * tasks, rows, modes * rows, held, cells, sums]
}

fn bytes(tasks: u32) -> u32 {
    BLOCK as u32 * (tasks + 1)
}

/// What a table is filled with.
#[derive(Debug, Clone, Copy, PartialEq, Eq)]
enum Filling {
    /// Every mode is permitted and needs one core: the most sums.
    All,
    /// Only the last mode is permitted: the longest search for a permitted one.
    Last,
    /// As the tables that are timed.
    Timed,
}

impl Filling {
    const EVERY: [Filling; 3] = [Filling::All, Filling::Last, Filling::Timed];

    fn name(self) -> &'static str {
        match self {
            Filling::All => "all",
            Filling::Last => "last",
            Filling::Timed => "timed",
        }
    }

    fn table(self, [tasks, modes, cores]: [u32; 3]) -> Table {
        if self == Filling::Timed {
            let [tasks, modes, cores] = [tasks, modes, cores].map(u64::from);
            return bench_table(Sizes { tasks, modes, cores, common_period: COMMON_PERIOD }, 0);
        }
        let listed: Vec<Mode> =
            (0..modes).map(|mode| [COMMON_PERIOD / 2 + mode, 1, COMMON_PERIOD]).collect();
        let mut task = Task::new(1, &listed);
        if self == Filling::Last {
            task = task.permitting(1 << (modes - 1));
        }
        Table::new(COMMON_PERIOD, cores as u16, &vec![task; tasks as usize])
    }
}

/// A portion over a table of some sizes.
#[derive(Debug, Clone, Copy)]
pub struct Portion {
    filling: Filling,
    sizes: [u32; 3],
    progress: u32,
    budget: u32,
}

impl Portion {
    /// The portion that a command line names.
    pub fn named(words: &[String]) -> Option<Self> {
        let [first, filling, numbers @ ..] = words else {
            return None;
        };
        let filling = Filling::EVERY.into_iter().find(|one| one.name() == filling)?;
        let numbers: Vec<u32> = numbers.iter().map_while(|word| word.parse().ok()).collect();
        let [tasks, modes, cores, progress, budget] = numbers[..] else {
            return None;
        };
        let portion = Portion { filling, sizes: [tasks, modes, cores], progress, budget };
        (first == ONE_PORTION).then_some(portion)
    }

    fn words(&self) -> Vec<String> {
        let Portion { filling, sizes: [tasks, modes, cores], progress, budget } = *self;
        let numbers = [tasks, modes, cores, progress, budget].map(|number| number.to_string());
        [ONE_PORTION, filling.name()].map(str::to_owned).into_iter().chain(numbers).collect()
    }

    /// Makes the portion, once.
    pub fn make(&self) {
        let table = self.filling.table(self.sizes);
        let mut cells = vec![0; table.cells()];
        let progress = Progress::new(self.progress);
        let made = shunguleta::portion(&table.bytes(), &mut cells, progress, self.budget);
        made.expect("the table is lawful");
    }

    /// How often the portion makes each step. A sum is counted for each mode and cell, though none is
    /// made where the mode isn't permitted or needs more cores than the column's number.
    fn counts(&self) -> Counts {
        let [tasks, modes, cores] = self.sizes;
        let width = cores + 1;
        let end = self.progress.saturating_add(self.budget).min((tasks + 1) * width);
        // Row n, the first stretch of cells, is only cleared.
        let (mut place, mut rows, mut held) = (self.progress.max(width), 0, 0);
        let cells = end.saturating_sub(place);
        while place < end {
            let start = place - place % width;
            let stop = end.min(start + width);
            rows += 1;
            held += stop - start;
            place = stop;
        }
        [bytes(tasks), modes * tasks, rows, modes * rows, held, cells, modes * cells]
    }

    /// The instructions of the call, as callgrind counts them.
    fn counted(&self) -> Option<u64> {
        let mut command = Command::new("valgrind");
        command.args(["--tool=callgrind", "--callgrind-out-file=/dev/null"]);
        command.arg("--toggle-collect=shunguleta_portion").arg(current_exe().ok()?);
        let Output { status, stderr, .. } = command.args(self.words()).output().ok()?;
        let said = String::from_utf8_lossy(&stderr);
        let count = said.lines().find_map(|line| line.split("Collected :").nth(1))?;
        count.trim().parse().ok().filter(|&count| status.success() && count > 0)
    }
}

/// The portions that are counted: all cells of tables small and large, and budgets from the last column
/// of a row on, where they meet the most rows and hold the most cells.
fn portions() -> Vec<Portion> {
    let whole = |sizes| (sizes, 0, ALL);
    let late = |sizes: [u32; 3], budget| (sizes, 2 * sizes[2] + 1, budget);
    let small = [[1, 1, 1], [8, 4, 16], [1, 16, 64], [32, 1, 64], [32, 2, 64], [32, 16, 1]];
    let budgets = [0, 1, 7, 65, 67, 500].map(|budget| late(LARGEST, budget));
    let last = [late([8, 4, 16], 7), late(LARGEST, 0), late(LARGEST, 1)];
    let timed = [late(LARGEST, 1), late(LARGEST, 65), whole(LARGEST)];
    let all = small.map(whole).into_iter().chain(budgets).chain([whole(LARGEST)]);
    let filled =
        |filling| move |(sizes, progress, budget)| Portion { filling, sizes, progress, budget };
    all.map(filled(Filling::All))
        .chain(last.map(filled(Filling::Last)))
        .chain(timed.map(filled(Filling::Timed)))
        .collect()
}

pub fn report() -> Kept {
    println!("\n## The steps of one portion\n");
    introduce();
    println!("\n### Counted\n");
    println!("Each row is one call of `shunguleta_portion`: all cells of a table, or a budget from the last column of a row on, where it");
    println!("meets the most rows and holds the most cells. The ratio is the formula's value, with the steps of just this portion, over");
    println!("the count. The tables: all: every mode is permitted and needs one core, which makes the most sums; last: only the last");
    println!("mode is permitted, which makes the longest search for one; timed: as in the section above. Modes that are not permitted");
    println!("take less to load and to pass over than the formula has for them.\n");
    if Command::new("valgrind").arg("--version").output().is_err() {
        println!("valgrind (Debian's valgrind) isn't installed here, so nothing was counted.");
        return true;
    }
    println!("| table | tasks | modes | cores | progress | budget | counted | formula | ratio |");
    println!("|--|--:|--:|--:|--:|--:|--:|--:|--:|");
    let ratios: Vec<f64> = portions().iter().map(count).collect();
    let least = ratios.iter().copied().fold(f64::MAX, f64::min);
    let most = ratios.iter().copied().fold(0.0, f64::max);
    let kept = least >= 1.0;
    let said = if kept { "bounds" } else { "does NOT bound" };
    println!(
        "\nThe formula {said} every count: it is {least:.3} to {most:.3} times what was counted."
    );
    kept
}

fn introduce() {
    println!("How many steps a portion makes at most is settled by the table's sizes, the progress and the budget: no contents of a");
    println!("table or a workspace add any, and a refused call makes fewer. With n tasks of at most k modes, m cores and a budget of b");
    println!("(W where it is above W) it checks 512 (n + 1) bytes, looking twice at those that are unused or a mode's figures, and tests");
    println!("at most k n modes. Then it fills at most b cells, with at most k b sums. It begins at most r rows: the whole part of");
    println!("(b + m - 1) / (m + 1), plus 1; at most n, and none for b = 0. Of each it loads the modes, and holds the next row up to the");
    println!("last column to be filled. So a portion takes at most\n");
    let terms: Vec<String> =
        STEPS.iter().map(|(_, each, count)| format!("{each} * {count}")).collect();
    println!("    {} + {ONCE}\n", terms.join(" + "));
    println!("instructions, {ONCE} of them for the call itself and for clearing row n:\n");
    println!("| step | instructions | how often, at most | b = 1 | b = 65 | b = {ALL} |");
    println!("|--|--:|--|--:|--:|--:|");
    let budgets = [1, 65, ALL].map(|budget| at_most(LARGEST, budget));
    for (place, (step, each, count)) in STEPS.iter().enumerate() {
        let [one, row, all] = budgets.map(|counts| counts[place]);
        println!("| {step} | {each} | {count} | {one} | {row} | {all} |");
    }
    let [one, row, all] = budgets.map(bound);
    println!("| all, at most | | | {one:.0} | {row:.0} | {all:.0} |\n");
    println!("The last three columns are the largest table's, n = 32, k = 16 and m = 64, wherever the portion starts. Divisions are among");
    println!("the instructions: one for each mode tested, three for each mode loaded and three for each row begun.\n");
    println!("The instructions of each step were chosen from counts of `valgrind --tool=callgrind`, with a few percent to spare. They are");
    println!("of this archive, as its compiler made it, and of the C library's memset: another archive has to be counted again.");
}

/// Prints a portion's row; the formula's value over the count, 0 where nothing could be counted.
fn count(portion: &Portion) -> f64 {
    let Portion { filling, sizes: [tasks, modes, cores], progress, budget } = portion;
    let bound = bound(portion.counts());
    let (counted, ratio) = match portion.counted() {
        Some(counted) => (counted.to_string(), bound / counted as f64),
        None => ("not counted".into(), 0.0),
    };
    println!(
        "| {} | {tasks} | {modes} | {cores} | {progress} | {budget} | {counted} | {bound:.0} | {ratio:.3} |",
        filling.name()
    );
    ratio
}

#[cfg(test)]
mod tests {
    use super::*;

    #[test]
    fn no_portion_makes_more_steps_than_its_budget_allows() {
        for sizes @ [tasks, _, cores] in [[1, 1, 1], [2, 3, 4], [3, 16, 7]] {
            let all = (tasks + 1) * (cores + 1);
            let filling = Filling::All;
            for (progress, budget) in
                (0..=all).flat_map(|from| (0..all + 2).map(move |b| (from, b)))
            {
                let counts = Portion { filling, sizes, progress, budget }.counts();
                let most = at_most(sizes, budget);
                assert!(counts.iter().zip(&most).all(|(count, most)| count <= most));
            }
        }
    }

    #[test]
    fn a_portion_is_named_by_its_words() {
        for portion in portions() {
            let named = Portion::named(&portion.words()).unwrap();
            assert_eq!(format!("{named:?}"), format!("{portion:?}"));
        }
        assert!(Portion::named(&[]).is_none());
    }
}
