//! The planner beside two solvers of integer programs.

use std::fmt;
use std::hint::black_box;
use std::path::{Path, PathBuf};
use std::time::{Duration, Instant};

use reference::choices_of;
use trials::tables::{bench_table, near_tie, Sizes, Table};

use crate::programs::{program_of, run_plan, Folder, Solver, EMPTY};
use crate::Kept;

/// On the largest tables the planner is at least so many times faster than a solver's solving.
const LEAST: f64 = 20.0;
const LARGEST: [u64; 3] = [32, 16, 64];
/// Each process is run so often, and the planner's call made so often in each of the turns.
const TURNS: usize = 80;
const CALLS: usize = 40;
const NEAR_TIES: u64 = 20;

/// Tasks, modes, cores, and a seed: the largest table is there with three fillings.
const TABLES: [([u64; 3], u64); 7] = [
    ([2, 4, 8], 0),
    ([4, 8, 16], 0),
    ([8, 8, 32], 0),
    ([16, 16, 64], 0),
    (LARGEST, 0),
    (LARGEST, 1),
    (LARGEST, 2),
];

pub fn report() -> Kept {
    println!("\n## The planner and two solvers\n");
    println!("Each solver gets the same table as an integer program: one variable for each permitted mode, one mode for each task, and");
    println!("the cores. Costs are written in units of 10^12 with all their digits, a size that the solvers' tolerances are made for;");
    println!("their options are those that they have by themselves. Times are in microseconds, each the least of {TURNS} runs of a process");
    println!("or {} calls, made in turn.\n", TURNS * CALLS);
    println!(
        "- call: the planner's `plan_whole` in this process, the checks of the table among it."
    );
    println!("- solving: the solver's process on the table less its process on an empty program, which is one of a single variable.");
    println!("  What is left is reading the program, solving it and writing the selection. On the small tables that is little beside");
    println!("  what starting a process varies by.");
    println!("- `plan`: the whole process of the program `plan`, the table on its standard input; beside it the solver's whole process.");
    println!("- same cost: whether the solver's selection, its cost worked out in whole numbers, costs what the plan costs.");
    let solvers = [Solver::Glpsol, Solver::Cbc];
    let there: Vec<Solver> = solvers.into_iter().filter(|solver| solver.is_there()).collect();
    let folder = Folder::new();
    let mut kept = true;
    for &solver in &there {
        kept &= times(solver, &folder);
    }
    let shown = near_ties(&there, &folder);
    if there.len() < solvers.len() {
        println!(
            "\nOf glpsol and cbc (Debian's glpk-utils and coinor-cbc) not both are installed here."
        );
        return kept;
    }
    kept && shown
}

/// The least times over one table.
struct Times {
    call: Duration,
    empty: Duration,
    solver: Duration,
    /// None where the program `plan` isn't built.
    plan: Option<Duration>,
}

impl Times {
    fn of(solver: Solver, folder: &Folder, table: &Table) -> Self {
        let (bytes, count) = (table.bytes(), table.tasks.len());
        let (mut cells, mut out) = (vec![0; table.cells()], vec![0; count]);
        let mut call = || {
            let start = Instant::now();
            black_box(shunguleta::plan_whole(black_box(&bytes), &mut cells, &mut out)).ok();
            start.elapsed()
        };
        let program = program_of(&bytes, table.cores);
        let built = plan_program();
        let most = Duration::MAX;
        let plan = built.as_ref().map(|_| most);
        let mut least = Times { call: most, empty: most, solver: most, plan };
        for _ in 0..TURNS {
            least.empty = least.empty.min(solver.run(folder, EMPTY, 0).0);
            least.solver = least.solver.min(solver.run(folder, &program, count).0);
            if let (Some(time), Some(plan)) = (&mut least.plan, &built) {
                *time = (*time).min(run_plan(plan, folder, &bytes));
            }
            (0..CALLS).for_each(|_| least.call = least.call.min(call()));
        }
        least
    }

    fn solving(&self) -> Duration {
        self.solver.saturating_sub(self.empty)
    }
}

fn times(solver: Solver, folder: &Folder) -> Kept {
    let name = solver.name();
    println!("\n### {name}\n");
    println!("| tasks | modes | cores | call | {name}, solving | times | `plan` | {name} | times | {name}, empty | same cost |");
    println!("|--:|--:|--:|--:|--:|--:|--:|--:|--:|--:|--|");
    let mut fewest = f64::MAX;
    let mut others = Vec::new();
    for (sizes, seed) in TABLES {
        let [tasks, modes, cores] = sizes;
        let table = bench_table(Sizes { tasks, modes, cores, common_period: 100_000 }, seed);
        let least = Times::of(solver, folder, &table);
        let times = ratio(least.solving(), least.call);
        if sizes == LARGEST {
            fewest = fewest.min(times);
        }
        let (plan, more) = match least.plan {
            Some(plan) => (micros(plan), format!("{:.1}", ratio(least.solver, plan))),
            None => ("not built".into(), String::new()),
        };
        let other = other_selection(solver, folder, &table);
        let same = if other.is_none() { "yes" } else { "no" };
        others.extend(other);
        println!(
            "| {tasks} | {modes} | {cores} | {} | {} | {times:.0} | {plan} | {} | {more} | {} | {same} |",
            micros(least.call),
            micros(least.solving()),
            micros(least.solver),
            micros(least.empty)
        );
    }
    println!("\nOn the largest tables the planner's call is at least {fewest:.0} times faster than {name}'s solving; {LEAST:.0} times is promised.");
    for Other { plan, found } in others {
        println!(
            "\nWhere it says no the plan costs {}, {name}'s selection {}.",
            plan.cost, found.cost
        );
    }
    fewest >= LEAST
}

/// Whether a solver's selection costs something else than the plan on one of the tables whose two
/// best selections differ only in the last digits of their cost; the first such table is shown.
fn near_ties(solvers: &[Solver], folder: &Folder) -> bool {
    let tables: Vec<Table> = (0..NEAR_TIES).map(near_tie).collect();
    let others: Vec<Vec<Option<Other>>> = solvers
        .iter()
        .map(|&solver| tables.iter().map(|table| other_selection(solver, folder, table)).collect())
        .collect();
    println!("\n### Selections that are not the plan\n");
    let wrong = |place: &usize| others.iter().find_map(|found| found[*place].as_ref());
    let Some((place, other)) = (0..tables.len()).find_map(|place| Some((place, wrong(&place)?)))
    else {
        println!("On {NEAR_TIES} tables whose two best selections differ only in the last digits of their cost there are none.");
        return false;
    };
    println!("A solver counts in floating point and takes what is nearly the least for the least. {NEAR_TIES} tables have two best");
    println!("selections that differ only in the last digits of their cost. One of them:\n");
    println!("{}", listed(&tables[place]));
    println!("Its plan is {}.\n", other.plan);
    for (solver, found) in solvers.iter().zip(&others) {
        let name = solver.name();
        let count = found.iter().flatten().count();
        println!("- {name}'s selection isn't the plan on {count} of the {NEAR_TIES} tables.");
        if let Some(other) = &found[place] {
            println!("  On this one it is {}.", other.found);
        }
    }
    true
}

/// One mode for each task, with its cores and cost in whole numbers.
struct Selection {
    modes: Vec<u8>,
    cores: usize,
    cost: u64,
}

impl fmt::Display for Selection {
    fn fmt(&self, to: &mut fmt::Formatter<'_>) -> fmt::Result {
        write!(to, "{:?}, {} cores, cost {}", self.modes, self.cores, self.cost)
    }
}

/// The plan, and a solver's selection that doesn't cost the same.
struct Other {
    plan: Selection,
    found: Selection,
}

/// The solver's selection, where it doesn't cost what the plan costs.
fn other_selection(solver: Solver, folder: &Folder, table: &Table) -> Option<Other> {
    let bytes = table.bytes();
    let (mut cells, mut modes) = (vec![0; table.cells()], vec![0; table.tasks.len()]);
    let plan = shunguleta::plan_whole(&bytes, &mut cells, &mut modes).expect("a plan fits");
    let plan = Selection { modes, cores: plan.cores as usize, cost: plan.cost };
    let (_, found) = solver.run(folder, &program_of(&bytes, table.cores), table.tasks.len());
    let found = selection(&bytes, found.expect("the solver finds a selection"));
    (found.cost != plan.cost).then_some(Other { plan, found })
}

fn selection(table: &[u8], modes: Vec<u8>) -> Selection {
    let tasks = choices_of(table).expect("a benchmark's table is lawful");
    let (mut cores, mut cost) = (0, 0);
    for (choices, mode) in tasks.iter().zip(&modes) {
        let chosen = choices.iter().find(|choice| choice.mode == *mode);
        let chosen = chosen.expect("the program has only permitted modes");
        cores += chosen.need;
        cost += chosen.cost;
    }
    Selection { modes, cores, cost }
}

fn listed(table: &Table) -> String {
    let mut text = format!("    H {}, {} cores\n", table.common_period, table.cores);
    for (number, task) in table.tasks.iter().enumerate() {
        text += &format!(
            "    task {number}: E {}, modes {:?}, permitted {:#b}\n",
            task.elasticity, task.modes, task.permitted
        );
    }
    text
}

/// The program `plan`, where it has been built.
fn plan_program() -> Option<PathBuf> {
    let plan = Path::new(env!("CARGO_MANIFEST_DIR")).join("../../crates/plan/out/plan");
    plan.exists().then_some(plan)
}

fn ratio(more: Duration, less: Duration) -> f64 {
    more.as_secs_f64() / less.as_secs_f64()
}

fn micros(time: Duration) -> String {
    format!("{:.1}", time.as_nanos() as f64 / 1000.0)
}
