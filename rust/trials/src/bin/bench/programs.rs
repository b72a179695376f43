//! A table as an integer program, and the solvers that are run on it.

use std::fmt::Write;
use std::fs::{self, File};
use std::path::{Path, PathBuf};
use std::process::{Command, Stdio};
use std::time::{Duration, Instant};

use reference::choices_of;

/// Costs are written in this unit, with all their digits: the solvers' tolerances are made for numbers
/// of that size.
const COST_UNIT: u64 = 1_000_000_000_000;

/// The table as an integer program in the form that both solvers read: one variable for each permitted
/// mode, its cost, one mode for each task, and the cores.
pub fn program_of(table: &[u8], cores: u16) -> String {
    let tasks = choices_of(table).expect("a benchmark's table is lawful");
    let (mut costs, mut needs, mut ones, mut names) =
        (String::new(), String::new(), String::new(), String::new());
    for (task, choices) in tasks.iter().enumerate() {
        let _ = write!(ones, " t{task}:");
        for choice in choices {
            let name = format!("x{task}_{}", choice.mode);
            let (whole, rest) = (choice.cost / COST_UNIT, choice.cost % COST_UNIT);
            // One term to a line: both solvers bound a line's length.
            let _ = writeln!(costs, " + {whole}.{rest:012} {name}");
            let _ = writeln!(needs, " + {} {name}", choice.need);
            let _ = writeln!(ones, " + {name}");
            let _ = writeln!(names, " {name}");
        }
        let _ = writeln!(ones, " = 1");
    }
    format!("Minimize\n cost:\n{costs}Subject To\n{ones} cores:\n{needs} <= {cores}\nBinary\n{names}End\n")
}

/// A program with next to nothing in it, whose run is what a solver needs to start and stop.
pub const EMPTY: &str = "Minimize\n cost: x\nSubject To\n one: x = 1\nBinary\n x\nEnd\n";

/// A solver, run as a program of its own.
#[derive(Clone, Copy, PartialEq, Eq)]
pub enum Solver {
    Glpsol,
    Cbc,
}

impl Solver {
    pub fn name(self) -> &'static str {
        match self {
            Solver::Glpsol => "glpsol",
            Solver::Cbc => "cbc",
        }
    }

    pub fn is_there(self) -> bool {
        let words = match self {
            Solver::Glpsol => vec!["--version"],
            Solver::Cbc => vec!["-quit"],
        };
        quiet(Command::new(self.name()).args(words)).is_ok()
    }

    fn command(self, program: &Path, solution: &Path) -> Command {
        let mut command = Command::new(self.name());
        match self {
            Solver::Glpsol => command.arg("--lp").arg(program).arg("--write").arg(solution),
            Solver::Cbc => command.arg(program).arg("-solve").arg("-solution").arg(solution),
        };
        command
    }

    /// Runs the solver on a program: the time of the whole process, and the modes that it chose.
    pub fn run(self, folder: &Folder, program: &str, tasks: usize) -> (Duration, Option<Vec<u8>>) {
        let (lp, solution) = (folder.file("program.lp"), folder.file("solution"));
        fs::write(&lp, program).expect("the folder can be written");
        let _ = fs::remove_file(&solution);
        let time = quiet(&mut self.command(&lp, &solution)).expect("the solver runs");
        let text = fs::read_to_string(&solution).unwrap_or_default();
        (time, self.modes(program, &text, tasks))
    }

    /// The modes in a solution: the variables that are about 1, one for each task.
    fn modes(self, program: &str, solution: &str, tasks: usize) -> Option<Vec<u8>> {
        let names: Vec<&str> = program.split("Binary\n").nth(1)?.lines().map(str::trim).collect();
        let mut modes = vec![None; tasks];
        for line in solution.lines() {
            let words: Vec<&str> = line.split_whitespace().collect();
            let (name, value) = match (self, &words[..]) {
                (Solver::Glpsol, ["j", column, value]) => {
                    (*names.get(column.parse::<usize>().ok()? - 1)?, value)
                }
                (Solver::Cbc, [_, name, value, _]) => (*name, value),
                _ => continue,
            };
            let Some((task, mode)) = name.strip_prefix('x').and_then(|name| name.split_once('_'))
            else {
                continue;
            };
            if value.parse::<f64>().ok()? > 0.5 {
                *modes.get_mut(task.parse::<usize>().ok()?)? = mode.parse().ok();
            }
        }
        modes.into_iter().collect()
    }
}

/// The program `plan` on a table: the time of the whole process.
pub fn run_plan(plan: &Path, folder: &Folder, table: &[u8]) -> Duration {
    let file = folder.file("table");
    fs::write(&file, table).expect("the folder can be written");
    let table = File::open(&file).expect("the table was written");
    quiet(Command::new(plan).stdin(table)).expect("the program plan runs")
}

/// The time of a process whose output is thrown away.
fn quiet(command: &mut Command) -> std::io::Result<Duration> {
    let start = Instant::now();
    command.stdout(Stdio::null()).stderr(Stdio::null()).status()?;
    Ok(start.elapsed())
}

/// A folder for the solvers' files, removed at the end.
pub struct Folder(PathBuf);

impl Folder {
    pub fn new() -> Self {
        let folder = std::env::temp_dir().join(format!("shunguleta-bench-{}", std::process::id()));
        fs::create_dir_all(&folder).expect("a folder for the solvers' files");
        Folder(folder)
    }

    fn file(&self, name: &str) -> PathBuf {
        self.0.join(name)
    }
}

impl Drop for Folder {
    fn drop(&mut self) {
        let _ = fs::remove_dir_all(&self.0);
    }
}
